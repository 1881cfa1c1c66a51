//! Calls that a catalogue refuses, each of which leaves it as it was.

use crate::checks::Checks;
use crate::days::{DAYS, Known, catalogue_of, is_known, knows, set_of};
use example_catalogue::catalogue::Catalogue;
use example_catalogue::error::CatalogueError;
use std::alloc::Global;
use vortex_dtype::BufferString;
use vortex_scalar::ScalarValue;
use vortex_stats::Precision::Exact;
use vortex_stats::{Stat, StatsError, StatsSet};

/// What is known of the first three days.
const ALL: Known = [Exact(1), Exact(9), Exact(3)];

/// Counts a call on the first three days that is to be refused so, and leaves them. Want of memory
/// is handed on.
fn refused(
    alloc: Global,
    checks: &mut Checks<'_>,
    days: &Catalogue,
    outcome: Result<(), CatalogueError>,
    (name, wanted): (&str, CatalogueError),
) -> Result<(), CatalogueError> {
    let is_refused = match outcome {
        Err(CatalogueError::Stats(StatsError::Memory)) => return outcome,
        Err(error) => error == wanted,
        Ok(()) => false,
    };
    let is_same = is_known(&days.statistics(alloc, 0, 9)?, &ALL);
    checks.holds(name, is_refused && is_same);
    Ok(())
}

/// A call that memory is refused to leaves the first three days as they were.
fn stays(
    checks: &mut Checks<'_>,
    name: &str,
    days: &Catalogue,
    outcome: Result<(), CatalogueError>,
) -> Result<(), CatalogueError> {
    if outcome.is_err() {
        let are_known = (1..4).all(|day| knows(days, day, &DAYS[day as usize - 1]));
        checks.stays(name, are_known && days.partition(4).is_none());
    }
    outcome
}

/// Partitions that are not merged into others.
const MERGES: [(u64, u64, (&str, CatalogueError)); 5] = [
    (2, 2, ("a partition with itself", CatalogueError::Same)),
    (2, 7, ("with none", CatalogueError::Missing)),
    (7, 2, ("none with one", CatalogueError::Missing)),
    (7, 8, ("none with none", CatalogueError::Missing)),
    (7, 7, ("none with itself", CatalogueError::Same)),
];

pub fn run(alloc: Global, checks: &mut Checks<'_>) -> Result<(), CatalogueError> {
    let mut days = catalogue_of(alloc, &[1, 2, 3])?;
    let outcome = days.add(2, set_of(alloc, &DAYS[3])?);
    refused(alloc, checks, &days, outcome, ("a number twice", CatalogueError::Taken))?;
    let string = ScalarValue::Utf8(BufferString::from_static("x"));
    let outcome = days.add(4, StatsSet::of(alloc, Stat::Min, Exact(string)));
    let (error, wanted) = (StatsError::InvalidStat, CatalogueError::from(StatsError::InvalidStat));
    checks.holds("an error of statistics", wanted == CatalogueError::Stats(error));
    refused(alloc, checks, &days, outcome, ("a bound of another type", wanted))?;
    for (into, from, wanted) in MERGES {
        let outcome = days.merge_partitions(into, from);
        refused(alloc, checks, &days, outcome, wanted)?;
    }
    let outcome = days.merge_partitions(1, 3);
    stays(checks, "a merge without memory", &days, outcome)?;
    let mut days = catalogue_of(alloc, &[1, 2, 3])?;
    let outcome = days.add(4, set_of(alloc, &DAYS[3])?);
    stays(checks, "an addition without memory", &days, outcome)?;
    checks.holds("an addition", knows(&days, 4, &DAYS[3]));
    Ok(())
}
