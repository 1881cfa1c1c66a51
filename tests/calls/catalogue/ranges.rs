//! What a catalogue knows of its partitions, and of ranges of them.

use crate::checks::Checks;
use crate::days::{DAYS, Known, catalogue_of, knows, tells};
use example_catalogue::error::CatalogueError;
use std::alloc::Global;
use vortex_stats::Precision::{Absent, Exact, Inexact};

/// What is known of no rows.
const NO_ROWS: Known = [Absent, Absent, Exact(0)];

/// What is known of all rows.
const ALL: Known = [Exact(1), Exact(9), Absent];

/// Ranges, from one day to before another, and what is known of them.
const RANGES: [(&str, (u64, u64), Known); 6] = [
    ("exact", (1, 3), [Exact(1), Exact(9), Exact(1)]),
    ("inexact", (3, 5), [Inexact(1), Inexact(9), Inexact(6)]),
    ("mixed", (1, 5), [Exact(1), Exact(9), Inexact(7)]),
    ("all", (0, 9), ALL),
    ("a range of none", (6, 9), NO_ROWS),
    ("a range that ends at its start", (3, 3), NO_ROWS),
];

pub fn run(alloc: Global, checks: &mut Checks<'_>) -> Result<(), CatalogueError> {
    let empty = catalogue_of(alloc, &[])?;
    tells(alloc, checks, &empty, ("no partition", (0, u64::MAX), NO_ROWS))?;
    checks.holds("none of a number", empty.partition(1).is_none());
    let mut days = catalogue_of(alloc, &[1, 2, 3, 4, 5])?;
    for (i, known) in DAYS.into_iter().enumerate() {
        let day = i as u64 + 1;
        checks.holds_at("partition", i, knows(&days, day, &known));
        tells(alloc, checks, &days, ("a range of one", (day, day + 1), known))?;
    }
    checks.holds("no such partition", days.partition(6).is_none());
    for case in RANGES {
        tells(alloc, checks, &days, case)?;
    }
    days.merge_partitions(2, 4)?;
    let is_merged = knows(&days, 2, &[Exact(1), Inexact(9), Inexact(4)]);
    checks.holds("merge_partitions", is_merged && days.partition(4).is_none());
    tells(alloc, checks, &days, ("all, after a merge", (0, 9), ALL))?;
    checks.holds("drop_partition", days.drop_partition(2) && days.partition(2).is_none());
    checks.holds("dropped already", !days.drop_partition(2));
    tells(alloc, checks, &days, ("the others", (0, 5), [Inexact(1), Exact(9), Exact(3)]))
}
