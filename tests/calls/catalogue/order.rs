//! Two catalogues of the same partitions, whose order differs.

use crate::checks::Checks;
use crate::days::{Known, catalogue_of, is_known};
use example_catalogue::catalogue::{Catalogue, ask_both};
use example_catalogue::error::CatalogueError;
use std::alloc::Global;
use vortex_stats::Precision::{Absent, Exact, Inexact};

/// Some orders of the first four days.
const ORDERS: [[u64; 4]; 6] =
    [[1, 2, 3, 4], [2, 3, 4, 1], [3, 4, 1, 2], [4, 1, 2, 3], [4, 3, 2, 1], [2, 1, 4, 3]];

/// Counts what both know of all partitions.
fn alike(
    alloc: Global,
    checks: &mut Checks<'_>,
    name: &str,
    both: (&Catalogue, &Catalogue),
    wanted: &Known,
) -> Result<(), CatalogueError> {
    let (first, second) = ask_both(alloc, both.0, both.1, 0, 9)?;
    checks.holds_at(name, 0, is_known(&first, wanted));
    checks.holds_at(name, 1, is_known(&second, wanted));
    Ok(())
}

pub fn run(alloc: Global, checks: &mut Checks<'_>) -> Result<(), CatalogueError> {
    let sorted = catalogue_of(alloc, &[1, 2, 3, 4])?;
    let wanted = [Exact(1), Exact(9), Inexact(7)];
    for days in ORDERS {
        let mut other = catalogue_of(alloc, &days)?;
        alike(alloc, checks, "added", (&sorted, &other), &wanted)?;
        other.merge_partitions(days[0], days[3])?;
        alike(alloc, checks, "merged once", (&sorted, &other), &wanted)?;
        other.merge_partitions(days[1], days[0])?;
        other.merge_partitions(days[2], days[1])?;
        alike(alloc, checks, "merged into one", (&sorted, &other), &wanted)?;
        let is_left = other.partition(days[2]).is_some() && other.partition(days[0]).is_none();
        checks.holds("the one that is left", is_left);
    }
    let (first, second) = (catalogue_of(alloc, &[5, 1, 2])?, catalogue_of(alloc, &[2, 1, 5])?);
    let unknown = [Exact(1), Exact(9), Absent];
    alike(alloc, checks, "a count that isn't known", (&first, &second), &unknown)
}
