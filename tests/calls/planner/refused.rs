//! Scans that the planner refuses as a table does.

use crate::checks::Checks;
use crate::make::{BOUND_LENGTH, above, no_rows, paths, six_chunks};
use example_planner::plan::{chunks_to_leave_out, gather, scan_by_workers, split};
use std::alloc::Global;
use vortex_table::dtype::FieldPath;
use vortex_table::expr::{Expression, lit};
use vortex_table::scalar::Scalar;
use vortex_table::table::{Table, TableError};

/// The refusal, where there is one. Want of memory is handed on.
fn refusal<T: Drop>(answer: Result<T, TableError>) -> Result<Option<TableError>, TableError> {
    match answer {
        Ok(_) => Ok(None),
        Err(TableError::Memory) => Err(TableError::Memory),
        Err(error) => Ok(Some(error)),
    }
}

/// Counts a scan that is to be refused so: by the table, by workers, also where all chunks are left
/// out, of a table without rows, and of the parts; and where the predicate is at fault, in asking
/// for the chunks to leave out.
fn refused(
    alloc: Global,
    checks: &mut Checks<'_>,
    name: &str,
    paths: &[FieldPath],
    predicate: &Expression,
    wanted: TableError,
) -> Result<(), TableError> {
    let table = six_chunks(alloc)?;
    let by_table = refusal(table.scan(alloc, paths, predicate))?;
    let (none, all): (Table, [usize; 6]) = (no_rows(alloc)?, [0, 1, 2, 3, 4, 5]);
    let (mut same, length) = (by_table == Some(wanted), BOUND_LENGTH);
    for (table, left_out) in [(&table, &all[..0]), (&table, &all[..]), (&none, &all[..0])] {
        let rows = scan_by_workers(alloc, table, length, left_out, 3, paths, predicate);
        same = same && refusal(rows)? == Some(wanted);
    }
    if wanted != TableError::UnknownPath(0) {
        let left_out = chunks_to_leave_out(alloc, &table, predicate);
        same = same && refusal(left_out)? == Some(wanted);
    }
    let parts = split(alloc, &table, length, &[], 3)?;
    same = same && refusal(gather(alloc, &parts, paths, predicate))? == Some(wanted);
    checks.holds(name, same);
    Ok(())
}

pub fn scans_are_refused(alloc: Global, checks: &mut Checks<'_>) -> Result<(), TableError> {
    for (name, path, column, wanted) in [
        ("a path that leads nowhere", "z", "a", TableError::UnknownPath(0)),
        ("an unknown column", "a", "z", TableError::UnknownColumn),
        ("two types", "a", "s", TableError::UnequalTypes),
    ] {
        let predicate = above(alloc, column, 5)?;
        refused(alloc, checks, name, &paths(alloc, path)?, &predicate, wanted)?;
    }
    let number = lit(Scalar::from(7i32));
    refused(alloc, checks, "a number", &paths(alloc, "a")?, &number, TableError::NotBoolean)
}
