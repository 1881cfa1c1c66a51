//! The rows that workers answer, against those of one scan.

use crate::checks::Checks;
use crate::make::{BOUND_LENGTH, above, are, no_rows, paths, six_chunks};
use example_planner::plan::{chunks_to_leave_out, gather, scan_by_workers, split};
use std::alloc::Global;
use vortex_table::dtype::FieldPath;
use vortex_table::table::TableError;

/// The rows above 5.
const FOUND: [i128; 8] = [10, 20, 21, 22, 23, 6, 30, 31];

/// Whatever the number of workers, and whether the chunks that a scan skips are left out or not,
/// the rows are those of a scan.
pub fn workers_answer_all_rows(alloc: Global, checks: &mut Checks<'_>) -> Result<(), TableError> {
    let (table, predicate) = (six_chunks(alloc)?, above(alloc, "a", 5)?);
    let whole = Vec::from_array(alloc, [FieldPath::root(alloc)])?;
    let scanned = table.scan(alloc, &whole, &predicate)?;
    checks.holds("a scan", are(&scanned.rows, &FOUND));
    let left_out = chunks_to_leave_out(alloc, &table, &predicate)?;
    let skipped = left_out.as_slice();
    checks.holds("skipped", skipped == [0, 2].as_slice());
    for count in [1, 3, 100] {
        for left_out in [&skipped[..0], skipped] {
            let rows =
                scan_by_workers(alloc, &table, BOUND_LENGTH, left_out, count, &whole, &predicate)?;
            checks.holds_at("all chunks, and without the skipped", count, rows == scanned.rows);
        }
        // Shorter bounds change nothing.
        let parts = split(alloc, &table, 1, skipped, count)?;
        let rows = gather(alloc, &parts, &paths(alloc, "a")?, &predicate)?;
        checks.holds_at("gathered", count, are(&rows, &FOUND));
    }
    checks.holds("of no worker", gather(alloc, &[], &whole, &predicate)?.is_empty());
    let none = no_rows(alloc)?;
    let rows = scan_by_workers(alloc, &none, BOUND_LENGTH, &[], 3, &whole, &predicate)?;
    checks.holds("of no rows", rows.is_empty());
    Ok(())
}

/// The rows of a chunk that is left out are lost, where a scan doesn't skip it.
pub fn what_is_left_out_is_lost(alloc: Global, checks: &mut Checks<'_>) -> Result<(), TableError> {
    let (table, paths, predicate) =
        (six_chunks(alloc)?, paths(alloc, "a")?, above(alloc, "a", 5)?);
    let cases: [(&[usize], &[i128]); 2] = [(&[3], &[10, 6, 30, 31]), (&[0, 1, 2, 3, 4, 5], &[])];
    for (left_out, wanted) in cases {
        for count in [1, 2, 100] {
            let rows =
                scan_by_workers(alloc, &table, BOUND_LENGTH, left_out, count, &paths, &predicate)?;
            checks.holds_at("the rows that are left", count, are(&rows, wanted));
        }
    }
    Ok(())
}
