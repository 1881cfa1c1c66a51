//! Which worker gets which chunks.

use crate::checks::Checks;
use crate::make::{BOUND_LENGTH, CHUNKS, no_rows, six_chunks};
use example_planner::plan::split;
use std::alloc::Global;
use vortex_table::table::TableError;

/// The chunks that are left out, how many workers there are, and how many rows each part has.
type Case = (&'static [usize], usize, &'static [usize]);

const CASES: [Case; 10] = [
    (&[], 1, &[13]),
    (&[], 2, &[10, 3]),
    (&[], 3, &[6, 5, 2]),
    (&[], 4, &[4, 6, 3]),
    (&[], 100, &[3, 1, 2, 4, 1, 2]),
    (&[0, 2], 1, &[8]),
    (&[0, 2], 3, &[5, 3]),
    (&[2, 0, 9], 100, &[1, 4, 1, 2]),
    (&[3], 2, &[6, 3]),
    (&[0, 1, 2, 3, 4, 5], 3, &[0]),
];

/// Each chunk that isn't left out is in one part, in order, with the table's type.
pub fn chunks_are_shared_out(alloc: Global, checks: &mut Checks<'_>) -> Result<(), TableError> {
    let table = six_chunks(alloc)?;
    for (case, (left_out, workers, wanted)) in CASES.iter().enumerate() {
        let parts = split(alloc, &table, BOUND_LENGTH, *left_out, *workers)?;
        let mut same = parts.len() == wanted.len() && parts.len() <= *workers;
        let mut lens = Vec::new(alloc);
        for (part, rows) in parts.iter().zip(*wanted) {
            same = same && part.len() == *rows && *part.dtype() == *table.dtype();
            for index in 0..part.chunk_count() {
                lens.push(part.chunk(index).map(|chunk| chunk.len()))?;
            }
        }
        checks.holds_at("rows of the parts", case, same);
        let mut kept = Vec::new(alloc);
        for (index, chunk) in CHUNKS.iter().enumerate() {
            if !left_out.contains(&index) {
                kept.push(Some(chunk.len()))?;
            }
        }
        checks.holds_at("chunks of the parts", case, lens.as_slice() == kept.as_slice());
    }
    let parts = split(alloc, &no_rows(alloc)?, BOUND_LENGTH, &[], 4)?;
    let is_empty = parts.len() == 1 && parts.iter().all(|part| part.is_empty());
    checks.holds("a table without rows", is_empty);
    Ok(())
}
