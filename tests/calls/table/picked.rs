//! Which rows of which chunks a scan selects, each row known by a number of its own, in whatever
//! layouts they lie; the rows that are answered by where they stand; and groups of chunks, which a
//! scan looks at before it looks at their chunks.

use crate::checks::Checks;
use crate::make::{
    Array, Case, Done, along, append, dictionary, filled, is_found, made, predicate, scans,
    table_of,
};
use crate::make_arrays::{array_of, valid_where};
use std::alloc::Global;
use vortex_arrays::Validity;
use vortex_dtype::{FieldPath};
use vortex_table::table::{Layout, Table, TableError};

/// The rows of each chunk, numbered.
const CHUNKS: [&str; 5] = [
    "[5,0]\n[1,1]\n[5,2]",
    "[2,3]\n[4,4]\n[3,5]\n[4,6]",
    "[9,7]\n[9,8]",
    "[4,9]",
    "[3,10]\n[8,11]\n[8,12]\n[3,13]",
];

const ALL_BUT_9: &str =
    "[5,0],[1,1],[5,2],[2,3],[4,4],[3,5],[4,6],[4,9],[3,10],[8,11],[8,12],[3,13]";

const CASES: [Case<'static>; 6] = [
    ("> a 4", ("[5,0],[5,2],[9,7],[9,8],[8,11],[8,12]", "1,3", "", 9, 5)),
    ("> a 8", ("[9,7],[9,8]", "0,1,3,4", "", 2, 5)),
    ("< a 3", ("[1,1],[2,3]", "2,3,4", "", 7, 5)),
    ("= a 4", ("[4,4],[4,6],[4,9]", "2", "", 12, 5)),
    ("!= a 9", (ALL_BUT_9, "2", "", 12, 5)),
    ("> a 9", ("", "0,1,2,3,4", "", 0, 5)),
];

pub fn run(alloc: Global, checks: &mut Checks<'_>) -> Done {
    // The layout of a column makes no difference to which rows are found, and which chunks skipped.
    for hint in [Layout::Plain, Layout::Dictionary, Layout::Constant] {
        let mut table = of_chunks(alloc, hint)?;
        scans(alloc, checks, &table, &CASES)?;
        table.compact()?;
        scans(alloc, checks, &table, &CASES)?;
    }
    nulls(alloc, checks)?;
    selected(alloc, checks)?;
    joined(alloc, checks)?;
    looked_at_first(alloc, checks)
}

/// The chunks, each laid out by this hint.
fn of_chunks(alloc: Global, hint: Layout) -> Result<Table, TableError> {
    let mut table = table_of(alloc, "a:i32 b:u8?", 16, &[])?;
    for lines in CHUNKS {
        append(alloc, &mut table, lines, &[hint, Layout::Plain])?;
    }
    Ok(table)
}

/// A dictionary whose codes or values may be null, and of which one value is named by no row.
fn nullable(alloc: Global, codes: Validity, values: Validity) -> Array {
    let values = array_of(alloc, &[5i32, 1, 99, 6], values)?;
    let codes = array_of(alloc, &[0u8, 1, 3, 0], codes)?;
    along(alloc, dictionary(alloc, codes, values)?)
}

/// The rows of dictionaries that are not null and satisfy, and the chunks in which none does: the
/// value that no row has counts for nothing. A chunk of nulls alone has no bounds to be skipped by.
fn nulls(alloc: Global, checks: &mut Checks<'_>) -> Done {
    let codes = made(valid_where(alloc, &[true, true, true, false]))?;
    let values = made(valid_where(alloc, &[false, true, true, true]))?;
    let mut table = table_of(alloc, "a:i32?", 16, &[])?;
    for array in [
        nullable(alloc, codes, Validity::AllValid),
        nullable(alloc, Validity::AllValid, values),
        nullable(alloc, Validity::AllValid, Validity::AllInvalid),
    ] {
        table.append_array(made(array)?)?;
    }
    scans(alloc, checks, &table, &[
        ("> a 4", ("[5],[6],[6]", "", "", 12, 3)),
        ("> a 5", ("[6],[6]", "", "", 12, 3)),
        ("> a 6", ("", "0,1", "", 4, 3)),
        ("> a 0", ("[5],[1],[6],[1],[6]", "", "", 12, 3)),
    ])
}

/// `select` finds what `scan` does, and leaves the rows where they stand, whatever becomes of the
/// table. A clone answers the same.
fn selected(alloc: Global, checks: &mut Checks<'_>) -> Done {
    let (mut table, mut kept) = (of_chunks(alloc, Layout::Dictionary)?, Vec::new(alloc));
    for (text, _) in CASES {
        let by = predicate(alloc, text)?;
        let answer = table.select(alloc, &[FieldPath::root(alloc)], &by)?.clone()?;
        checks.holds("select: type", answer.cut.dtype == *table.dtype());
        kept.push(answer)?;
    }
    let all = predicate(alloc, "true")?;
    let found = table.select(alloc, &[FieldPath::root(alloc)], &all)?.selection;
    let mut same = found.selections.len() == CHUNKS.len();
    for (selection, len) in found.selections.iter().zip([3usize, 4, 2, 1, 4]) {
        let are_in_place = selection.rows.iter().enumerate().all(|(place, row)| *row == place);
        same = same && are_in_place && selection.rows.len() == len && selection.array.len() == len;
    }
    checks.holds("select all", same && found.whole.as_slice() == [0, 1, 2, 3, 4].as_slice());
    let answer = table.select(alloc, &[FieldPath::from_names(alloc, &["z"])?], &all);
    checks.refused("select is refused", answer, TableError::UnknownPath(0))?;
    table.compact()?;
    table.join(0)?;
    drop(table);
    for (answer, (text, found)) in kept.iter().zip(CASES) {
        checks.holds(text, is_found(alloc, answer, found)?);
    }
    Ok(())
}

/// The chunks of `filled` and one more.
fn of_three(alloc: Global) -> Result<Table, TableError> {
    let mut table = filled(alloc)?;
    append(alloc, &mut table, "[20,null]", &[])?;
    Ok(table)
}

/// Groups that are joined, and those that aren't there.
fn joined(alloc: Global, checks: &mut Checks<'_>) -> Done {
    let mut table = of_three(alloc)?;
    checks.holds("a group a chunk", table.group_count() == 3);
    for (group, count) in [(2, 3), (usize::MAX, 3), (1, 2), (1, 2), (0, 1), (0, 1)] {
        let is_there = group.saturating_add(1) < table.group_count();
        if is_there {
            table.join(group)?;
        } else {
            checks.refused("no group behind", table.join(group), TableError::NoSuchGroup)?;
        }
        checks.holds("groups", table.group_count() == count);
        checks.holds("the chunks stay", table.chunk_count() == 3 && table.len() == 4);
    }
    Ok(())
}

/// A group of two chunks is skipped by one proof, and else costs one more.
fn looked_at_first(alloc: Global, checks: &mut Checks<'_>) -> Done {
    let mut table = of_three(alloc)?;
    scans(alloc, checks, &table, &[("> a 30", ("", "0,1,2", "", 0, 3))])?;
    table.join(0)?;
    let entered = ("> a 5", ("[10,1],[20,null]", "0", "", 2, 4));
    scans(alloc, checks, &table, &[("> a 30", ("", "0,1,2", "", 0, 2)), entered])?;
    table.join(0)?;
    scans(alloc, checks, &table, &[entered, ("> a 20", ("", "0,1,2", "", 0, 1))])
}
