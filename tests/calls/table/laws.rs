//! The laws of tables, with what each of their calls gives.

use crate::checks::Checks;
use crate::make::{
    Done, TWO_COLUMNS, append, filled, has_rows, is_found, predicate, scan, table_of,
};
use crate::words::record_of;
use std::alloc::Global;
use vortex_dtype::FieldPath;
use vortex_scalar::rows;
use vortex_table::laws::{
    compact_two_tables, retype_in_two_steps, scan_around_append, scan_around_compact,
    scan_by_false, scan_by_true, scan_by_two_lists, scan_parts, scan_two_tables,
};

const ALL: &str = "[1,null],[2,3],[10,1]";

const ABOVE_1: &str = "[2,3],[10,1]";

const APPENDED: &str = "[2,3],[10,1],[20,null]";

pub fn run(alloc: Global, checks: &mut Checks<'_>) -> Done {
    scanned(alloc, checks)?;
    changed(alloc, checks)?;
    in_parts(alloc, checks)
}

/// Scans by a boolean, of two tables, and by paths that cover the same.
fn scanned(alloc: Global, checks: &mut Checks<'_>) -> Done {
    let (table, other, paths) = (filled(alloc)?, filled(alloc)?, [FieldPath::root(alloc)]);
    let all = scan_by_true(alloc, &table, &paths)?;
    checks.holds("by true", is_found(alloc, &all, (ALL, "", "0,1", 0, 4))?);
    let none = scan_by_false(alloc, &table, &paths)?;
    checks.holds("by false", is_found(alloc, &none, ("", "0,1", "", 0, 2))?);
    let above = predicate(alloc, "> a 1")?;
    let (one, two) = scan_two_tables(alloc, &table, &other, &paths, &above);
    let (one, two) = (one?, two?);
    checks.holds("two tables", one.rows == two.rows && has_rows(alloc, &one, ABOVE_1)?);
    let named = [FieldPath::from_names(alloc, &["b"])?, FieldPath::from_names(alloc, &["a"])?];
    let (one, two) = scan_by_two_lists(alloc, &table, &paths, &named, &above);
    let (one, two) = (one?, two?);
    checks.holds("two lists", one.rows == two.rows && has_rows(alloc, &one, ABOVE_1)?);
    checks.holds("their types", one.dtype == *table.dtype() && two.dtype == one.dtype);
    Ok(())
}

/// Scans around an append and a compaction, and retypes in two steps and at once.
fn changed(alloc: Global, checks: &mut Checks<'_>) -> Done {
    let (mut table, mut other, paths) = (filled(alloc)?, filled(alloc)?, [FieldPath::root(alloc)]);
    let (above, dtype) = (predicate(alloc, "> a 1")?, record_of(alloc, TWO_COLUMNS)?);
    let values = rows(alloc, [(20i32, None::<u8>), (0, None)])?;
    let (before, appended, after) =
        scan_around_append(alloc, &mut table, &dtype, &values, &[], &paths, &above);
    appended?;
    checks.holds("before an append", has_rows(alloc, &before?, ABOVE_1)?);
    checks.holds("one row more", has_rows(alloc, &after?, APPENDED)?);
    let (before, compacted, after) = scan_around_compact(alloc, &mut table, &paths, &above);
    compacted?;
    let (before, after) = (before?, after?);
    checks.holds("compacted", before.rows == after.rows && has_rows(alloc, &after, APPENDED)?);
    checks.holds("its chunks", before.skipped == after.skipped && after.skipped.is_empty());
    let (one, two) = compact_two_tables(&mut table, &mut other);
    one?;
    two?;
    let everything = predicate(alloc, "true")?;
    let found = scan(alloc, &other, &everything)?;
    checks.holds("compacted with another", has_rows(alloc, &found, ALL)?);
    let (mut direct, mut stepwise) = (filled(alloc)?, filled(alloc)?);
    let (through, last) = (record_of(alloc, "x:i64? y:i32?")?, record_of(alloc, "p:i32 q:i64?")?);
    let wanted = last.clone()?;
    let all = retype_in_two_steps(alloc, &mut stepwise, &mut direct, through, last)?;
    all.first?;
    all.second?;
    all.at_once?;
    checks.holds("one type", *stepwise.dtype() == wanted && *direct.dtype() == wanted);
    let (one, two) = (scan(alloc, &stepwise, &everything)?, scan(alloc, &direct, &everything)?);
    checks.holds("one list of rows", one.rows == two.rows && has_rows(alloc, &one, ALL)?);
    Ok(())
}

/// Scans three tables, and the table that is them put end to end. The two chunks of the first are
/// one group, and so are those of the whole. Of `b` one chunk has nulls alone, two have none, and
/// two have some.
fn in_parts(alloc: Global, checks: &mut Checks<'_>) -> Done {
    let (mut first, mut table) = (filled(alloc)?, filled(alloc)?);
    let second = table_of(alloc, TWO_COLUMNS, 16, &["[20,null]\n[0,null]"])?;
    for lines in ["[20,null]\n[0,null]", "[1,null]\n[2,3]", "[10,1]"] {
        append(alloc, &mut table, lines, &[])?;
    }
    first.join(0)?;
    table.join(0)?;
    let parts = Vec::from_array(alloc, [first, second, filled(alloc)?])?;
    let there = predicate(alloc, "is_not_null b")?;
    let all = scan_parts(alloc, &parts, &table, &[FieldPath::root(alloc)], &there)?;
    let answer = all.whole?;
    let found = ("[2,3],[10,1],[2,3],[10,1]", "2", "1,4", 4, 10);
    checks.holds("the whole", is_found(alloc, &answer, found)?);
    let (mut tested, mut proofs, mut count) = (0, 0, 0);
    for found in all.parts {
        let part = found?;
        tested += part.rows_tested;
        proofs += part.proofs;
        count += part.rows.len();
        checks.holds("type of a part", part.dtype == answer.dtype);
    }
    checks.holds("rows of the parts", count == answer.rows.len());
    checks.holds("counts of the parts", tested == 4 && proofs == 10);
    Ok(())
}
