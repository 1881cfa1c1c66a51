//! Scans by predicates that no line says yet, along several paths, of records that nest deeper than
//! any line says, and by bounds that are shortened to the table's bound length.

use crate::checks::Checks;
use crate::make::{Done, filled, is_found, scans, table_of};
use crate::trees::{WITHOUT, integers};
use crate::words::{expression, record_of};
use std::alloc::{AllocError, Global};
use vortex_dtype::{DType, FieldPath};
use vortex_scalar::{PValue, Scalar, ScalarValue, row};
use vortex_table::expr::{column_at, gt, lit};
use vortex_table::table::{Table, TableError};

pub fn run(alloc: Global, checks: &mut Checks<'_>) -> Done {
    let table = filled(alloc)?;
    checks.holds("the rows", table.len() == 3 && !table.is_empty() && table.chunk_count() == 2);
    scans(alloc, checks, &table, &[
        ("and > a 1 < a 5", ("[2,3]", "1", "", 2, 2)),
        ("or = a 1 = a 10", ("[1,null],[10,1]", "", "", 3, 2)),
        ("true", ("[1,null],[2,3],[10,1]", "", "0,1", 0, 4)),
        ("false", ("", "0,1", "", 0, 2)),
    ])?;
    paths(alloc, checks)?;
    deep(alloc, checks)?;
    leaves(alloc, checks)?;
    groups_of_leaves(alloc, checks)
}

/// A path does not hide what another asks for, whichever comes first: of each list of paths, what
/// the only row is cut to. Its chunk is taken whole.
fn paths(alloc: Global, checks: &mut Checks<'_>) -> Done {
    let inner = record_of(alloc, "b:i32 c:i32")?;
    let dtype = DType::struct_(alloc, &[("a", inner), ("d", integers())], WITHOUT)?;
    let pair = Some(row(alloc, (1i32, 2i32))?);
    let three = Some(ScalarValue::Primitive(PValue::I32(3)));
    let rows = Vec::from_array(alloc, [Some(ScalarValue::tuple(alloc, [pair, three])?)])?;
    let mut table = Table::create(alloc, dtype.clone()?, 16, &[])?;
    table.append_owned(&dtype, rows, &[])?;
    let cases: [(&[&[&str]], &str); 4] = [
        (&[&["a", "b"], &["a"]], "[[1,2]]"),
        (&[&["a", "b"]], "[[1]]"),
        (&[], "[]"),
        (&[&["d"], &[]], "[[1,2],3]"),
    ];
    for (along, found) in cases {
        let mut all = Vec::new(alloc);
        for names in along {
            all.push(FieldPath::from_names(alloc, *names)?)?;
        }
        let answer = table.scan(alloc, &all, &expression(alloc, "true")?)?;
        let is_right = is_found(alloc, &answer, (found, "", "0", 0, 2))?;
        checks.holds(found, is_right);
    }
    Ok(())
}

/// How many records stand around the number.
const DEPTH: usize = 100;

/// The value of rows with one field each, and one number inside.
fn nested_row(alloc: Global, number: i32) -> Result<Option<ScalarValue>, AllocError> {
    let mut value = Some(ScalarValue::Primitive(PValue::I32(number)));
    for _ in 0..DEPTH {
        value = Some(ScalarValue::tuple(alloc, [value])?);
    }
    Ok(value)
}

/// Three rows under a hundred records, scanned by the number inside.
fn deep(alloc: Global, checks: &mut Checks<'_>) -> Done {
    let (mut dtype, mut values) = (integers(), Vec::new(alloc));
    for _ in 0..DEPTH {
        dtype = DType::struct_(alloc, &[("p", dtype)], WITHOUT)?;
    }
    for number in 0..3 {
        values.push(nested_row(alloc, number)?)?;
    }
    let mut table = Table::create(alloc, dtype.clone()?, 16, &[])?;
    table.append_owned(&dtype, values, &[])?;
    let path = ["p"; DEPTH];
    let above = gt(alloc, column_at(alloc, &path)?, lit(Scalar::from(1i32)))?;
    let answer = table.scan(alloc, &[FieldPath::from_names(alloc, &path)?], &above)?;
    let wanted = Scalar::new_unchecked(dtype.clone()?, nested_row(alloc, 2)?);
    checks.holds("the row", answer.rows.as_slice() == [wanted].as_slice());
    checks.holds("its chunk", answer.rows_tested == 3 && answer.skipped.is_empty());
    checks.holds("the type", answer.dtype == dtype);
    Ok(())
}

/// Texts and booleans, in two chunks.
fn fruits(alloc: Global, bound_length: usize) -> Result<Table, TableError> {
    let chunks = ["[\"apple\",false]\n[\"apricot\",false]", "[\"melon\",true]"];
    table_of(alloc, "name:utf8 round:bool", bound_length, &chunks)
}

/// Bytes or null in two chunks.
fn blobs(alloc: Global, bound_length: usize, chunks: [&str; 2]) -> Result<Table, TableError> {
    table_of(alloc, "blob:binary?", bound_length, &chunks)
}

const IS_2: &str = r#"["=",["col","blob"],["lit",{"kind":"binary","nullable":true},"02"]]"#;
const IS_1_255: &str = r#"["=",["col","blob"],["lit",{"kind":"binary","nullable":true},"01ff"]]"#;
const ABOVE_B: &str = r#"[">",["col","blob"],["lit",{"kind":"binary","nullable":true},"62"]]"#;
const IS_LAST: &str = r#"["=",["col","blob"],["lit",{"kind":"binary","nullable":true},"ffffff"]]"#;

fn leaves(alloc: Global, checks: &mut Checks<'_>) -> Done {
    let (short, long) = (fruits(alloc, 4)?, fruits(alloc, 7)?);
    scans(alloc, checks, &short, &[
        ("= name 'melon'", (r#"["melon",true]"#, "0", "", 1, 2)),
        // A text below a raised bound.
        ("= name 'aprie'", ("", "1", "", 2, 2)),
        ("= round true", (r#"["melon",true]"#, "0", "", 1, 2)),
        ("< round true", (r#"["apple",false],["apricot",false]"#, "1", "", 2, 2)),
    ])?;
    // A text above an exact bound.
    scans(alloc, checks, &long, &[("= name 'aprie'", ("", "0,1", "", 0, 2))])?;
    let chunks = ["[\"01ff\"]\n[null]", "[\"03\"]"];
    let (short, long) = (blobs(alloc, 1, chunks)?, blobs(alloc, 2, chunks)?);
    scans(alloc, checks, &short, &[
        (IS_2, ("", "1", "", 2, 2)),
        (IS_1_255, (r#"["01ff"]"#, "1", "", 2, 2)),
    ])?;
    scans(alloc, checks, &long, &[(IS_2, ("", "0,1", "", 0, 2))])
}

/// The bounds of a group of two chunks: raised past both, and missing from above.
fn groups_of_leaves(alloc: Global, checks: &mut Checks<'_>) -> Done {
    let mut raised = blobs(alloc, 3, ["[\"61ffffff\"]", "[\"62\"]"])?;
    raised.join(0)?;
    scans(alloc, checks, &raised, &[(ABOVE_B, ("", "1", "", 1, 3))])?;
    let mut missing = blobs(alloc, 2, ["[\"ffffff\"]", "[\"00\"]"])?;
    missing.join(0)?;
    scans(alloc, checks, &missing, &[(IS_LAST, (r#"["ffffff"]"#, "1", "", 1, 3))])
}
