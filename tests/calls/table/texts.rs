//! JSON texts of what a caller has, printed and read back.

use crate::checks::Checks;
use crate::make::{Done, filled, predicate, read, scan, text_of};
use crate::trees::{WITH, floats, integers};
use std::alloc::Global;
use vortex_dtype::FieldPath;
use vortex_scalar::Scalar;
use vortex_table::expr::{column, gt, lit};
use vortex_table::json::{ParseError, Shown, TextError, ToText, read_predicate, read_type};
use vortex_table::table::TableError;

const INTEGERS: &str = r#"{"kind":"i32","nullable":false}"#;
const ABOVE: &str = r#"[">",["col","a"],["lit",{"kind":"i32","nullable":false},5]]"#;
const ALL_ROWS: &str = "{\"dtype\":{\"children\":[{\"kind\":\"i32\",\"nullable\":false},\
    {\"kind\":\"u8\",\"nullable\":true}],\"kind\":\"struct\",\"names\":[\"a\",\"b\"],\
    \"nullable\":false},\"ok\":true,\"proofs\":4,\"rows\":[[1,null],[2,3],[10,1]],\
    \"rows_tested\":0,\"skipped\":[],\"whole\":[0,1]}";
const FIRST_OF_A: &str = "{\"constant\":[\"exact\",false],\"max\":[\"exact\",2],\
    \"min\":[\"exact\",1],\"null_count\":[\"exact\",0],\"ok\":true,\"sum\":[\"exact\",3]}";

/// Counts the JSON text, which is this, if there is one. That memory ran out is handed on.
fn writes<T: ToText>(
    alloc: Global,
    checks: &mut Checks<'_>,
    value: &T,
    wanted: Option<&str>,
) -> Done {
    let holds = match value.to_text(alloc) {
        Ok(text) => wanted.is_some_and(|wanted| text.as_slice() == wanted.as_bytes()),
        Err(TextError::NoText) => wanted.is_none(),
        Err(TextError::Memory) => return Err(TableError::Memory),
    };
    checks.holds(wanted.unwrap_or("no text"), holds);
    Ok(())
}

pub fn run(alloc: Global, checks: &mut Checks<'_>) -> Done {
    let null = || Scalar::null(floats(WITH));
    writes(alloc, checks, &integers(), Some(INTEGERS))?;
    writes(alloc, checks, &floats(WITH), None)?;
    writes(alloc, checks, &Scalar::from(-5i32), Some("-5"))?;
    writes(alloc, checks, &null(), None)?;
    let above = gt(alloc, column(alloc, "a")?, lit(Scalar::from(5i32)))?;
    writes(alloc, checks, &above, Some(ABOVE))?;
    writes(alloc, checks, &gt(alloc, column(alloc, "a")?, lit(null()))?, None)?;
    // Answers, whose rows are values or still in their arrays, and a description.
    let (table, all) = (filled(alloc)?, predicate(alloc, "true")?);
    writes(alloc, checks, &scan(alloc, &table, &all)?, Some(ALL_ROWS))?;
    let lazy = table.select(alloc, &[FieldPath::root(alloc)], &all)?;
    writes(alloc, checks, &lazy, Some(ALL_ROWS))?;
    let described = table.describe(alloc, &FieldPath::from_names(alloc, &["a"])?, 0)?;
    writes(alloc, checks, &described, Some(FIRST_OF_A))?;
    // Texts are printed, and types and predicates are read from them.
    let shown = Shown { alloc, value: &above };
    let printed = format!(in alloc; "{shown} {shown:?}")?;
    let wanted = format!(in alloc; "{ABOVE} {ABOVE}")?;
    checks.holds("a predicate is printed", printed.as_str() == wanted.as_str());
    checks.holds("a float is printed", text_of(alloc, &lit(null()))?.as_str() == "no text");
    writes(alloc, checks, &read(read_predicate(alloc, ABOVE.as_bytes()))?, Some(ABOVE))?;
    writes(alloc, checks, &read(read_type(alloc, INTEGERS.as_bytes()))?, Some(INTEGERS))?;
    match read_type(alloc, b"{") {
        Err(ParseError::Memory) => return Err(TableError::Memory),
        answer => checks.holds("no JSON is refused", answer.is_err()),
    }
    Ok(())
}
