//! Types, arrays, predicates and tables that calls are made on, and what is asked of answers: by
//! their JSON texts.

use crate::checks::Checks;
use crate::make_arrays::{answered, names};
use crate::words::{expression, record_of};
use std::alloc::{AllocError, Global};
use vortex_arrays::{ArrayLayout, ArrayRef, DictArray, StructArray, Validity};
use vortex_dtype::{DTypeError, FieldPath};
use vortex_table::expr::Expression;
use vortex_table::json::{ParseError, Shown, ToText, read_lines, read_predicate};
use vortex_table::table::{Layout, ScanAnswer, Table, TableError};

/// The end of calls, of which none was refused memory.
pub type Done = Result<(), TableError>;

/// An array, where there is memory for it.
pub type Array = Result<ArrayRef, DTypeError>;

/// What a scan finds: its rows, the chunks that it skips, and those that it takes whole; how many
/// rows it tests, and how many proofs it tries.
pub type Found<'a> = (&'a str, &'a str, &'a str, u64, u64);

/// A predicate, and what a scan by it finds.
pub type Case<'a> = (&'a str, Found<'a>);

/// The answer. A refusal that is not for want of memory makes the program wrong.
pub fn made<T: Drop>(answer: Result<T, DTypeError>) -> Result<T, TableError> {
    match answer {
        Ok(answer) => Ok(answer),
        Err(DTypeError::Memory) => Err(TableError::Memory),
        Err(_) => Err(TableError::InvalidValue(0)),
    }
}

/// The same of what was read.
pub fn read<T: Drop>(answer: Result<T, ParseError>) -> Result<T, TableError> {
    match answer {
        Ok(answer) => Ok(answer),
        Err(ParseError::Memory) => Err(TableError::Memory),
        Err(ParseError::Malformed) => Err(TableError::InvalidValue(0)),
    }
}

/// The predicate of these words, or of this JSON text.
pub fn predicate(alloc: Global, text: &str) -> Result<Expression, TableError> {
    if text.starts_with("[") {
        return read(read_predicate(alloc, text.as_bytes()));
    }
    Ok(expression(alloc, text)?)
}

/// Appends a chunk of these rows, lines of JSON.
pub fn append(alloc: Global, table: &mut Table, lines: &str, hints: &[Layout]) -> Done {
    let dtype = table.dtype().clone()?;
    let values = read(read_lines(alloc, lines.as_bytes(), &dtype))?;
    table.append(&dtype, &values, hints)
}

/// A table of these columns, with a chunk for each of these lists of rows.
pub fn table_of(
    alloc: Global,
    columns: &str,
    bound_length: usize,
    chunks: &[&str],
) -> Result<Table, TableError> {
    let mut table = Table::create(alloc, record_of(alloc, columns)?, bound_length, &[])?;
    for lines in chunks {
        append(alloc, &mut table, lines, &[])?;
    }
    Ok(table)
}

/// The columns of `filled`.
pub const TWO_COLUMNS: &str = "a:i32 b:u8?";

/// Two chunks of three rows.
pub fn filled(alloc: Global) -> Result<Table, TableError> {
    table_of(alloc, TWO_COLUMNS, 16, &["[1,null]\n[2,3]", "[10,1]"])
}

/// Records of one column.
pub fn records(alloc: Global, name: &str, column: ArrayRef, validity: Validity) -> Array {
    let (len, names) = (column.len(), names(alloc, &[name])?);
    let fields = Vec::from_array(alloc, [column])?;
    Ok(answered(StructArray::try_new(alloc, names, fields, len, validity))?.into_array())
}

/// Records of a column `a`, none of which is null.
pub fn along(alloc: Global, column: ArrayRef) -> Array {
    records(alloc, "a", column, Validity::NonNullable)
}

pub fn dictionary(alloc: Global, codes: ArrayRef, values: ArrayRef) -> Array {
    Ok(answered(DictArray::try_new(alloc, codes, values))?.into_array())
}

/// A table of the array's type, with the array as its only chunk.
pub fn one_chunk(alloc: Global, array: Array) -> Result<Table, TableError> {
    let array = made(array)?;
    let mut table = Table::create(alloc, array.dtype().clone()?, 16, &[])?;
    table.append_array(array)?;
    Ok(table)
}

/// Scans whole rows.
pub fn scan(alloc: Global, table: &Table, by: &Expression) -> Result<ScanAnswer, TableError> {
    table.scan(alloc, &[FieldPath::root(alloc)], by)
}

/// The JSON text, or `no text`.
pub fn text_of<T: ToText>(alloc: Global, value: &T) -> Result<String, AllocError> {
    let shown = Shown { alloc, value };
    format!(in alloc; "{shown}")
}

/// Whether this is what the answer tells.
pub fn is_found<T: ToText>(
    alloc: Global,
    answer: &T,
    (rows, skipped, whole, tested, proofs): Found<'_>,
) -> Result<bool, TableError> {
    let found = format!(in alloc; "\"proofs\":{proofs},\"rows\":[{rows}],\"rows_tested\":")?;
    let found = format!(in alloc; "{found}{tested},\"skipped\":[{skipped}],\"whole\":[{whole}]}}")?;
    Ok(text_of(alloc, answer)?.as_str().ends_with(found.as_str()))
}

/// Whether these are the rows of the answer.
pub fn has_rows(alloc: Global, answer: &ScanAnswer, rows: &str) -> Result<bool, TableError> {
    let rows = format!(in alloc; "\"rows\":[{rows}],")?;
    Ok(text_of(alloc, answer)?.as_str().contains(rows.as_str()))
}

/// Counts scans of whole rows.
pub fn scans(alloc: Global, checks: &mut Checks<'_>, table: &Table, cases: &[Case<'_>]) -> Done {
    for (text, found) in cases {
        let answer = scan(alloc, table, &predicate(alloc, text)?)?;
        checks.holds(text, is_found(alloc, &answer, *found)?);
    }
    Ok(())
}

/// Counts the description of a column in a group, which is exact: the bounds, the null count, the
/// sum, and whether it is constant.
pub fn describes(
    alloc: Global,
    checks: &mut Checks<'_>,
    (table, path, group): (&Table, &[&str], usize),
    wanted: &str,
) -> Done {
    let told = table.describe(alloc, &FieldPath::from_names(alloc, path)?, group)?;
    let (text, names) = (text_of(alloc, &told)?, ["min", "max", "null_count", "sum", "constant"]);
    for (name, word) in names.into_iter().zip(wanted.split_whitespace()) {
        let known = format!(in alloc; "\"{name}\":[\"exact\",{word}]")?;
        checks.holds(wanted, text.as_str().contains(known.as_str()));
    }
    Ok(())
}

/// Tells how an array lies: its layout, and its integers or how many rows it has.
pub fn tell(out: &mut String, array: &ArrayRef) -> Result<(), AllocError> {
    match array.layout() {
        ArrayLayout::Primitive(_, _) => tell_integers(out, array),
        ArrayLayout::Constant(_, len) => write!(out, "{len} alike "),
        ArrayLayout::Dict(codes, values, _) => {
            let width = codes.dtype().as_ptype_opt().map_or("", |ptype| ptype.as_str());
            write!(out, "dictionary {width} ")?;
            tell(out, codes)?;
            tell(out, values)
        }
        ArrayLayout::ListView(elements, offsets, sizes, is_flagged, _) => {
            out.push_str(if *is_flagged { "end to end " } else { "views " })?;
            for part in [elements, offsets, sizes] {
                tell_integers(out, part)?;
            }
            Ok(())
        }
        ArrayLayout::Struct(_, fields, _, _) => {
            for field in fields {
                tell(out, field)?;
            }
            Ok(())
        }
        _ => write!(out, "{} plain ", array.len()),
    }
}

fn tell_integers(out: &mut String, array: &ArrayRef) -> Result<(), AllocError> {
    out.push_str("(")?;
    for i in 0..array.len() {
        match array.integer(i) {
            Some(number) => write!(out, " {number}")?,
            None => out.push_str(" null")?,
        }
    }
    out.push_str(" ) ")
}

/// Tells how the chunk of this number lies.
pub fn told(alloc: Global, table: &Table, number: usize) -> Result<String, AllocError> {
    let mut told = String::new(alloc);
    if let Some(chunk) = table.chunk(number) {
        tell(&mut told, chunk)?;
    }
    Ok(told)
}

/// Counts the chunk of this number, which lies so.
pub fn lies(
    alloc: Global,
    checks: &mut Checks<'_>,
    (table, number): (&Table, usize),
    wanted: &str,
) -> Done {
    checks.holds(wanted, told(alloc, table, number)?.as_str().trim_end() == wanted);
    Ok(())
}
