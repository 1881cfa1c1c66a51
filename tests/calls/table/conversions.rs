//! Columns that are converted to another type: what stands under a null row, or is referenced by
//! none, is no value of the column.

use crate::checks::Checks;
use crate::make::{Array, Done, along, dictionary, has_rows, made, predicate, scan, table_of};
use crate::make_arrays::{array_of, valid_where};
use crate::words::record_of;
use std::alloc::Global;
use vortex_arrays::{ArrayRef, Validity};
use vortex_dtype::DTypeError;
use vortex_scalar::Scalar;
use vortex_table::table::TableError;

/// A column behind three rows, the type that all are converted to, and the rows that it then has,
/// or the first that doesn't convert. Of a column `!` is before numbers that stand under null; it
/// has values behind `of`, if it is a dictionary, and a length behind `*`, if it is a constant.
const CONVERSIONS: [(&str, &str, Result<&str, usize>); 15] = [
    ("1 !1000 255", "a:u8?", Ok("[1],[null],[255]")),
    ("!1000 !-1", "a:u8?", Ok("[null],[null]")),
    ("1 !1000 256", "a:u8?", Err(5)),
    ("1 !2", "a:u8", Err(4)),
    // Values of a dictionary that no valid row references may be any.
    ("0 2 0 of 7 1000 9", "a:u8?", Ok("[7],[9],[7]")),
    ("0 2 0 of 7 1000 9", "a:u8", Ok("[7],[9],[7]")),
    ("0 !1 of 7 1000", "a:u8?", Ok("[7],[null]")),
    ("1 0 of 7 !1000", "a:u8?", Ok("[null],[7]")),
    ("0 1 0 of 7 1000", "a:u8?", Err(4)),
    ("0 !1 of 7 8", "a:u8", Err(4)),
    ("!0 !0 of 1000", "a:u8?", Ok("[null],[null]")),
    // A constant converts where its value does.
    ("7 * 2", "a:u8?", Ok("[7],[7]")),
    ("null * 2", "a:u8?", Ok("[null],[null]")),
    ("-1 * 2", "a:u8?", Err(3)),
    ("null * 2", "a:u8", Err(3)),
];

pub fn run(alloc: Global, checks: &mut Checks<'_>) -> Done {
    for (text, columns, wanted) in CONVERSIONS {
        let mut table = table_of(alloc, "a:i64?", 16, &["[0]\n[1]\n[2]"])?;
        table.append_array(made(along(alloc, made(column(alloc, text))?))?)?;
        match (table.retype(record_of(alloc, columns)?), wanted) {
            (Ok(()), Ok(rows)) => {
                let answer = scan(alloc, &table, &predicate(alloc, "true")?)?;
                let rows = format!(in alloc; "[0],[1],[2],{rows}")?;
                checks.holds(text, has_rows(alloc, &answer, rows.as_str())?);
            }
            (Err(TableError::Memory), _) => return Err(TableError::Memory),
            (Err(error), Err(row)) => checks.holds(text, error == TableError::NotConvertible(row)),
            _ => checks.holds(text, false),
        }
    }
    Ok(())
}

fn column(alloc: Global, text: &str) -> Array {
    if let Some((value, len)) = text.split_once(" * ") {
        let value = Scalar::from(value.parse::<i64>().ok());
        return Ok(ArrayRef::of_constant(alloc, value, len.parse::<usize>().unwrap_or(0))?);
    }
    let (first, values) = text.split_once(" of ").unwrap_or((text, ""));
    let (numbers, validity) = items(alloc, first)?;
    if values.is_empty() {
        return array_of(alloc, numbers.as_slice(), validity);
    }
    let mut codes = Vec::new(alloc);
    for number in numbers {
        codes.push(number as u8)?;
    }
    let (numbers, named) = items(alloc, values)?;
    let values = array_of(alloc, numbers.as_slice(), named)?;
    dictionary(alloc, array_of(alloc, codes.as_slice(), validity)?, values)
}

/// These numbers, and which of them are valid.
fn items(alloc: Global, text: &str) -> Result<(Vec<i64>, Validity), DTypeError> {
    let (mut items, mut valid) = (Vec::new(alloc), Vec::new(alloc));
    for word in text.split_whitespace() {
        let number = word.strip_prefix("!");
        items.push(number.unwrap_or(word).parse::<i64>().unwrap_or(0))?;
        valid.push(number.is_none())?;
    }
    let validity = valid_where(alloc, &valid)?;
    Ok((items, validity))
}
