//! A table of six chunks, predicates on it, and the numbers of its rows.

use std::alloc::{AllocError, Global};
use vortex_table::dtype::{BufferString, DType, FieldNames, FieldPath, Nullability, PType};
use vortex_table::expr::{Expression, col, gt, lit};
use vortex_table::scalar::{PValue, Scalar, ScalarValue};
use vortex_table::table::{Table, TableError};

/// The numbers of each chunk's rows.
pub const CHUNKS: [&[i32]; 6] = [&[1, 2, 3], &[10], &[4, 5], &[20, 21, 22, 23], &[6], &[30, 31]];

/// How long a bound of a string is at most, in bytes.
pub const BOUND_LENGTH: usize = 16;

/// The table {a=i32, s=utf8} of these chunks, without rows where there is none.
fn table_of(alloc: Global, chunks: &[&[i32]]) -> Result<Table, TableError> {
    let numbers = DType::Primitive(PType::I32, Nullability::NonNullable);
    let strings = DType::Utf8(Nullability::NonNullable);
    let columns = [("a", numbers), ("s", strings)];
    let dtype = DType::struct_(alloc, &columns, Nullability::NonNullable)?;
    let mut table = Table::create(alloc, dtype.clone()?, BOUND_LENGTH, &[])?;
    for chunk in chunks {
        let mut rows = Vec::new(alloc);
        for number in *chunk {
            rows.push(row(alloc, *number)?)?;
        }
        table.append(&dtype, &rows, &[])?;
    }
    Ok(table)
}

/// The six chunks, of which the first two are one group.
pub fn six_chunks(alloc: Global) -> Result<Table, TableError> {
    let mut table = table_of(alloc, &CHUNKS)?;
    table.join(0)?;
    Ok(table)
}

/// A table without rows.
pub fn no_rows(alloc: Global) -> Result<Table, TableError> {
    table_of(alloc, &[])
}

fn row(alloc: Global, number: i32) -> Result<Option<ScalarValue>, AllocError> {
    let text = if number % 2 == 0 { "even" } else { "odd" };
    let cells = [
        Some(ScalarValue::Primitive(PValue::I32(number))),
        Some(ScalarValue::Utf8(BufferString::from_static(text))),
    ];
    Ok(Some(ScalarValue::Tuple(Vec::from_array(alloc, cells)?)))
}

/// The path to the column of this name, alone.
pub fn paths(alloc: Global, name: &str) -> Result<Vec<FieldPath>, AllocError> {
    Ok(Vec::from_array(alloc, [FieldPath::from_names(alloc, &[name])?])?)
}

/// That the column of this name is above the number.
pub fn above(alloc: Global, name: &str, number: i32) -> Result<Expression, AllocError> {
    gt(alloc, col(FieldNames::from_names(alloc, &[name])?), lit(Scalar::from(number)))
}

/// The number that a row begins with.
fn number_of(row: &Scalar) -> Option<i128> {
    match row.value()?.child_at(0) {
        Some(ScalarValue::Primitive(number)) => Some(number.get()),
        _ => None,
    }
}

/// Whether these are the numbers of the rows, in order.
pub fn are(rows: &[Scalar], wanted: &[i128]) -> bool {
    let mut both = rows.iter().zip(wanted);
    rows.len() == wanted.len() && both.all(|(row, number)| number_of(row) == Some(*number))
}
