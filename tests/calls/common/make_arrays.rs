//! Arrays from plain values, and what is asked of answers.

use crate::checks::Checks;
use std::alloc::Global;
use std::rc::Rc;
use vortex_arrays::{
    ArrayError, ArrayRef, BitBuffer, Buffer, Element, PrimitiveArray, PrimitiveBuffer, Validity,
};
use vortex_dtype::{DTypeError, FieldNames, Nullability};

/// The end of calls, of which none was refused memory.
pub type Done = Result<(), DTypeError>;

pub const WITH: Nullability = Nullability::Nullable;
pub const WITHOUT: Nullability = Nullability::NonNullable;

/// The answer. A refusal that is not for want of memory makes the program wrong.
pub fn answered<T: Drop>(answer: Result<T, ArrayError>) -> Result<T, DTypeError> {
    match answer {
        Ok(answer) => Ok(answer),
        Err(ArrayError::Memory) => Err(DTypeError::Memory),
        Err(_) => Err(DTypeError::Malformed),
    }
}

/// Counts a call that is to be refused by this error. Refused memory is handed on.
pub fn refused<T: Drop>(
    checks: &mut Checks<'_>,
    name: &str,
    answer: Result<T, ArrayError>,
    wanted: ArrayError,
) -> Done {
    answered(checks.refused(name, answer, wanted))
}

/// A buffer of these items.
pub fn buffer<T: Element>(alloc: Global, items: &[T]) -> Result<Buffer<T>, DTypeError> {
    let mut list = Vec::new(alloc);
    for item in items {
        list.push(*item)?;
    }
    Ok(Buffer::from_vec(list)?)
}

/// A buffer of these numbers, whose kind is one of its parts.
pub fn buffer_of<T: Element>(alloc: Global, items: &[T]) -> Result<PrimitiveBuffer, DTypeError> {
    Ok(PrimitiveBuffer::from_buffer(buffer(alloc, items)?))
}

/// An array of these numbers.
pub fn numbers<T: Element>(
    alloc: Global,
    items: &[T],
    validity: Validity,
) -> Result<PrimitiveArray, DTypeError> {
    Ok(PrimitiveArray::new(alloc, buffer(alloc, items)?, validity)?)
}

/// An array of these numbers, of any layout.
pub fn array_of<T: Element>(
    alloc: Global,
    items: &[T],
    validity: Validity,
) -> Result<ArrayRef, DTypeError> {
    Ok(ArrayRef::of_numbers(alloc, buffer_of(alloc, items)?, validity)?)
}

/// An array of these numbers without null, of any layout.
pub fn plain<T: Element>(alloc: Global, items: &[T]) -> Result<ArrayRef, DTypeError> {
    array_of(alloc, items, Validity::NonNullable)
}

/// An array of these booleans.
pub fn bools(alloc: Global, bits: &[bool]) -> Result<ArrayRef, DTypeError> {
    let bits = BitBuffer::from_bools(alloc, bits)?;
    Ok(ArrayRef::of_bools(alloc, bits, Validity::NonNullable)?)
}

/// The rows are null where these are false.
pub fn valid_where(alloc: Global, bits: &[bool]) -> Result<Validity, DTypeError> {
    Ok(Validity::Array(bools(alloc, bits)?))
}

/// These names.
pub fn names(alloc: Global, texts: &[&str]) -> Result<Rc<FieldNames>, DTypeError> {
    Ok(Rc::new(alloc, FieldNames::from_names(alloc, texts)?)?)
}

/// Whether these are the array's integers, none of them null.
pub fn holds_all(array: &ArrayRef, expected: &[i128]) -> bool {
    array.len() == expected.len()
        && (0..expected.len()).all(|i| array.integer(i) == Some(expected[i]))
}

/// Whether these are the array's integers, `None` for null.
pub fn holds(array: &ArrayRef, expected: &[Option<i128>]) -> bool {
    array.len() == expected.len() && (0..expected.len()).all(|i| array.integer(i) == expected[i])
}
