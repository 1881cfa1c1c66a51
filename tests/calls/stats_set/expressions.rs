//! Expressions of words, arrays of records that they are evaluated at, and their truths.

use crate::make_arrays::{answered, names};
use crate::sets::set_of;
use crate::words::{bound, dtype};
use std::alloc::Global;
use vortex_arrays::{ArrayRef, ConstantArray, ConstantArrayExt, StructArray, Validity};
use vortex_arrays::{VarBinViewArray, VarBinViewArrayIter};
use vortex_dtype::{DTypeError, FieldNames};
use vortex_scalar::Scalar;
use vortex_stats::{Meter, Scope, StatsError, evaluate, prove};

/// The answer. A refusal that is not for want of memory makes the program wrong.
pub fn told<T: Drop>(answer: Result<T, StatsError>) -> Result<T, DTypeError> {
    match answer {
        Ok(answer) => Ok(answer),
        Err(StatsError::Memory) => Err(DTypeError::Memory),
        Err(_) => Err(DTypeError::Malformed),
    }
}

/// The refusal, where there is one. Want of memory is handed on.
pub fn refusal<T: Drop>(answer: Result<T, StatsError>) -> Result<Option<StatsError>, DTypeError> {
    match answer {
        Ok(_answer) => Ok(None),
        Err(StatsError::Memory) => Err(DTypeError::Memory),
        Err(error) => Ok(Some(error)),
    }
}

/// Records of two columns.
pub fn pairs(
    alloc: Global,
    columns: [&str; 2],
    (left, right): (ArrayRef, ArrayRef),
    validity: Validity,
) -> Result<ArrayRef, DTypeError> {
    let (len, fields) = (left.len(), Vec::from_array(alloc, [left, right])?);
    let names = names(alloc, &columns)?;
    Ok(answered(StructArray::try_new(alloc, names, fields, len, validity))?.into_array())
}

/// Two records of a float `f`, which is null, and a string `s`.
pub fn null_floats(alloc: Global) -> Result<ArrayRef, DTypeError> {
    let null = Scalar::null(dtype("f32?"));
    let f = answered(ConstantArray::try_new(alloc, null, 2))?.into_array();
    let s = answered(VarBinViewArray::from_iter_str(alloc, ["a", "b"]))?.into_array();
    pairs(alloc, ["f", "s"], (f, s), Validity::NonNullable)
}

/// A scope of all rows of the array, with no statistics.
pub fn rows_alone(alloc: Global, array: &ArrayRef) -> Result<Scope, DTypeError> {
    Ok(Scope::new(alloc, array.clone()?, array.len()))
}

/// Adds statistics of the column at a path.
pub fn add(alloc: Global, scope: &mut Scope, path: &[&str], text: &str) -> Result<(), DTypeError> {
    let set = told(set_of(alloc, text))?;
    told(scope.add_stats(alloc, FieldNames::from_names(alloc, path)?, set))
}

/// Whether these are the truths of the rows: `1`, `0`, or `?` for null.
pub fn are(found: &[Option<bool>], wanted: &str) -> bool {
    let letters = found.iter().map(|truth| match truth {
        Some(true) => b'1',
        Some(false) => b'0',
        None => b'?',
    });
    found.len() == wanted.len() && letters.zip(wanted.as_bytes()).all(|(a, b)| a == *b)
}

/// Whether these are the truths of an expression at the scope's rows.
pub fn is_at_rows(
    alloc: Global,
    text: &str,
    scope: &Scope,
    meter: &mut Meter,
    wanted: &str,
) -> Result<bool, DTypeError> {
    let bound = told(bound(alloc, text, scope.array.dtype()))?;
    Ok(are(told(evaluate(alloc, &bound, scope, meter))?.as_slice(), wanted))
}

/// The truth of a proof about the scope's rows.
pub fn proven(
    alloc: Global,
    text: &str,
    scope: &Scope,
    meter: &mut Meter,
) -> Result<Option<bool>, DTypeError> {
    let proof = told(bound(alloc, text, scope.array.dtype()))?;
    told(prove(alloc, &proof, scope, meter))
}
