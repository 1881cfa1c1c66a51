//! Types and values that calls are made on, and what is asked of answers.

use std::alloc::{AllocError, Global};
use vortex_dtype::{
    BufferString, ByteBuffer, DType, DTypeError, ExtDTypeRef, Nullability, PType,
};
use vortex_scalar::{PValue, Scalar, ScalarError, ScalarValue, VariantValue};

/// The end of calls, of which none was refused memory.
pub type Done = Result<(), ScalarError>;

/// A raw value or null.
pub type Value = Option<ScalarValue>;

pub const WITH: Nullability = Nullability::Nullable;

pub const WITHOUT: Nullability = Nullability::NonNullable;

/// Each integer type, the least number of it, and the greatest.
pub const KINDS: [(PType, i128, i128); 8] = [
    (PType::U8, 0, 255),
    (PType::U16, 0, 65_535),
    (PType::U32, 0, 4_294_967_295),
    (PType::U64, 0, 18_446_744_073_709_551_615),
    (PType::I8, -128, 127),
    (PType::I16, -32_768, 32_767),
    (PType::I32, -2_147_483_648, 2_147_483_647),
    (PType::I64, -9_223_372_036_854_775_808, 9_223_372_036_854_775_807),
];

/// Whether the kind has the number.
pub fn is_within(ptype: PType, number: i128) -> bool {
    KINDS.iter().any(|(kind, least, most)| *kind == ptype && *least <= number && number <= *most)
}

/// The number as one of the kind, which has it.
pub fn number_of(ptype: PType, number: i128) -> PValue {
    match ptype {
        PType::U8 => PValue::U8(number as u8),
        PType::U16 => PValue::U16(number as u16),
        PType::U32 => PValue::U32(number as u32),
        PType::U64 => PValue::U64(number as u64),
        PType::I8 => PValue::I8(number as i8),
        PType::I16 => PValue::I16(number as i16),
        PType::I32 => PValue::I32(number as i32),
        _ => PValue::I64(number as i64),
    }
}

/// Whether the answer of a call without memory is there exactly where it should be, and else
/// `Invalid`.
pub fn is_made<T: Drop>(answer: Result<T, ScalarError>, wanted: bool) -> bool {
    match answer {
        Ok(_) => wanted,
        Err(error) => !wanted && error == ScalarError::Invalid,
    }
}

/// A refusal of the types below, of which none but want of memory is to come.
pub fn of_types(error: DTypeError) -> ScalarError {
    match error {
        DTypeError::Memory => ScalarError::Memory,
        _ => ScalarError::Invalid,
    }
}

/// Whether the type has the value. `None` is null.
pub fn has(dtype: &DType, value: Option<&ScalarValue>) -> bool {
    Scalar::validate(dtype, value).is_ok()
}

/// A copy of the value or null.
pub fn copied(value: Option<&ScalarValue>) -> Result<Value, AllocError> {
    match value {
        Some(value) => Ok(Some(value.clone()?)),
        None => Ok(None),
    }
}

pub fn number(value: i16) -> Value {
    Some(ScalarValue::Primitive(PValue::I16(value)))
}

pub fn text(text: &'static str) -> Value {
    Some(ScalarValue::Utf8(BufferString::from_static(text)))
}

pub fn bytes(bytes: &'static [u8]) -> Value {
    Some(ScalarValue::Binary(ByteBuffer::from_static(bytes)))
}

/// A sequence.
pub fn tuple<const N: usize>(alloc: Global, items: [Value; N]) -> Result<Value, ScalarError> {
    Ok(Some(ScalarValue::tuple(alloc, items)?))
}

/// A variant's value.
pub fn typed(alloc: Global, dtype: DType, value: Value) -> Result<Value, ScalarError> {
    let variant = Box::new(alloc, VariantValue::new(dtype, value))?;
    Ok(Some(ScalarValue::Variant(variant)))
}

pub fn numbers(nullability: Nullability) -> DType {
    DType::Primitive(PType::I16, nullability)
}

pub fn extension(alloc: Global, storage: DType) -> Result<ExtDTypeRef, AllocError> {
    let id = BufferString::from_static("date");
    ExtDTypeRef::new(alloc, id, ByteBuffer::from_static(b"d"), storage)
}

/// Whether the values are the same to the last kind of an integer and the last type of a variant.
pub fn is_same(left: Option<&ScalarValue>, right: Option<&ScalarValue>) -> bool {
    match (left, right) {
        (None, None) => true,
        (Some(ScalarValue::Bool(a)), Some(ScalarValue::Bool(b))) => *a == *b,
        (Some(ScalarValue::Primitive(a)), Some(ScalarValue::Primitive(b))) => {
            a.get() == b.get() && a.ptype() == b.ptype()
        }
        (Some(ScalarValue::Utf8(a)), Some(ScalarValue::Utf8(b))) => a.as_str() == b.as_str(),
        (Some(ScalarValue::Binary(a)), Some(ScalarValue::Binary(b))) => {
            a.as_slice() == b.as_slice()
        }
        (Some(ScalarValue::Tuple(a)), Some(ScalarValue::Tuple(b))) => {
            let mut items = a.iter().zip(b);
            a.len() == b.len() && items.all(|(a, b)| is_same(a.as_ref(), b.as_ref()))
        }
        (Some(ScalarValue::Union(a)), Some(ScalarValue::Union(b))) => {
            a.type_id() == b.type_id() && is_same(a.child_value(), b.child_value())
        }
        (Some(ScalarValue::Variant(a)), Some(ScalarValue::Variant(b))) => {
            a.dtype() == b.dtype() && is_same(a.value(), b.value())
        }
        _ => false,
    }
}

/// Whether the scalar has this type and this value.
pub fn is_of(scalar: &Scalar, dtype: &DType, value: Option<&ScalarValue>) -> bool {
    *scalar.dtype() == *dtype && is_same(scalar.value(), value)
}
