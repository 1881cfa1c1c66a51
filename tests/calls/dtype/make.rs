//! Types and names that calls are made on.

use crate::notation::dtype;
use std::alloc::{AllocError, Global};
use vortex_dtype::{
    BufferString, ByteBuffer, DType, DTypeError, ExtDTypeRef, Field, FieldName, FieldNames,
    FieldPath, Nullability, PType,
};

/// The end of calls, of which none was refused memory.
pub type Done = Result<(), DTypeError>;

pub const WITH: Nullability = Nullability::Nullable;
pub const WITHOUT: Nullability = Nullability::NonNullable;

/// Each integer type, the least number of it, and the greatest. A signed kind stands four
/// places behind the unsigned one that is as wide.
pub const INTEGERS: [(PType, i128, i128); 8] = [
    (PType::U8, 0, 255),
    (PType::U16, 0, 65_535),
    (PType::U32, 0, 4_294_967_295),
    (PType::U64, 0, 18_446_744_073_709_551_615),
    (PType::I8, -128, 127),
    (PType::I16, -32_768, 32_767),
    (PType::I32, -2_147_483_648, 2_147_483_647),
    (PType::I64, -9_223_372_036_854_775_808, 9_223_372_036_854_775_807),
];

pub const FLOATS: [PType; 3] = [PType::F16, PType::F32, PType::F64];

/// Numbers without null.
pub fn number(ptype: PType) -> DType {
    DType::Primitive(ptype, WITHOUT)
}

/// The names.
pub fn names(alloc: Global, texts: &[&str]) -> Result<FieldNames, AllocError> {
    FieldNames::from_names(alloc, texts)
}

/// Whether these are the names.
pub fn are_names(found: &FieldNames, texts: &[&str]) -> bool {
    let mut pairs = found.as_slice().iter().zip(texts);
    found.len() == texts.len() && pairs.all(|(name, text)| name.eq_text(text))
}

/// The extension of this id and metadata.
pub fn extension(
    alloc: Global,
    id: &str,
    metadata: &[u8],
    storage: DType,
) -> Result<ExtDTypeRef, AllocError> {
    let id = BufferString::copy_from_str(alloc, id)?;
    ExtDTypeRef::new(alloc, id, ByteBuffer::copy_from_slice(alloc, metadata)?, storage)
}

/// The step of this name, where `*` stands for one to elements.
pub fn step(alloc: Global, text: &str) -> Result<Field, AllocError> {
    match text {
        "*" => Ok(Field::ElementType),
        text => Ok(Field::Name(FieldName::new(alloc, text)?)),
    }
}

/// The path of these steps, each behind a `/`.
pub fn path(alloc: Global, text: &str) -> Result<FieldPath, AllocError> {
    let mut parts = Vec::new(alloc);
    for part in text.split('/').filter(|it| !it.is_empty()) {
        parts.push(step(alloc, part)?)?;
    }
    Ok(FieldPath::new(parts))
}

/// A type of each kind in the order of `DType`, of which no two are equal up to nullability.
const KINDS: [&str; 13] = [
    "null",
    "bool",
    "i32",
    "decimal(20, -3)",
    "utf8",
    "binary",
    "list(u8?)",
    "fixed(f32?, 3)",
    "sorted(utf8, bool?)",
    "{a=u8?, b=bool?}",
    "<a:-1=u8?, b:7=bool?>",
    "variant",
    "boxed'é\0'(binary)",
];

/// A type of each kind, with this nullability where its kind has a choice, and this one inside.
pub fn kinds(
    alloc: Global,
    nullability: Nullability,
    inside: Nullability,
) -> Result<Vec<DType>, DTypeError> {
    let mut all = Vec::new(alloc);
    for kind in KINDS {
        let mut text = String::new(alloc);
        for (i, part) in kind.split('?').enumerate() {
            text.push_str(if i > 0 && inside == WITH { "?" } else { "" })?;
            text.push_str(part)?;
        }
        all.push(dtype(alloc, text.as_str())?.with_nullability(nullability)?)?;
    }
    Ok(all)
}
