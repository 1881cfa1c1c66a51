//! Values of each kind of types, and what is asked of answers. The extension type is only run, so
//! its ghost members are left open.

use crate::notation::dtype;
use crate::value_notation::values;
use crate::values::{is_of, of_types};
use std::alloc::{AllocError, Global};
use std::hash::{DefaultHasher, Hash, Hasher};
use vortex_dtype::{ByteBuffer, DType, DTypeError, ExtVTable, Nullability, PType};
use vortex_scalar::{Scalar, ScalarError, ScalarValue};

// Places in `groups`.
pub const BOOL: usize = 0;
pub const NUMBERS: usize = 1;
pub const OCTETS: usize = 2;
pub const UTF8: usize = 3;
pub const BINARY: usize = 4;
pub const LIST: usize = 5;
pub const FIXED: usize = 6;
pub const STRUCT: usize = 7;
pub const MAP: usize = 8;
pub const UNION: usize = 9;
pub const VARIANT: usize = 10;
pub const EXTENSION: usize = 11;

/// A type of each kind that has any value but null, and values of it, in order, where they have
/// one. No type has values of another group.
const GROUPS: [(&str, &str); 12] = [
    ("bool", "false; true"),
    ("i16", "-5; 0; 7"),
    ("u8", "0u8; 7u8; 255u8"),
    ("utf8", "''; 'a'; 'é'"),
    ("binary", "x''; x'00'; x'ff'"),
    ("list(i16?)", "[null]; [7]; [7, null]"),
    ("fixed(u8, 2)", "[0u8, 1u8]; [1u8, 0u8]"),
    ("{a=utf8, b=i16?}", "['a', null]; ['a', 7]; ['b', null]"),
    ("map(utf8, i16?)", "[['a', null]]; [['b', 7]]"),
    ("<first:-3=i16?, second:4=utf8>", "<-3:null>; <-3:7>; <4:'a'>"),
    ("variant", "(i16?)null; (i16)7; (utf8)'a'"),
    ("date'd'(u32)", "1u32; 2u32"),
];

/// Types that have no value but null.
pub const NO_VALUES: [&str; 3] = ["null", "f32?", "decimal(5, 0)?"];

/// The values of each group as scalars, of types of this nullability.
pub fn groups(alloc: Global, nullability: Nullability) -> Result<Vec<Vec<Scalar>>, ScalarError> {
    let mut all = Vec::new(alloc);
    for (text, texts) in GROUPS {
        let mut group = Vec::new(alloc);
        let dtype = of(alloc, text)?.with_nullability(nullability)?;
        for value in values(alloc, texts)? {
            group.push(Scalar::try_new(dtype.clone()?, value)?)?;
        }
        all.push(group)?;
    }
    Ok(all)
}

/// The type of this text.
pub fn of(alloc: Global, text: &str) -> Result<DType, ScalarError> {
    dtype(alloc, text).map_err(of_types)
}

/// Whether the two have one type and one value.
pub fn is_twin(left: &Scalar, right: &Scalar) -> bool {
    is_of(left, right.dtype(), right.value())
}

/// Whether there is a scalar of this type and this value.
pub fn is_some_of(scalar: Option<Scalar>, dtype: &DType, value: Option<&ScalarValue>) -> bool {
    scalar.is_some_and(|scalar| is_of(&scalar, dtype, value))
}

/// What the value feeds to a hasher.
pub fn hash_of<T: Hash>(value: &T) -> u64 {
    let mut hasher = DefaultHasher::new();
    value.hash(&mut hasher);
    hasher.finish()
}

/// Whole days, in numbers of 32 bits.
#[derive(Default, Drop)]
pub struct Days;

/// Nothing tells days apart.
#[derive(Drop)]
pub struct Plain;

impl ExtVTable for Days {
    type Metadata = Plain;

    ghost name = { ? };

    ghost writes = { ? };

    ghost reads = { ? };

    ghost fits = { ? };

    ghost reads_what_it_writes = { ? };

    ghost outer_aside = { ? };

    fn id(&self) -> &str {
        "days"
    }

    fn serialize_metadata(
        &self,
        alloc: Global,
        _metadata: &Plain,
    ) -> Result<ByteBuffer, AllocError> {
        ByteBuffer::copy_from_slice(alloc, b"p")
    }

    fn deserialize_metadata(
        &self,
        _alloc: Global,
        bytes: &ByteBuffer,
    ) -> Result<Plain, DTypeError> {
        if bytes.as_slice() == b"p".as_slice() { Ok(Plain) } else { Err(DTypeError::Malformed) }
    }

    fn fits(&self, _metadata: &Plain, storage: &DType) -> bool {
        storage.as_ptype_opt() == Some(PType::I32)
    }
}
