//! Values by their texts: `null`, `true`, `7` of sixteen bits with a sign, `7u8`, `'text'`,
//! `x'00ff'` for bytes, `[7, null]` for sequences, `<-3:7>` for the choice of a union by its tag,
//! and `(i16?)7` for variants. Their types are those of `notation`.

use crate::notation::{Rest, dtype, next_dtype, ptype};
use crate::values::{Value, number_of, of_types};
use std::alloc::Global;
use vortex_dtype::{BufferString, ByteBuffer, PType};
use vortex_scalar::{Scalar, ScalarError, ScalarValue, UnionValue, VariantValue};

/// The value of this text.
pub fn value(alloc: Global, text: &str) -> Result<Value, ScalarError> {
    next_value(alloc, &mut Rest::new(text))
}

/// The values of these texts, which `; ` keeps apart.
pub fn values(alloc: Global, texts: &str) -> Result<Vec<Value>, ScalarError> {
    let mut all = Vec::new(alloc);
    for text in texts.split("; ").filter(|it| !it.is_empty()) {
        all.push(value(alloc, text)?)?;
    }
    Ok(all)
}

/// The scalar of this type and this value.
pub fn scalar(alloc: Global, dtype_of: &str, text: &str) -> Result<Scalar, ScalarError> {
    Scalar::try_new(dtype(alloc, dtype_of).map_err(of_types)?, value(alloc, text)?)
}

/// The value that comes next.
fn next_value(alloc: Global, rest: &mut Rest<'_>) -> Result<Value, ScalarError> {
    if rest.takes("[") {
        let mut items = Vec::new(alloc);
        while !rest.takes("]") {
            items.push(next_value(alloc, rest)?)?;
            rest.takes(",");
        }
        return Ok(Some(ScalarValue::Tuple(items)));
    }
    if rest.takes("<") {
        let tag = rest.number() as i8;
        rest.takes(":");
        let child = next_value(alloc, rest)?;
        rest.takes(">");
        return Ok(Some(ScalarValue::Union(UnionValue::try_new(alloc, tag, child)?)));
    }
    if rest.takes("(") {
        let dtype = next_dtype(alloc, rest).map_err(of_types)?;
        rest.takes(")");
        let variant = Box::new(alloc, VariantValue::new(dtype, next_value(alloc, rest)?))?;
        return Ok(Some(ScalarValue::Variant(variant)));
    }
    next_plain(alloc, rest)
}

fn next_plain(alloc: Global, rest: &mut Rest<'_>) -> Result<Value, ScalarError> {
    if rest.takes("x'") {
        let (digits, mut bytes) = (rest.quoted().map_err(of_types)?, Vec::new(alloc));
        for i in 0..digits.len() / 2 {
            let byte = digits.get(2 * i..2 * i + 2).and_then(|it| u8::from_str_radix(it, 16).ok());
            bytes.push(byte.ok_or(ScalarError::Invalid)?)?;
        }
        return Ok(Some(ScalarValue::Binary(ByteBuffer::copy_from_slice(alloc, &bytes)?)));
    }
    if rest.takes("'") {
        let text = BufferString::copy_from_str(alloc, rest.quoted().map_err(of_types)?)?;
        return Ok(Some(ScalarValue::Utf8(text)));
    }
    match rest.word() {
        "null" => Ok(None),
        "true" => Ok(Some(ScalarValue::Bool(true))),
        "false" => Ok(Some(ScalarValue::Bool(false))),
        word => {
            let end = word.find(|it: char| it == 'u' || it == 'i').unwrap_or(word.len());
            let (digits, kind) = word.split_at(end);
            let number = digits.parse::<i128>().ok().ok_or(ScalarError::Invalid)?;
            let kind = ptype(kind).unwrap_or(PType::I16);
            Ok(Some(ScalarValue::Primitive(number_of(kind, number))))
        }
    }
}
