//! Types by their texts: `{a=u8, b=list(utf8?)?}` is a record of a number and of a list or null of
//! strings or null. Others are `null`, `bool`, `binary`, `variant`, `decimal(20, -3)`,
//! `fixed(u8, 3)`, `map(utf8, bool)`, `sorted(utf8, bool)` where the keys are sorted,
//! `<a:-1=u8, b:7=bool>` for unions, and `id'metadata'(utf8)` for extensions.

use std::alloc::Global;
use vortex_dtype::{
    BufferString, ByteBuffer, DType, DTypeError, DecimalDType, ExtDTypeRef, FieldName, FieldNames,
    MapDType, Nullability, PType, StructFields, UnionVariants,
};

const WITHOUT: Nullability = Nullability::NonNullable;

/// What ends a word.
const ENDS: [char; 15] =
    [' ', ',', ':', '=', '?', '!', '\'', '(', ')', '{', '}', '<', '>', '[', ']'];

/// What is left to read of a text.
#[derive(Drop)]
pub struct Rest<'a> {
    text: &'a str,
}

impl<'a> Rest<'a> {
    pub fn new(text: &'a str) -> Rest<'a> {
        Rest { text }
    }

    /// Whether the sign comes next. It is stepped over, and so are the spaces behind it.
    pub fn takes(&mut self, sign: &str) -> bool {
        let text: &'a str = self.text;
        let Some(rest) = text.strip_prefix(sign) else {
            return false;
        };
        self.text = rest.trim_start();
        true
    }

    /// The letters and digits that come next.
    pub fn word(&mut self) -> &'a str {
        let text: &'a str = self.text;
        let (word, rest) = text.split_at(text.find(ENDS).unwrap_or(text.len()));
        self.text = rest;
        word
    }

    /// The number that comes next, where `max` is the greatest of 32 bits.
    pub fn number(&mut self) -> i64 {
        match self.word() {
            "max" => i64::from(u32::MAX),
            word => word.parse::<i64>().unwrap_or(0),
        }
    }

    /// Whether a number comes next.
    pub fn has_number(&self) -> bool {
        self.text.starts_with(|it: char| it == '-' || it.is_ascii_digit())
    }

    /// What stands before the next quote, which is stepped over.
    pub fn quoted(&mut self) -> Result<&'a str, DTypeError> {
        let text: &'a str = self.text;
        let (quoted, rest) = text.split_once("'").ok_or(DTypeError::Malformed)?;
        self.text = rest;
        Ok(quoted)
    }
}

/// The kind of numbers of this name.
pub fn ptype(name: &str) -> Option<PType> {
    let unsigned = [PType::U8, PType::U16, PType::U32, PType::U64];
    let signed = [PType::I8, PType::I16, PType::I32, PType::I64];
    let all = unsigned.into_iter().chain(signed).chain([PType::F16, PType::F32, PType::F64]);
    all.into_iter().find(|it| it.as_str() == name)
}

/// The type of this text.
pub fn dtype(alloc: Global, text: &str) -> Result<DType, DTypeError> {
    next_dtype(alloc, &mut Rest::new(text))
}

/// The types of these texts, which `; ` keeps apart.
pub fn dtypes(alloc: Global, texts: &str) -> Result<Vec<DType>, DTypeError> {
    let mut all = Vec::new(alloc);
    for text in texts.split("; ").filter(|it| !it.is_empty()) {
        all.push(dtype(alloc, text)?)?;
    }
    Ok(all)
}

/// The fields of a record's text.
pub fn fields(alloc: Global, text: &str) -> Result<StructFields, DTypeError> {
    Ok(dtype(alloc, text)?.into_struct_fields())
}

/// The choices of a union's text.
pub fn choices(alloc: Global, text: &str) -> Result<UnionVariants, DTypeError> {
    match dtype(alloc, text)?.as_union_variants_opt() {
        Some(choices) => Ok(choices.clone()?),
        None => Err(DTypeError::Malformed),
    }
}

/// The type that comes next.
pub fn next_dtype(alloc: Global, rest: &mut Rest<'_>) -> Result<DType, DTypeError> {
    let dtype = if rest.takes("{") {
        next_record(alloc, rest)?
    } else if rest.takes("<") {
        next_union(alloc, rest)?
    } else {
        next_named(alloc, rest)?
    };
    Ok(if rest.takes("?") { dtype.as_nullable()? } else { dtype })
}

fn next_record(alloc: Global, rest: &mut Rest<'_>) -> Result<DType, DTypeError> {
    let (mut names, mut dtypes) = (Vec::new(alloc), Vec::new(alloc));
    while !rest.takes("}") {
        names.push(FieldName::new(alloc, rest.word())?)?;
        rest.takes("=");
        dtypes.push(next_dtype(alloc, rest)?)?;
        rest.takes(",");
    }
    Ok(DType::Struct(StructFields::new(FieldNames::new(names), dtypes)?, WITHOUT))
}

fn next_union(alloc: Global, rest: &mut Rest<'_>) -> Result<DType, DTypeError> {
    let (mut names, mut dtypes, mut tags) = (Vec::new(alloc), Vec::new(alloc), Vec::new(alloc));
    while !rest.takes(">") {
        names.push(FieldName::new(alloc, rest.word())?)?;
        rest.takes(":");
        tags.push(rest.number() as i8)?;
        rest.takes("=");
        dtypes.push(next_dtype(alloc, rest)?)?;
        rest.takes(",");
    }
    Ok(DType::Union(UnionVariants::try_new(FieldNames::new(names), dtypes, tags)?, WITHOUT))
}

fn next_named(alloc: Global, rest: &mut Rest<'_>) -> Result<DType, DTypeError> {
    let word = rest.word();
    if rest.takes("'") {
        return next_extension(alloc, word, rest);
    }
    if rest.takes("(") {
        let dtype = next_over(alloc, word, rest)?;
        return if rest.takes(")") { Ok(dtype) } else { Err(DTypeError::Malformed) };
    }
    if let Some(ptype) = ptype(word) {
        return Ok(DType::Primitive(ptype, WITHOUT));
    }
    match word {
        "null" => Ok(DType::Null),
        "bool" => Ok(DType::Bool(WITHOUT)),
        "utf8" => Ok(DType::Utf8(WITHOUT)),
        "binary" => Ok(DType::Binary(WITHOUT)),
        "variant" => Ok(DType::Variant(WITHOUT)),
        _ => Err(DTypeError::Malformed),
    }
}

/// The extension of this id, behind the first quote.
fn next_extension(alloc: Global, id: &str, rest: &mut Rest<'_>) -> Result<DType, DTypeError> {
    let metadata = ByteBuffer::copy_from_slice(alloc, rest.quoted()?.as_bytes())?;
    rest.takes("(");
    let storage = next_dtype(alloc, rest)?;
    rest.takes(")");
    let id = BufferString::copy_from_str(alloc, id)?;
    Ok(DType::Extension(ExtDTypeRef::new(alloc, id, metadata, storage)?))
}

/// The type that has something in brackets, behind the first bracket.
fn next_over(alloc: Global, word: &str, rest: &mut Rest<'_>) -> Result<DType, DTypeError> {
    if word == "decimal" {
        let precision = rest.number() as u8;
        rest.takes(",");
        return Ok(DType::Decimal(DecimalDType::try_new(precision, rest.number() as i8)?, WITHOUT));
    }
    let first = next_dtype(alloc, rest)?;
    rest.takes(",");
    match word {
        "list" => Ok(DType::list(alloc, first, WITHOUT)?),
        "fixed" => Ok(DType::fixed_size_list(alloc, first, rest.number() as u32, WITHOUT)?),
        "map" | "sorted" => {
            let value = next_dtype(alloc, rest)?;
            Ok(DType::Map(MapDType::try_new(alloc, first, value, word == "sorted")?, WITHOUT))
        }
        _ => Err(DTypeError::Malformed),
    }
}
