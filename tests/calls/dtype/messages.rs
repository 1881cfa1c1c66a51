//! Messages: each that says a type is read and written, and others are refused.

use crate::checks::Checks;
use crate::counted::{done, hold};
use crate::make::{Done, WITH, extension, names};
use crate::notation::{Rest, dtype, ptype};
use std::alloc::Global;
use vortex_dtype::laws::{
    decimals_are_shaped, maps_are_shaped, read_types_are_read_again, unions_are_shaped,
    written_types_are_read,
};
use vortex_dtype::{
    BufferString, ByteBuffer, DType, DTypeError, DTypeSession, DecimalDType, FieldName, FieldNames,
    Message, MessageKind as Kind, from_proto, is_shaped, to_proto,
};

/// Reads and writes a message of each kind.
pub fn run(alloc: Global, checks: &mut Checks<'_>) -> Done {
    for leaf in LEAVES.split(' ') {
        said(alloc, checks, leaf)?;
        said(alloc, checks, format!(in alloc; "{leaf}?")?.as_str())?;
    }
    for text in NODES.split("; ") {
        said(alloc, checks, text)?;
    }
    metadata(alloc, checks)?;
    refused(alloc, checks)?;
    read_again(alloc, checks)?;
    shapes(alloc, checks)
}

/// The message of a type's text, also where that is no type: parts may lack a name, a tag or a
/// child, the children of each kind stand in brackets, and `id!` is an extension without metadata.
pub fn message(alloc: Global, text: &str) -> Result<Message, DTypeError> {
    next_message(alloc, &mut Rest::new(text))
}

fn next_message(alloc: Global, rest: &mut Rest<'_>) -> Result<Message, DTypeError> {
    let (is_record, is_union) = (rest.takes("{"), rest.takes("<"));
    let (mut names, mut tags, mut children) = (Vec::new(alloc), Vec::new(alloc), Vec::new(alloc));
    if !is_record && !is_union {
        let kind = next_kind(alloc, rest, &mut children)?;
        return Ok(Message { kind, nullable: rest.takes("?"), children });
    }
    while !rest.takes(if is_record { "}" } else { ">" }) {
        let name = rest.word();
        if !name.is_empty() {
            names.push(FieldName::new(alloc, name)?)?;
        }
        if rest.takes(":") {
            tags.push(rest.number())?;
        }
        if rest.takes("=") {
            children.push(next_message(alloc, rest)?)?;
        }
        rest.takes(",");
    }
    let names = FieldNames::new(names);
    let kind = if is_record { Kind::Struct { names } } else { Kind::Union { names, tags } };
    Ok(Message { kind, nullable: rest.takes("?"), children })
}

fn next_kind(
    alloc: Global,
    rest: &mut Rest<'_>,
    children: &mut Vec<Message>,
) -> Result<Kind, DTypeError> {
    let word = rest.word();
    let (mut is_extension, mut metadata) = (rest.takes("!"), None);
    if rest.takes("'") {
        is_extension = true;
        metadata = Some(ByteBuffer::copy_from_slice(alloc, rest.quoted()?.as_bytes())?);
    }
    let numbers = next_children(alloc, rest, children)?;
    if is_extension {
        return Ok(Kind::Extension { id: BufferString::copy_from_str(alloc, word)?, metadata });
    }
    if let Some(ptype) = ptype(word) {
        return Ok(Kind::Primitive(ptype));
    }
    Ok(match word {
        "null" => Kind::Null,
        "bool" => Kind::Bool,
        "utf8" => Kind::Utf8,
        "binary" => Kind::Binary,
        "variant" => Kind::Variant,
        "list" => Kind::List,
        "fixed" => Kind::FixedSizeList { size: numbers[1] as u32 },
        "map" => Kind::Map { sorted: false },
        "sorted" => Kind::Map { sorted: true },
        "decimal" => Kind::Decimal { precision: numbers[0], scale: numbers[1] },
        _ => return Err(DTypeError::Malformed),
    })
}

/// Reads the children in brackets, and answers the last two numbers among them.
fn next_children(
    alloc: Global,
    rest: &mut Rest<'_>,
    children: &mut Vec<Message>,
) -> Result<[i64; 2], DTypeError> {
    let mut numbers = [0, 0];
    if rest.takes("(") {
        while !rest.takes(")") {
            if rest.has_number() {
                numbers = [numbers[1], rest.number()];
            } else {
                children.push(next_message(alloc, rest)?)?;
            }
            rest.takes(",");
        }
    }
    Ok(numbers)
}

/// Whether the nodes say that they are the same.
fn is_same_kind(a: &Kind, b: &Kind) -> bool {
    match (a, b) {
        (Kind::Null, Kind::Null) | (Kind::Bool, Kind::Bool) | (Kind::Utf8, Kind::Utf8) => true,
        (Kind::Binary, Kind::Binary) | (Kind::Variant, Kind::Variant) => true,
        (Kind::List, Kind::List) => true,
        (Kind::Primitive(p), Kind::Primitive(q)) => p == q,
        (Kind::Decimal { precision: a, scale: s }, Kind::Decimal { precision: b, scale: t }) => {
            a == b && s == t
        }
        (Kind::FixedSizeList { size: a }, Kind::FixedSizeList { size: b }) => a == b,
        (Kind::Map { sorted: a }, Kind::Map { sorted: b }) => a == b,
        (Kind::Struct { names: a }, Kind::Struct { names: b }) => a == b,
        (Kind::Union { names: a, tags: s }, Kind::Union { names: b, tags: t }) => a == b && s == t,
        (Kind::Extension { id: a, metadata: s }, Kind::Extension { id: b, metadata: t }) => {
            a == b && s == t
        }
        _ => false,
    }
}

/// Whether the trees are equal.
fn is_same(a: &Message, b: &Message) -> bool {
    let mut pairs = a.children.iter().zip(&b.children);
    is_same_kind(&a.kind, &b.kind)
        && a.nullable == b.nullable
        && a.children.len() == b.children.len()
        && pairs.all(|(a, b)| is_same(a, b))
}

/// The type that the message means to a session without plugins.
fn read_plainly(alloc: Global, message: &Message) -> Result<DType, DTypeError> {
    from_proto(alloc, message, &DTypeSession::empty(alloc))
}

/// Types without children, apart by spaces.
const LEAVES: &str = "bool utf8 binary variant u8 u16 u32 u64 i8 i16 i32 i64 f16 f32 f64 \
    decimal(1,0) decimal(1,76) decimal(5,2) decimal(38,10) decimal(76,-76)";

const NODES: &str = "null?; list(utf8?); list(list(utf8?))?; fixed(bool, 0); fixed(bool, 3); \
    fixed(bool, 4294967295); fixed(null?, 2)?; map(utf8, bool?); sorted(utf8, bool?); \
    sorted(bool, utf8)?; {}; {b=bool, a=null?, b={}}?; <>; <a:127=utf8, a:-128=bool?>?; \
    boxed'm'(utf8); ''(bool?)?";

/// The message of the text says its type, which is written as this message, and that means the type
/// again, also as the law's function does it.
fn said(alloc: Global, checks: &mut Checks<'_>, text: &str) -> Done {
    says(alloc, checks, text, &message(alloc, text)?, &dtype(alloc, text)?)
}

fn says(alloc: Global, checks: &mut Checks<'_>, name: &str, it: &Message, dtype: &DType) -> Done {
    checks.holds(name, read_plainly(alloc, it)? == *dtype);
    let (written, by_law) = (to_proto(alloc, dtype)?, written_types_are_read(alloc, dtype)?);
    checks.holds(name, is_same(&written, it) && is_same(&it.clone()?, it));
    checks.holds(name, read_plainly(alloc, &written)? == *dtype);
    checks.holds(name, is_same(&by_law.0, it) && by_law.1 == *dtype);
    Ok(())
}

/// Metadata are any bytes. Without them an extension is read as one of none, and written with them.
fn metadata(alloc: Global, checks: &mut Checks<'_>) -> Done {
    let mut given = message(alloc, "boxed''(utf8)")?;
    let metadata = Some(ByteBuffer::copy_from_slice(alloc, b"\x00\xff")?);
    given.kind = Kind::Extension { id: BufferString::copy_from_str(alloc, "boxed")?, metadata };
    let storage = dtype(alloc, "utf8")?;
    let wanted = DType::Extension(extension(alloc, "boxed", b"\x00\xff", storage)?);
    says(alloc, checks, "metadata that are no UTF-8 string", &given, &wanted)?;
    let missing = read_plainly(alloc, &message(alloc, "!(bool?)?")?)?;
    done!(checks; missing == dtype(alloc, "''(bool?)")?)
}

/// Messages that are no types: of nodes with children that they don't have; of unions with lists
/// that differ, and with tags that repeat or are not of eight bits; and of flags that can't be.
const NO_TYPES: &str = "null(bool)?; bool(bool); utf8(bool); binary(bool); variant(bool); \
    u8(bool); decimal(3, 1, bool); list; list(bool, bool); fixed(2); fixed(bool, bool, 2); \
    boxed''; boxed''(bool, bool); map; map(bool); map(bool, bool, bool); {a, b}; {a=bool, b}; \
    {a=bool, b=bool, =bool}; {=bool}; \
    <a:0=bool, b:1>; <a:0=bool, b:1=bool, =bool>; <a:0=bool, :1=bool>; \
    <a:0=bool, b:1=bool, c>; <a:0=bool, b=bool>; <a:0=bool, b:1=bool, :2>; \
    <a:4=bool, b:4=bool>; <a:4=bool, b:0=bool, c:4=bool>; <a:128=bool>; <a:-129=bool>; \
    <a:9223372036854775807=bool>; <a:-9223372036854775808=bool>; <a:256=bool>; <a:-255=bool>; \
    null; map(utf8?, bool); map(null?, bool); boxed''(utf8?); boxed''(utf8)?; \
    {a=bool, b=list(null)?}";

fn refused(alloc: Global, checks: &mut Checks<'_>) -> Done {
    for text in NO_TYPES.split("; ") {
        let answer = read_plainly(alloc, &message(alloc, text)?);
        checks.refused(text, answer, DTypeError::Malformed)?;
    }
    // Precisions that aren't from 1 to 76, and scales that aren't from -76 to 76, of which the last
    // ones would be right in eight bits.
    let precisions = [0, 77, -1, i64::MIN, i64::MAX, 257, -255].map(|it| (it, 0i64));
    let scales = [-77, 77, i64::MIN, i64::MAX, 256, -256].map(|it| (10i64, it));
    for (precision, scale) in precisions.iter().chain(&scales) {
        let kind = Kind::Decimal { precision: *precision, scale: *scale };
        let message = Message { kind, nullable: false, children: Vec::new(alloc) };
        let answer = read_plainly(alloc, &message);
        checks.refused("a decimal out of range", answer, DTypeError::Malformed)?;
    }
    Ok(())
}

/// What is read is written so that it is read alike, by the law's function.
fn read_again(alloc: Global, checks: &mut Checks<'_>) -> Done {
    let message = message(alloc, "boxed!({a=utf8, a=null?})")?;
    let session = DTypeSession::empty(alloc);
    let (first, written, again) = read_types_are_read_again(alloc, &message, &session)?;
    let read = read_plainly(alloc, &message)?;
    done!(checks; first == read && again == read && read_plainly(alloc, &written)? == read)
}

/// Types that the laws' functions make have a shape that is read again.
fn shapes(alloc: Global, checks: &mut Checks<'_>) -> Done {
    let text = || dtype(alloc, "utf8");
    let decimals = decimals_are_shaped(DecimalDType::new(76, -76), WITH);
    let maps = maps_are_shaped(alloc, text()?, decimals.clone()?, true, WITH)?;
    let dtypes = vec![in alloc; decimals.clone()?, maps.clone()?]?;
    let tags = Vec::from_array(alloc, [-128i8, 127])?;
    let unions = unions_are_shaped(names(alloc, &["a", "a"])?, dtypes, tags, WITH)?;
    for dtype in [&decimals, &maps, &unions] {
        let (_, again) = written_types_are_read(alloc, dtype)?;
        hold!(checks; is_shaped(dtype) && again == *dtype);
    }
    let answer = maps_are_shaped(alloc, decimals, text()?, true, WITH);
    checks.refused("law: a key that may be null is refused", answer, DTypeError::MapShape)
}
