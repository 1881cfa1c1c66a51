//! Scalars of native values, by `From`, `TryFrom` and `NativeValue`, and native values of scalars,
//! by `TryFrom` and `FromScalar`; `ExtDTypeScalarExt`.

use crate::checks::Checks;
use crate::counted::{done, hold};
use crate::samples::{Days, Plain, groups, of};
use crate::value_notation::{scalar, value};
use crate::values::{Done, WITH, WITHOUT, bytes, has, is_made, is_of, is_same, of_types, text};
use std::alloc::Global;
use vortex_dtype::{BufferString, ByteBuffer, DType, ExtDType, NativePType, PType};
use vortex_scalar::{
    ExtDTypeScalarExt, FromScalar, NativeValue, PValue, Scalar, ScalarError, ScalarValue,
};

pub fn run(alloc: Global, checks: &mut Checks<'_>) -> Done {
    from_numbers(alloc, checks)?;
    from_texts_and_bytes(alloc, checks)?;
    from_others(alloc, checks)?;
    native_values(alloc, checks)?;
    for nullability in [WITH, WITHOUT] {
        for group in groups(alloc, nullability)? {
            for scalar in &group {
                into_each(checks, scalar)?;
            }
            into_each(checks, &Scalar::null(group[0].dtype().as_nullable()?))?;
        }
    }
    read_leaves(alloc, checks)?;
    read_lists(alloc, checks)?;
    not_read(alloc, checks)?;
    extensions(alloc, checks)
}

/// The least and the greatest number of each native type, the same by `Some`, and `None`.
macro_rules! ends {
    ($alloc:expr, $checks:expr; $($native:ident),+) => {{$(
        for number in [$native::MIN, $native::MAX] {
            let wanted = ScalarValue::Primitive(PValue::from(number));
            let (with, without) = (
                DType::Primitive($native::ptype(), WITH),
                DType::Primitive($native::ptype(), WITHOUT),
            );
            hold!($checks;
                is_of(&Scalar::from(number), &without, Some(&wanted)),
                is_of(&Scalar::from(Some(number)), &with, Some(&wanted)),
                is_of(&Scalar::from(None::<$native>), &with, None),
                is_same(number.into_scalar_value($alloc)?.as_ref(), Some(&wanted)),
            );
        }
    )+}};
}

fn from_numbers(alloc: Global, checks: &mut Checks<'_>) -> Done {
    ends!(alloc, checks; u8, u16, u32, u64, i8, i16, i32, i64);
    let most = ScalarValue::Primitive(PValue::U64(u64::MAX));
    let (with, without) =
        (DType::Primitive(PType::U64, WITH), DType::Primitive(PType::U64, WITHOUT));
    hold!(checks; is_of(&Scalar::from(usize::MAX), &without, Some(&most)));
    hold!(checks; is_of(&Scalar::from(Some(usize::MAX)), &with, Some(&most)));
    done!(checks; is_of(&Scalar::from(None::<usize>), &with, None))
}

fn from_texts_and_bytes(alloc: Global, checks: &mut Checks<'_>) -> Done {
    let (with, without) = (DType::Utf8(WITH), DType::Utf8(WITHOUT));
    for given in ["", "a", "é🪩"] {
        let (wanted, copy) = (text(given), BufferString::from_static(given));
        let own = String::from_str(alloc, given)?;
        hold!(checks; is_of(&Scalar::from(copy.clone()?), &without, wanted.as_ref()));
        hold!(checks; is_of(&Scalar::try_from((alloc, given))?, &without, wanted.as_ref()));
        hold!(checks; is_of(&Scalar::try_from(own)?, &without, wanted.as_ref()));
        hold!(checks; is_of(&Scalar::from(Some(copy)), &with, wanted.as_ref()));
    }
    let all: [&'static [u8]; 3] = [b"", b"\x00", b"\xff\xfe"];
    let (of_any, of_some) = (DType::Binary(WITH), DType::Binary(WITHOUT));
    for given in all {
        let (wanted, copy) = (bytes(given), ByteBuffer::from_static(given));
        hold!(checks; is_of(&Scalar::from(copy.clone()?), &of_some, wanted.as_ref()));
        hold!(checks; is_of(&Scalar::try_from((alloc, given))?, &of_some, wanted.as_ref()));
        hold!(checks; is_of(&Scalar::from(Some(copy)), &of_any, wanted.as_ref()));
    }
    hold!(checks; is_of(&Scalar::from(None::<BufferString>), &with, None));
    done!(checks; is_of(&Scalar::from(None::<ByteBuffer>), &of_any, None))
}

/// Booleans and vectors.
fn from_others(alloc: Global, checks: &mut Checks<'_>) -> Done {
    let some: Vec<Option<i16>> = vec![in alloc; Some(-7), None]?;
    let texts = Some(vec![in alloc; String::from_str(alloc, "é")?]?);
    let nested = vec![in alloc; vec![in alloc; 1u8]?, Vec::new(alloc)]?;
    let none: Vec<bool> = Vec::new(alloc);
    let null: Option<Vec<ByteBuffer>> = None;
    for (found, dtype, text) in [
        (Scalar::from(false), "bool", "false"),
        (Scalar::from(true), "bool", "true"),
        (Scalar::from(Some(false)), "bool?", "false"),
        (Scalar::from(Some(true)), "bool?", "true"),
        (Scalar::from(None::<bool>), "bool?", "null"),
        (Scalar::try_from((alloc, vec![in alloc; 1u8, 255]?))?, "list(u8)", "[1u8, 255u8]"),
        (Scalar::try_from((alloc, some))?, "list(i16?)", "[-7, null]"),
        (Scalar::try_from((alloc, texts))?, "list(utf8)?", "['é']"),
        (Scalar::try_from((alloc, nested))?, "list(list(u8))", "[[1u8], []]"),
        (Scalar::try_from((alloc, none))?, "list(bool)", "[]"),
        (Scalar::try_from((alloc, null))?, "list(binary)?", "null"),
    ] {
        checks.holds(dtype, is_of(&found, &of(alloc, dtype)?, value(alloc, text)?.as_ref()));
    }
    Ok(())
}

/// What a native value is as a raw one.
fn gives<T: NativeValue>(alloc: Global, checks: &mut Checks<'_>, text: &str, given: T) -> Done {
    let dtype = T::dtype(alloc)?;
    let made = given.into_scalar_value(alloc)?;
    let is_so = is_same(made.as_ref(), value(alloc, text)?.as_ref());
    checks.holds(text, is_so && has(&dtype, made.as_ref()));
    Ok(())
}

fn native_values(alloc: Global, checks: &mut Checks<'_>) -> Done {
    gives(alloc, checks, "true", true)?;
    gives(alloc, checks, "255u8", u8::MAX)?;
    gives(alloc, checks, "65535u16", u16::MAX)?;
    gives(alloc, checks, "4294967295u32", u32::MAX)?;
    gives(alloc, checks, "18446744073709551615u64", u64::MAX)?;
    gives(alloc, checks, "-128i8", i8::MIN)?;
    gives(alloc, checks, "-32768", i16::MIN)?;
    gives(alloc, checks, "-2147483648i32", i32::MIN)?;
    gives(alloc, checks, "-9223372036854775808i64", i64::MIN)?;
    gives(alloc, checks, "'é'", String::from_str(alloc, "é")?)?;
    gives(alloc, checks, "x'ff'", ByteBuffer::from_static(b"\xff"))?;
    gives(alloc, checks, "7u8", Some(7u8))?;
    gives(alloc, checks, "null", None::<u8>)?;
    gives(alloc, checks, "[1u8, 2u8]", vec![in alloc; 1u8, 2]?)?;
    gives(alloc, checks, "null", None::<Vec<u8>>)?;
    let inner: Vec<Option<i16>> = vec![in alloc; None, Some(7)]?;
    gives(alloc, checks, "[null, [null, 7]]", vec![in alloc; None, Some(inner)]?)
}

/// The answers of the four calls: for a value and for one or null, of a scalar that is lent or
/// given away. `wanted` is the value of the type or null, and `None` of other types.
fn four<T: PartialEq + Drop>(
    checks: &mut Checks<'_>,
    name: &str,
    wanted: Option<Option<&T>>,
    values: [Result<T, ScalarError>; 2],
    options: [Result<Option<T>, ScalarError>; 2],
) {
    for found in &values {
        let is_so = match found {
            Ok(found) => wanted == Some(Some(found)),
            Err(error) => wanted.is_none_or(|it| it.is_none()) && *error == ScalarError::Invalid,
        };
        checks.holds(name, is_so);
    }
    for found in &options {
        let is_so = match found {
            Ok(found) => wanted == Some(found.as_ref()),
            Err(error) => wanted.is_none() && *error == ScalarError::Invalid,
        };
        checks.holds(name, is_so);
    }
}

/// The four calls to a native type, that are to give this value or null of this type.
macro_rules! into {
    ($checks:expr, $scalar:expr; $($native:ty, $is:expr, $value:expr;)+) => {{$(
        let (copy, again) = ($scalar.clone()?, $scalar.clone()?);
        let values = [<$native>::try_from($scalar), <$native>::try_from(copy)];
        let options =
            [Option::<$native>::try_from($scalar), Option::<$native>::try_from(again)];
        four($checks, stringify!($native), if $is { Some($value) } else { None }, values, options);
    )+}};
}

/// Each native type but those of numbers is of one kind of types alone.
fn into_each(checks: &mut Checks<'_>, scalar: &Scalar) -> Done {
    let (dtype, value) = (scalar.dtype(), scalar.value());
    let truth = value.and_then(|it| it.as_bool());
    into!(checks, scalar;
        bool, dtype.is_boolean(), truth.as_ref();
        BufferString, dtype.is_utf8(), value.and_then(|it| it.as_utf8());
        ByteBuffer, dtype.is_binary(), value.and_then(|it| it.as_binary());
    );
    Ok(())
}

/// The value of the type is read as one for which this holds, from the scalar and from its parts.
fn reads<T: FromScalar, F: Fn(&T) -> bool>(
    alloc: Global,
    checks: &mut Checks<'_>,
    dtype: &str,
    text: &str,
    is_so: F,
) -> Done {
    let (of_type, given) = (of(alloc, dtype)?, value(alloc, text)?);
    let found = T::from_value(alloc, &of_type, given.as_ref())?;
    checks.holds(dtype, is_so(&found) && T::is_read_from(&of_type));
    checks.holds(dtype, is_so(&T::from_scalar(alloc, &scalar(alloc, dtype, text)?)?));
    Ok(())
}

fn read_leaves(alloc: Global, checks: &mut Checks<'_>) -> Done {
    reads::<bool, _>(alloc, checks, "bool?", "true", |it| *it)?;
    reads::<BufferString, _>(alloc, checks, "utf8", "'é'", |it| it.as_str() == "é")?;
    reads::<String, _>(alloc, checks, "utf8?", "'é'", |it| it.as_str() == "é")?;
    let wanted = b"\xff".as_slice();
    reads::<ByteBuffer, _>(alloc, checks, "binary", "x'ff'", |it| it.as_slice() == wanted)?;
    reads::<Option<i64>, _>(alloc, checks, "i16?", "null", |it| it.is_none())?;
    reads::<Option<bool>, _>(alloc, checks, "bool?", "null", |it| it.is_none())?;
    reads::<Option<String>, _>(alloc, checks, "utf8?", "null", |it| it.is_none())?;
    reads::<Option<i64>, _>(alloc, checks, "i16", "7", |it| *it == Some(7))
}

fn read_lists(alloc: Global, checks: &mut Checks<'_>) -> Done {
    let is_so = |it: &Vec<i64>| it[..] == [1, 300];
    reads::<Vec<i64>, _>(alloc, checks, "list(i16?)?", "[1, 300]", is_so)?;
    let is_so = |it: &Vec<Option<u8>>| it[..] == [Some(1), None];
    reads::<Vec<Option<u8>>, _>(alloc, checks, "list(i16?)?", "[1, null]", is_so)?;
    reads::<Vec<i16>, _>(alloc, checks, "list(i16?)?", "[]", |it| it.is_empty())?;
    reads::<Option<Vec<i64>>, _>(alloc, checks, "list(i16?)?", "null", |it| it.is_none())?;
    let is_so = |it: &Vec<String>| it.len() == 2 && it[0].as_str() == "b" && it[1].as_str() == "a";
    reads::<Vec<String>, _>(alloc, checks, "fixed(utf8, 2)", "['b', 'a']", is_so)?;
    let (nested, text) = ("list(fixed(u8, 2)?)", "[[1u8, 2u8], [3u8, 4u8]]");
    let is_so = |it: &Vec<Vec<u32>>| it.len() == 2 && it[0][..] == [1, 2] && it[1][..] == [3, 4];
    reads::<Vec<Vec<u32>>, _>(alloc, checks, nested, text, is_so)?;
    let is_so = |it: &Vec<Option<Vec<u8>>>| it.len() == 2 && it[0].is_some() && it[1].is_none();
    reads::<Vec<Option<Vec<u8>>>, _>(alloc, checks, nested, "[[1u8, 2u8], null]", is_so)
}

/// Counts values of types that aren't read as each native type, apart by semicolons.
macro_rules! lacks {
    ($alloc:expr, $checks:expr; $($native:ty: $($dtype:literal $text:literal)+;)+) => {{$($(
        let given = scalar($alloc, $dtype, $text)?;
        let answer = <$native as FromScalar>::from_scalar($alloc, &given);
        $checks.refused($text, answer, ScalarError::Invalid)?;
        let answer = <$native as FromScalar>::from_value($alloc, given.dtype(), given.value());
        $checks.refused($text, answer, ScalarError::Invalid)?;
    )+)+}};
}

fn not_read(alloc: Global, checks: &mut Checks<'_>) -> Done {
    lacks!(alloc, checks;
        bool: "u8" "1u8" "bool?" "null";
        String: "binary" "x'61'" "utf8?" "null";
        BufferString: "u8" "1u8";
        ByteBuffer: "utf8" "'a'" "binary?" "null";
        u8: "utf8" "'a'" "list(u8?)?" "[1u8]";
        i64: "i16?" "null";
        usize: "i16?" "null";
        Option<bool>: "i16?" "null";
        Option<u8>: "null" "null" "i16?" "-1";
        Vec<u8>: "list(i16?)?" "[1, 300]" "list(fixed(u8, 2))" "[[1u8, 2u8]]" "{a=u8}" "[1u8]"
            "map(utf8, i16?)?" "[]" "binary" "x'61'";
        Vec<i64>: "list(i16?)?" "[1, null]" "list(i16?)?" "null";
        Vec<bool>: "fixed(utf8, 2)" "['b', 'a']";
        Vec<Vec<u32>>: "list(fixed(u8, 2)?)" "[[1u8, 2u8], null]";
        Vec<Vec<i8>>: "list(fixed(u8, 2)?)" "[[1u8, 128u8]]";
        Option<Vec<u8>>: "map(utf8, i16?)?" "null";
    );
    done!(checks; !Vec::<u8>::is_read_from(&of(alloc, "{a=u8}")?))
}

/// An extension's values are those of its storage.
fn extensions(alloc: Global, checks: &mut Checks<'_>) -> Done {
    for (storage, has_null) in [("i32?", true), ("i32", false)] {
        let days = ExtDType::<Days>::try_new(Plain, of(alloc, storage)?).map_err(of_types)?;
        for (text, wanted) in
            [("-2147483648i32", true), ("null", has_null), ("7", false), ("'a'", false)]
        {
            let answer = days.validate_scalar_value(value(alloc, text)?.as_ref());
            checks.holds(text, is_made(answer, wanted));
        }
    }
    Ok(())
}
