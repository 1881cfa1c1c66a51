//! `ScalarConstructors`, `NestedScalarConstructors` and `ScalarDefaults`.

use crate::checks::Checks;
use crate::counted::{done, hold};
use crate::numbers::FLOATS;
use crate::samples::{Days, NO_VALUES, Plain, groups, of};
use crate::value_notation::{scalar, value};
use crate::values::{
    Done, KINDS, WITH, WITHOUT, bytes, copied, has, is_made, is_of, is_same, number_of, text,
    tuple, typed,
};
use std::alloc::Global;
use std::rc::Rc;
use vortex_dtype::{
    BufferString, ByteBuffer, DType, NativeDType, NativePType, Nullability,
    match_each_integer_ptype,
};
use vortex_scalar::{
    NestedScalarConstructors, NestedScalarViews, PValue, Scalar, ScalarConstructors,
    ScalarDefaults, ScalarError, ScalarValue, row, rows,
};

pub fn run(alloc: Global, checks: &mut Checks<'_>) -> Done {
    for nullability in [WITH, WITHOUT] {
        leaves(alloc, checks, nullability)?;
        numbers_of_kinds(checks, nullability);
        extensions(alloc, checks, nullability)?;
        nested(alloc, checks, nullability)?;
    }
    nulls(alloc, checks)?;
    sequences(alloc, checks)?;
    maps_and_unions(alloc, checks)?;
    defaults(alloc, checks)
}

/// Bytes, and the text that they are in UTF-8.
const TEXTS: [(&[u8], Option<&str>); 10] = [
    (b"", Some("")),
    (b"\xc3\xa9\x00", Some("é\0")),
    (b"\xc3", None),
    (b"a\x80", None),
    (b"\xff", None),
    (b"\xc0\x80", None),
    (b"\xed\x9f\xbf", Some("\u{d7ff}")),
    (b"\xed\xa0\x80", None),
    (b"\xf4\x8f\xbf\xbf", Some("\u{10ffff}")),
    (b"\xf4\x90\x80\x80", None),
];

fn leaves(alloc: Global, checks: &mut Checks<'_>, nullability: Nullability) -> Done {
    let (utf8, binary) = (DType::Utf8(nullability), DType::Binary(nullability));
    for flag in [false, true] {
        let wanted = ScalarValue::Bool(flag);
        let made = Scalar::bool(flag, nullability);
        hold!(checks; is_of(&made, &DType::Bool(nullability), Some(&wanted)));
    }
    for given in ["", "é", "a longer text than fits beside a length"] {
        let made = Scalar::utf8(BufferString::from_static(given), nullability);
        hold!(checks; is_of(&made, &utf8, text(given).as_ref()));
        let made = Scalar::binary(ByteBuffer::from_static(given.as_bytes()), nullability);
        hold!(checks; is_of(&made, &binary, bytes(given.as_bytes()).as_ref()));
    }
    for (given, wanted) in TEXTS {
        let answer = Scalar::try_utf8(ByteBuffer::copy_from_slice(alloc, given)?, nullability);
        match wanted {
            Some(wanted) => hold!(checks; is_of(&answer?, &utf8, text(wanted).as_ref())),
            None => checks.refused("try_utf8", answer, ScalarError::Invalid)?,
        }
    }
    Ok(())
}

/// The number of the native type `T` as a scalar.
fn primitive<T: NativePType>(number: i128, nullability: Nullability) -> Option<Scalar> {
    let native = T::of(number)?;
    Some(Scalar::primitive(native, nullability))
}

fn numbers_of_kinds(checks: &mut Checks<'_>, nullability: Nullability) {
    for (ptype, least, most) in KINDS {
        for number in [least, 0, most] {
            let (dtype, value) = (DType::Primitive(ptype, nullability), number_of(ptype, number));
            let wanted = ScalarValue::Primitive(value);
            let made = match_each_integer_ptype!(ptype, primitive(number, nullability));
            hold!(checks; made.is_some_and(|made| is_of(&made, &dtype, Some(&wanted))));
            for (other, _, _) in KINDS {
                let is_so = match Scalar::primitive_value(value, other, nullability) {
                    Ok(made) => other == ptype && is_of(&made, &dtype, Some(&wanted)),
                    Err(error) => other != ptype && error == ScalarError::Invalid,
                };
                checks.holds("primitive_value", is_so);
            }
        }
    }
    for ptype in FLOATS {
        hold!(checks; is_made(Scalar::primitive_value(PValue::I8(0), ptype, nullability), false));
    }
}

fn extensions(alloc: Global, checks: &mut Checks<'_>, nullability: Nullability) -> Done {
    let dtype = of(alloc, "date'd'(i16)")?.with_nullability(nullability)?;
    let made_of = || dtype.as_extension().clone();
    let made = Scalar::extension_ref(made_of()?, Scalar::primitive(7i16, nullability))?;
    hold!(checks; is_of(&made, &dtype, value(alloc, "7")?.as_ref()));
    if nullability == WITH {
        let made = Scalar::extension_ref(made_of()?, scalar(alloc, "i16?", "null")?)?;
        hold!(checks; is_of(&made, &dtype, None));
    }
    let other = if nullability == WITH { WITHOUT } else { WITH };
    for (name, storage) in [
        ("extension_ref of other nullability", Scalar::primitive(7i16, other)),
        ("extension_ref of another kind", Scalar::primitive(7i32, nullability)),
        ("extension_ref of an extension", made),
    ] {
        let answer = Scalar::extension_ref(made_of()?, storage);
        checks.refused(name, answer, ScalarError::Invalid)?;
    }
    let days = Scalar::primitive(3i32, nullability);
    let made = Scalar::extension::<Days>(alloc, Plain, days)?;
    let dtype = of(alloc, "days'p'(i32)")?.with_nullability(nullability)?;
    hold!(checks; is_of(&made, &dtype, value(alloc, "3i32")?.as_ref()));
    let other = Scalar::extension::<Days>(alloc, Plain, Scalar::bool(true, nullability));
    checks.refused("extension of another type", other, ScalarError::Invalid)
}

/// Variants of each kind, and empty lists of it.
fn nested(alloc: Global, checks: &mut Checks<'_>, nullability: Nullability) -> Done {
    let variant = DType::Variant(WITHOUT);
    for group in groups(alloc, nullability)? {
        let (inner, held) = (group[0].dtype(), copied(group[0].value())?);
        let wanted = typed(alloc, inner.clone()?, held)?;
        let made = Scalar::variant(alloc, group[0].clone()?)?;
        hold!(checks; is_of(&made, &variant, wanted.as_ref()));
        let lists = DType::list(alloc, inner.clone()?, nullability)?;
        let made = Scalar::list_empty(alloc, Rc::new(alloc, inner.clone()?)?, nullability);
        hold!(checks; is_of(&made, &lists, tuple(alloc, [])?.as_ref()));
    }
    for text in NO_VALUES {
        let (inner, lists) = (of(alloc, text)?, DType::list(alloc, of(alloc, text)?, nullability)?);
        let made = Scalar::list_empty(alloc, Rc::new(alloc, inner)?, nullability);
        hold!(checks; is_of(&made, &lists, tuple(alloc, [])?.as_ref()));
    }
    let made = Scalar::variant(alloc, Scalar::null(DType::Null))?;
    done!(checks; is_of(&made, &variant, value(alloc, "(null)null")?.as_ref()))
}

/// Whether it is null of the type of columns of `T`, made nullable.
fn is_null_of<T: NativeDType>(alloc: Global, text: &str) -> Result<bool, ScalarError> {
    let made: Scalar = Scalar::null_native::<T>(alloc)?;
    Ok(is_of(&made, &of(alloc, text)?, None))
}

fn nulls(alloc: Global, checks: &mut Checks<'_>) -> Done {
    hold!(checks; is_null_of::<i64>(alloc, "i64?")? && is_null_of::<Option<i64>>(alloc, "i64?")?);
    hold!(checks; is_null_of::<bool>(alloc, "bool?")? && is_null_of::<String>(alloc, "utf8?")?);
    hold!(checks; is_null_of::<ByteBuffer>(alloc, "binary?")?);
    done!(checks; is_null_of::<Vec<&'static str>>(alloc, "list(utf8)?")?)
}

/// The scalar is of this type, has this value, and the type has it.
fn makes(alloc: Global, checks: &mut Checks<'_>, made: &Scalar, dtype: &str, text: &str) -> Done {
    let is_so = is_of(made, &of(alloc, dtype)?, value(alloc, text)?.as_ref());
    checks.holds(text, is_so && has(made.dtype(), made.value()));
    Ok(())
}

/// The first so many numbers from 1.
fn scalars(alloc: Global, many: i16, nullability: Nullability) -> Result<Vec<Scalar>, ScalarError> {
    let mut scalars = Vec::new(alloc);
    for number in 1..many + 1 {
        scalars.push(Scalar::primitive(number, nullability))?;
    }
    Ok(scalars)
}

/// Rows, lists and records.
fn sequences(alloc: Global, checks: &mut Checks<'_>) -> Done {
    let made = row(alloc, (1i16, None::<u8>, "x", b"y".as_slice()))?;
    let (wanted, second) = (value(alloc, "[1, null, 'x', x'79']")?, value(alloc, "[2]")?);
    hold!(checks; is_same(Some(&made), wanted.as_ref()));
    let made = rows(alloc, [(1i16,), (2,)])?;
    hold!(checks; made.len() == 2 && is_same(made[1].as_ref(), second.as_ref()));
    let element = Rc::new(alloc, of(alloc, "i16")?)?;
    for (many, fixed, text) in
        [(3, "fixed(i16, 3)", "[1, 2, 3]"), (0, "fixed(i16, 0)", "[]"), (1, "fixed(i16, 1)", "[1]")]
    {
        let made = Scalar::list(element.clone()?, scalars(alloc, many, WITHOUT)?, WITH)?;
        makes(alloc, checks, &made, "list(i16)?", text)?;
        let all = scalars(alloc, many, WITHOUT)?;
        makes(
            alloc,
            checks,
            &Scalar::fixed_size_list(element.clone()?, all, WITHOUT)?,
            fixed,
            text,
        )?;
    }
    let other = Scalar::list(element.clone()?, scalars(alloc, 1, WITH)?, WITH);
    checks.refused("list of another type", other, ScalarError::Invalid)?;
    let other = Scalar::fixed_size_list(element.clone()?, scalars(alloc, 1, WITH)?, WITH);
    checks.refused("fixed_size_list of another type", other, ScalarError::Invalid)?;
    let dtype = of(alloc, "{a=i16, b=i16}?")?;
    let made = Scalar::struct_(dtype.clone()?, scalars(alloc, 2, WITHOUT)?)?;
    makes(alloc, checks, &made, "{a=i16, b=i16}?", "[1, 2]")?;
    let values = Vec::from_array(alloc, [value(alloc, "1")?, value(alloc, "2")?])?;
    let made = Scalar::struct_unchecked(dtype.clone()?, values);
    makes(alloc, checks, &made, "{a=i16, b=i16}?", "[1, 2]")?;
    for (name, dtype, fields) in [
        ("struct_ of fewer", dtype.clone()?, scalars(alloc, 1, WITHOUT)?),
        ("struct_ of another type", dtype, scalars(alloc, 2, WITH)?),
        ("struct_ of no record", DType::Null, scalars(alloc, 2, WITHOUT)?),
    ] {
        checks.refused(name, Scalar::struct_(dtype, fields), ScalarError::Invalid)?;
    }
    Ok(())
}

fn maps_and_unions(alloc: Global, checks: &mut Checks<'_>) -> Done {
    let dtype = of(alloc, "map(utf8, i16?)")?;
    let Some(types) = dtype.as_map_opt() else {
        return Err(ScalarError::Invalid);
    };
    let entries = [
        (scalar(alloc, "utf8", "'b'")?, scalar(alloc, "i16?", "7")?),
        (scalar(alloc, "utf8", "'a'")?, scalar(alloc, "i16?", "null")?),
    ];
    let made = Scalar::map(types.clone()?, Vec::from_array(alloc, entries)?, WITHOUT)?;
    makes(alloc, checks, &made, "map(utf8, i16?)", "[['b', 7], ['a', null]]")?;
    let entries = [(scalar(alloc, "utf8", "'a'")?, scalar(alloc, "i16", "7")?)];
    let answer = Scalar::try_map(types.clone()?, Vec::from_array(alloc, entries)?, WITHOUT);
    checks.refused("try_map of another type", answer, ScalarError::Invalid)?;
    let text = "<first:-3=i16?, second:4=utf8>";
    let dtype = of(alloc, text)?;
    let Some(types) = dtype.as_union_variants_opt() else {
        return Err(ScalarError::Invalid);
    };
    for (name, tag) in [("", -3), ("union of another type", 4), ("union of no choice", 6)] {
        let seven = Scalar::primitive(7i16, WITH);
        let answer = Scalar::union(alloc, types.clone()?, tag, seven, WITHOUT);
        if name.is_empty() {
            makes(alloc, checks, &answer?, text, "<-3:7>")?;
        } else {
            checks.refused(name, answer, ScalarError::Invalid)?;
        }
    }
    Ok(())
}

/// Types that have a zero, and types that have none.
const ZEROS: &str = "bool; i16; utf8; binary; list(decimal(10, 2)); fixed(decimal(10, 2), 0); \
    {a=i16?, b=utf8}; fixed({a=i16?, b=utf8}, 3); <first:-3=i16?, second:4=utf8>";
const NO_ZEROS: &str = "null; f32; variant; fixed(decimal(10, 2), 2); {a=null}";

fn defaults(alloc: Global, checks: &mut Checks<'_>) -> Done {
    for text in NO_ZEROS.split("; ") {
        checks.holds(text, Scalar::zero_value(alloc, &of(alloc, text)?)?.is_none());
    }
    for text in ZEROS.split("; ") {
        let dtype = of(alloc, text)?;
        let zero = Scalar::zero_value(alloc, &dtype)?.ok_or(ScalarError::Invalid)?;
        checks.holds(text, *zero.dtype() == dtype && has(zero.dtype(), zero.value()));
        checks.holds(text, zero.is_zero() == Some(true));
        let default = Scalar::default_value(alloc, &dtype)?;
        checks.holds(text, default.is_some_and(|it| it.is_zero() == Some(true)));
        let default = Scalar::default_value(alloc, &dtype.as_nullable()?)?;
        checks.holds(text, default.is_some_and(|it| it.is_null() && it.is_zero().is_none()));
    }
    let three = Scalar::zero_value(alloc, &of(alloc, "fixed({a=i16?, b=utf8}, 3)")?)?;
    hold!(checks; three.is_some_and(|zero| zero.as_list().len() == 3));
    for (given, wanted) in [("3u8", false), ("0u8", true)] {
        hold!(checks; scalar(alloc, "u8?", given)?.is_zero() == Some(wanted));
    }
    for (given, wanted) in [("(u8?)0u8", true), ("(i16?)null", false)] {
        hold!(checks; scalar(alloc, "variant", given)?.is_zero() == Some(wanted));
    }
    Ok(())
}
