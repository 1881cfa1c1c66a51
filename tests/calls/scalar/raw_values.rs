//! `ScalarValue`, `UnionValue`, `VariantValue` and `ScalarError`, and the order, equality and
//! hashes of values.

use crate::checks::Checks;
use crate::counted::{done, hold};
use crate::samples::of;
use crate::value_notation::{value, values};
use crate::values::{Done, Value, copied, is_same};
use std::alloc::{AllocError, AllocFailed, Global};
use std::cmp::Ordering;
use std::hash::{DefaultHasher, Hasher};
use vortex_dtype::{BufferString, ByteBuffer};
use vortex_scalar::{
    PValue, ScalarError, ScalarValue, UnionValue, VariantValue, compare_values, eq_values,
    hash_value,
};

pub fn run(alloc: Global, checks: &mut Checks<'_>) -> Done {
    lent(alloc, checks)?;
    given(alloc, checks)?;
    wrapped(alloc, checks)?;
    unions_and_variants(alloc, checks)?;
    copies(alloc, checks)?;
    errors(alloc, checks)
}

/// A value of each form.
const FORMS: &str = "true; -5; 'é'; x'00ff'; [null, 7]; <-3:7>; (utf8?)null";

/// Each `as_` form lends what stands in the value of its form alone.
fn lent(alloc: Global, checks: &mut Checks<'_>) -> Done {
    for (form, value) in values(alloc, FORMS)?.iter().flatten().enumerate() {
        let is = |at| form == at;
        let minus_five = ScalarValue::from(-5i16);
        hold!(checks, form;
            value.as_bool() == if is(0) { Some(true) } else { None },
            value.as_primitive().is_some() == is(1),
            value.as_primitive().is_none_or(|it| is_value(&ScalarValue::from(it), &minus_five)),
            value.as_utf8().map(|it| it.as_str()) == if is(2) { Some("é") } else { None },
            value.as_binary().is_some() == is(3),
            value.as_binary().is_none_or(|it| it.as_slice() == b"\x00\xff".as_slice()),
            value.as_list().is_some() == is(4),
            value.as_list().is_none_or(|it| it.len() == 2 && it[0].is_none()),
            value.as_union().map(|it| it.type_id()) == if is(5) { Some(-3) } else { None },
            value.as_variant().is_some() == is(6),
            value.as_variant().is_none_or(|it| it.dtype().is_utf8() && it.dtype().is_nullable()),
            value.child_at(0).is_none() && value.child_at(1).is_some() == is(4),
            value.child_at(2).is_none(),
        );
    }
    Ok(())
}

fn is_value(left: &ScalarValue, right: &ScalarValue) -> bool {
    is_same(Some(left), Some(right))
}

/// The call takes out of a value of this form what makes it again, and of others refuses to by
/// `Invalid`.
fn takes<
    T: Drop,
    F: Fn(ScalarValue) -> Result<T, ScalarError>,
    G: Fn(T) -> Result<ScalarValue, AllocError>,
>(
    alloc: Global,
    checks: &mut Checks<'_>,
    form: usize,
    take: F,
    again: G,
) -> Done {
    for (i, value) in values(alloc, FORMS)?.into_iter().flatten().enumerate() {
        let twin = value.clone()?;
        let is_so = match take(value) {
            Ok(part) => i == form && is_value(&again(part)?, &twin),
            Err(error) => i != form && error == ScalarError::Invalid,
        };
        checks.holds_at("into_ and try_from", form, is_so);
    }
    Ok(())
}

/// The `into_` forms, what they give taken apart, and conversions from values. Conversions to
/// values make them again.
fn given(alloc: Global, checks: &mut Checks<'_>) -> Done {
    let invalid = ScalarError::Invalid;
    takes(alloc, checks, 0, |it| it.into_bool().ok_or(invalid), |it| Ok(ScalarValue::from(it)))?;
    takes(alloc, checks, 0, |it| bool::try_from(it), |it| Ok(ScalarValue::from(it)))?;
    takes(alloc, checks, 1, |it| it.into_primitive().ok_or(invalid), |it| Ok(it.into()))?;
    takes(alloc, checks, 1, |it| PValue::try_from(it), |it| Ok(ScalarValue::from(it)))?;
    takes(alloc, checks, 2, |it| it.into_utf8().ok_or(invalid), |it| Ok(ScalarValue::from(it)))?;
    takes(alloc, checks, 2, |it| BufferString::try_from(it), |it| Ok(ScalarValue::from(it)))?;
    takes(alloc, checks, 3, |it| it.into_binary().ok_or(invalid), |it| Ok(ScalarValue::from(it)))?;
    takes(alloc, checks, 3, |it| ByteBuffer::try_from(it), |it| Ok(ScalarValue::from(it)))?;
    takes(alloc, checks, 4, |it| it.into_list().ok_or(invalid), |it| Ok(ScalarValue::from(it)))?;
    takes(alloc, checks, 4, |it| Vec::try_from(it), |it| Ok(ScalarValue::Tuple(it)))?;
    takes(alloc, checks, 5, |it| it.into_union().ok_or(invalid), |it| Ok(ScalarValue::from(it)))?;
    let take = |it: ScalarValue| it.into_variant().ok_or(invalid);
    takes(alloc, checks, 6, take, |it| ScalarValue::try_from((alloc, it)))?;
    let take = |it: ScalarValue| Ok(it.into_union().ok_or(invalid)?.into_parts());
    let again = |(tag, child)| Ok(ScalarValue::Union(UnionValue::try_new(alloc, tag, child)?));
    takes(alloc, checks, 5, take, again)?;
    let take = |it: ScalarValue| Ok(it.into_variant().ok_or(invalid)?.into_parts());
    let again = |(dtype, value)| ScalarValue::try_from((alloc, VariantValue::new(dtype, value)));
    takes(alloc, checks, 6, take, again)
}

/// Conversions to values.
fn wrapped(alloc: Global, checks: &mut Checks<'_>) -> Done {
    for (found, text) in [
        (ScalarValue::from(PValue::I8(-5)), "-5i8"),
        (ScalarValue::from(5u8), "5u8"),
        (ScalarValue::from(5u16), "5u16"),
        (ScalarValue::from(5u32), "5u32"),
        (ScalarValue::from(5u64), "5u64"),
        (ScalarValue::from(-5i8), "-5i8"),
        (ScalarValue::from(-5i16), "-5i16"),
        (ScalarValue::from(-5i32), "-5i32"),
        (ScalarValue::from(-5i64), "-5i64"),
        (ScalarValue::from(5usize), "5u64"),
        (ScalarValue::from(true), "true"),
        (ScalarValue::from(BufferString::from_static("é")), "'é'"),
        (ScalarValue::from(ByteBuffer::from_static(b"\x00\xff")), "x'00ff'"),
        (ScalarValue::from(vec![in alloc; None, value(alloc, "7")?]?), "[null, 7]"),
        (ScalarValue::tuple(alloc, [])?, "[]"),
    ] {
        checks.holds(text, is_same(Some(&found), value(alloc, text)?.as_ref()));
    }
    Ok(())
}

fn unions_and_variants(alloc: Global, checks: &mut Checks<'_>) -> Done {
    for (tag, text) in [(i8::MIN, "7"), (-1, "7"), (0, "null"), (i8::MAX, "7")] {
        let (union, wanted) =
            (UnionValue::try_new(alloc, tag, value(alloc, text)?)?, value(alloc, text)?);
        let answer: Result<UnionValue, AllocError> = union.clone();
        checks.stays("a union after a clone", is_same(union.child_value(), wanted.as_ref()));
        let (copied, child) = answer?.into_parts();
        hold!(checks; union.type_id() == tag && is_same(union.child_value(), wanted.as_ref()));
        hold!(checks; copied == tag && is_same(child.as_ref(), wanted.as_ref()));
    }
    // A variant's value may be made of a type that does not have it.
    let (dtype, seven) = (of(alloc, "utf8?")?, value(alloc, "7")?);
    let odd = VariantValue::new(dtype.clone()?, value(alloc, "7")?);
    let answer: Result<VariantValue, AllocError> = odd.clone();
    checks.stays("a variant after a clone", is_same(odd.value(), seven.as_ref()));
    let (found, copied) = answer?.into_parts();
    hold!(checks; *odd.dtype() == dtype && is_same(odd.value(), seven.as_ref()));
    done!(checks; found == dtype && is_same(copied.as_ref(), seven.as_ref()))
}

fn copies(alloc: Global, checks: &mut Checks<'_>) -> Done {
    let twins = values(alloc, FORMS)?;
    for (form, value) in values(alloc, FORMS)?.iter().enumerate() {
        let answer = copied(value.as_ref());
        checks.stays("a value after a clone", is_same(value.as_ref(), twins[form].as_ref()));
        hold!(checks, form; is_same(answer?.as_ref(), twins[form].as_ref()));
    }
    let (nested, twin) = (ScalarValue::Tuple(values(alloc, FORMS)?), ScalarValue::Tuple(twins));
    let copy = nested.clone()?;
    drop(nested);
    done!(checks; is_value(&copy, &twin))
}

const ERRORS: [(ScalarError, u8, &str); 3] = [
    (ScalarError::Memory, 1, "Memory"),
    (ScalarError::Invalid, 2, "Invalid"),
    (ScalarError::NotConvertible, 3, "NotConvertible"),
];

fn errors(alloc: Global, checks: &mut Checks<'_>) -> Done {
    for (error, number, name) in ERRORS {
        hold!(checks; error.number() == number && error.name() == name);
        hold!(checks; format!(in alloc; "{error:?}")?.as_str() == name);
        hold!(checks; !format!(in alloc; "{error}")?.is_empty());
    }
    hold!(checks; ScalarError::from(AllocError) == ScalarError::Memory);
    done!(checks; ScalarError::from(AllocFailed { value: 7u8 }) == ScalarError::Memory)
}

/// Values of one form in each group, in order.
const ORDERED: [&str; 6] = [
    "false; true",
    "-9223372036854775808i64; -1i8; 0u64; 1i32; 255u8; 9223372036854775807i64; \
        18446744073709551615u64",
    "''; 'a'; 'a\0'; 'a\u{7f}'; 'b'; '\u{80}'; '\u{d7ff}'; '\u{e000}'; '\u{ffff}'; '\u{10000}'",
    "x''; x'00'; x'0000'; x'00ff'; x'7f'; x'80'; x'ff'; x'ff00'",
    "[]; [null]; [null, null]; [null, -1]; [-1]; [1]; [1, null]; [1, 5]; [2]",
    "<-128:9>; <-1:null>; <-1:3>; <-1:4>; <127:3>",
];

pub fn ordered(alloc: Global, checks: &mut Checks<'_>) -> Done {
    for (i, left) in ORDERED.iter().enumerate() {
        let left = values(alloc, left)?;
        nulls(checks, &left);
        for (j, right) in ORDERED.iter().enumerate() {
            each_pair(checks, &left, &values(alloc, right)?, i == j);
        }
    }
    hold!(checks; is_equal(None, None));
    for pair in EQUAL {
        let pair = values(alloc, pair)?;
        hold!(checks; is_equal(pair[0].as_ref(), pair[1].as_ref()));
    }
    for (pair, is_less) in DEEP {
        let pair = values(alloc, pair)?;
        let wanted = if is_less { Some(Ordering::Less) } else { None };
        hold!(checks; compare_values(pair[0].as_ref(), pair[1].as_ref()) == wanted);
    }
    variants(alloc, checks)
}

/// Values that are equal: numbers of two kinds, also inside.
const EQUAL: [&str; 3] = ["7u8; 7", "[7u8]; [7]", "<1:[7u8]>; <1:[7]>"];

/// Texts in lists in unions, of which the first is less: the first difference counts, and then the
/// length. Other forms inside don't compare.
const DEEP: [(&str, bool); 3] = [
    ("<0:[['a'], 'z']>; <0:[['b'], 'y']>", true),
    ("<0:[['a'], 'z']>; <0:[['a', null], 'a']>", true),
    ("<0:[['a'], 'z']>; <0:[[1], 'z']>", false),
];

fn hash_of(value: Option<&ScalarValue>) -> u64 {
    let mut hasher = DefaultHasher::new();
    hash_value(value, &mut hasher);
    hasher.finish()
}

/// Null is below each value.
fn nulls(checks: &mut Checks<'_>, values: &[Value]) {
    for value in values {
        let value = value.as_ref();
        hold!(checks; compare_values(None, value) == Some(Ordering::Less));
        hold!(checks; compare_values(value, None) == Some(Ordering::Greater));
        hold!(checks; !eq_values(None, value) && !eq_values(value, None));
        hold!(checks; hash_of(None) != hash_of(value));
    }
}

/// Values of one group are in order, and those of two groups don't compare.
fn each_pair(checks: &mut Checks<'_>, left: &[Value], right: &[Value], is_group: bool) {
    for (i, one) in left.iter().enumerate() {
        for (j, other) in right.iter().enumerate() {
            let (one, other, is_same) = (one.as_ref(), other.as_ref(), is_group && i == j);
            let wanted = if is_group { Some(i.cmp(&j)) } else { None };
            hold!(checks, 10 * i + j;
                compare_values(one, other) == wanted && eq_values(one, other) == is_same,
                !is_group && i + j > 0 || (hash_of(one) == hash_of(other)) == is_same,
            );
        }
    }
}

/// Whether the values are equal by all three calls.
fn is_equal(left: Option<&ScalarValue>, right: Option<&ScalarValue>) -> bool {
    compare_values(left, right) == Some(Ordering::Equal)
        && eq_values(left, right)
        && hash_of(left) == hash_of(right)
}

/// Values that are no variant of the type of 16-bit numbers that holds 7, up to its nullability.
const OTHERS: &str = "7; (i16?)8; (i16?)null; (variant)(i16?)7; (u8?)7u8; (utf8?)null";

/// Variants are the same up to the nullability of their types, and don't compare. Null is below.
fn variants(alloc: Global, checks: &mut Checks<'_>) -> Done {
    let all = values(alloc, "(i16?)7; (i16)7")?;
    nulls(checks, &all);
    for texts in ["(i16?)7; (i16)7", "[(i16?)7]; [(i16)7]"] {
        let all = values(alloc, texts)?;
        let (one, other) = (all[0].as_ref(), all[1].as_ref());
        hold!(checks; eq_values(one, other) && hash_of(one) == hash_of(other));
        hold!(checks; compare_values(one, other).is_none() && compare_values(one, one).is_none());
    }
    let one = all[0].as_ref();
    for value in &values(alloc, OTHERS)? {
        let value = value.as_ref();
        hold!(checks; !eq_values(one, value) && !eq_values(value, one));
        hold!(checks; hash_of(one) != hash_of(value), compare_values(one, value).is_none());
        hold!(checks; compare_values(value, one).is_none());
    }
    Ok(())
}
