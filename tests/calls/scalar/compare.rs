//! Equality, hashes and order of scalars, `eq_ignore_nullability` and `is_compatible`, and of the
//! views of all kinds of values. None of the calls on scalars takes memory.

use crate::checks::Checks;
use crate::counted::{done, hold};
use crate::refusing::{refuse_all, took_none};
use crate::samples::{
    BINARY, BOOL, EXTENSION, FIXED, LIST, MAP, NUMBERS, OCTETS, STRUCT, UNION, UTF8, VARIANT,
    groups, hash_of, of,
};
use crate::value_notation::scalar;
use crate::values::{Done, WITH, WITHOUT};
use std::alloc::Global;
use std::cmp::Ordering;
use std::hash::Hash;
use vortex_scalar::{NestedScalarViews, Scalar, ScalarError, ScalarViews};

pub fn run(alloc: Global, checks: &mut Checks<'_>) -> Done {
    let (with, without) = (groups(alloc, WITH)?, groups(alloc, WITHOUT)?);
    refuse_all(alloc, checks);
    for (i, left) in with.iter().enumerate() {
        for (j, right) in without.iter().enumerate() {
            pairs(checks, left, right, i == j, i != VARIANT);
        }
    }
    took_none(alloc, checks, "equality, hashes, order and is_compatible take no memory");
    for (kind, group) in with.iter().enumerate() {
        nulls(checks, kind, group, &without[kind])?;
        without_memory(alloc, checks, kind, group)?;
        for (m, one) in group.iter().enumerate() {
            for (n, other) in without[kind].iter().enumerate() {
                views(checks, kind, one, other, m.cmp(&n));
            }
        }
    }
    for (one, one_text, other, other_text, stand) in PAIRS {
        let (one, other) = (scalar(alloc, one, one_text)?, scalar(alloc, other, other_text)?);
        two(checks, &one, &other, stand);
    }
    for pair in OTHER_TYPES.split("; ") {
        let (one, other) = pair.split_once(" ").ok_or(ScalarError::Invalid)?;
        let (one, other) = (Scalar::null(of(alloc, one)?), Scalar::null(of(alloc, other)?));
        two(checks, &one, &other, Stand::Apart);
    }
    Ok(())
}

/// Scalars of types with null and of types without, of one group or of two, which compare or not.
fn pairs(checks: &mut Checks<'_>, left: &[Scalar], right: &[Scalar], alike: bool, rank: bool) {
    for (m, one) in left.iter().enumerate() {
        for (n, other) in right.iter().enumerate() {
            let is_equal = alike && m == n;
            let wanted = if alike && rank { Some(m.cmp(&n)) } else { None };
            equal(checks, one, other, is_equal);
            hold!(checks; one.partial_cmp(other) == wanted);
            hold!(checks; other.partial_cmp(one) == wanted.map(|order| order.reverse()));
            hold!(checks; Scalar::is_compatible(one.dtype(), other.value()) == alike);
            hold!(checks; !alike || (hash_of(one) == hash_of(other)) == is_equal);
        }
    }
}

fn equal(checks: &mut Checks<'_>, one: &Scalar, other: &Scalar, is_equal: bool) {
    hold!(checks; one.eq_ignore_nullability(other) == is_equal && (one != other) == !is_equal);
    hold!(checks; (one == other) == is_equal && (other == one) == is_equal);
    hold!(checks; !is_equal || hash_of(one) == hash_of(other));
}

/// Null is least, of variants too, and compares with null.
fn nulls(checks: &mut Checks<'_>, kind: usize, with: &[Scalar], without: &[Scalar]) -> Done {
    let null = Scalar::null(with[0].dtype().clone()?);
    for scalar in with.iter().chain(without) {
        equal(checks, &null, scalar, false);
        hold!(checks; null.partial_cmp(scalar) == Some(Ordering::Less));
        hold!(checks; scalar.partial_cmp(&null) == Some(Ordering::Greater));
        hold!(checks; hash_of(&null) != hash_of(scalar));
        views(checks, kind, &null, scalar, Ordering::Less);
    }
    let twin = null.clone()?;
    equal(checks, &null, &twin, true);
    hold!(checks; null.partial_cmp(&twin) == Some(Ordering::Equal));
    views(checks, kind, &null, &twin, Ordering::Equal);
    Ok(())
}

/// Where a call was refused memory, comparing answers as before.
fn without_memory(alloc: Global, checks: &mut Checks<'_>, kind: usize, group: &[Scalar]) -> Done {
    let (one, other) = (&group[0], &group[1]);
    let wanted = if kind == VARIANT { None } else { Some(Ordering::Less) };
    let answer = one.cast(alloc, other.dtype());
    checks.stays("partial_cmp needs no memory", one.partial_cmp(other) == wanted);
    checks.stays("== needs no memory", one != other && one == one);
    let is_valid = Scalar::validate(one.dtype(), other.value()).is_ok();
    checks.stays("validate needs no memory", is_valid);
    done!(checks; answer? == *one)
}

/// How two scalars stand to each other: equal, and in order or not, the first one less, or neither
/// equal nor in order.
#[derive(Clone, Copy, PartialEq, Eq)]
enum Stand {
    Equal,
    Same,
    Less,
    Apart,
}

/// Nullability inside a type doesn't count either, in variants either. Variants don't compare, and
/// where one decides, lists don't.
const PAIRS: [(&str, &str, &str, &str, Stand); 17] = [
    ("list(i16?)?", "[-1]", "list(i16)", "[-1]", Stand::Equal),
    ("list(i16?)?", "[-1]", "list(i16)", "[1]", Stand::Less),
    ("list(i16?)?", "[]", "list(i16)", "[]", Stand::Equal),
    ("fixed(i16?, 1)", "[-1]", "fixed(i16, 1)?", "[-1]", Stand::Equal),
    ("fixed(i16?, 1)", "[-1]", "fixed(i16, 1)?", "[1]", Stand::Less),
    ("{a=i16?}?", "[-1]", "{a=i16}?", "[-1]", Stand::Equal),
    ("{a=i16?}?", "[-1]", "{a=i16}?", "[1]", Stand::Less),
    ("u8", "7u8", "i16", "7", Stand::Apart),
    ("{a=i16?}?", "[7]", "{b=i16?}?", "[7]", Stand::Apart),
    ("list(i16?)?", "[]", "list(u8?)?", "[]", Stand::Apart),
    ("list(i16?)?", "[null]", "fixed(i16?, 1)?", "[null]", Stand::Apart),
    ("variant", "(i16?)7", "variant?", "(i16)7", Stand::Same),
    ("variant", "(i16?)7", "variant", "(i16?)7", Stand::Same),
    ("variant", "(i16?)7", "variant", "(i32?)7i32", Stand::Apart),
    ("variant", "(i16?)7", "variant", "(utf8?)'a'", Stand::Apart),
    ("list(variant?)", "[null, (i16?)7]", "list(variant?)", "[null, (i16?)7]", Stand::Same),
    ("list(variant?)", "[null]", "list(variant?)", "[null, (i16?)7]", Stand::Less),
];

/// Types that differ beyond nullability, whose nulls don't compare.
const OTHER_TYPES: &str = "i16? u8?; i16? f16?; null i16?; utf8? binary?; i16? date'd'(i16?); \
    list(i16?)? fixed(i16?,1)?; fixed(i16?,1)? fixed(i16?,2)?; list(i16?)? list(u8?)?; \
    {a=i16?}? {b=i16?}?; map(utf8,i16?)? map(utf8,u8?)?";

/// The two stand so to each other, and so do their views.
fn two(checks: &mut Checks<'_>, one: &Scalar, other: &Scalar, stand: Stand) {
    let is_equal = stand == Stand::Equal || stand == Stand::Same;
    let order = match stand {
        Stand::Equal => Some(Ordering::Equal),
        Stand::Less => Some(Ordering::Less),
        Stand::Same | Stand::Apart => None,
    };
    equal(checks, one, other, is_equal);
    hold!(checks; one.partial_cmp(other) == order);
    hold!(checks; other.partial_cmp(one) == order.map(|order| order.reverse()));
    if let (Some(one), Some(other)) = (one.as_primitive_opt(), other.as_primitive_opt()) {
        hold!(checks; (one == other) == is_equal && one.partial_cmp(&other) == order);
    }
    if let (Some(one), Some(other)) = (one.as_list_opt(), other.as_list_opt()) {
        hold!(checks; (one == other) == is_equal && one.partial_cmp(&other) == order);
        hold!(checks; !is_equal || hash_of(&one) == hash_of(&other));
    }
}

/// Whether the views are equal, and feed hashers equally.
fn alike<T: PartialEq + Hash>(checks: &mut Checks<'_>, one: &T, other: &T, is_equal: bool) {
    hold!(checks; (one == other) == is_equal && (other == one) == is_equal);
    hold!(checks; (one != other) == !is_equal, (hash_of(one) == hash_of(other)) == is_equal);
}

/// The views stand so to each other.
fn partly<T: PartialOrd + Hash>(checks: &mut Checks<'_>, one: &T, other: &T, wanted: Ordering) {
    alike(checks, one, other, wanted == Ordering::Equal);
    hold!(checks; one.partial_cmp(other) == Some(wanted));
    hold!(checks; other.partial_cmp(one) == Some(wanted.reverse()));
}

/// So they do where each two compare.
fn ordered<T: Ord + Hash>(checks: &mut Checks<'_>, one: &T, other: &T, wanted: Ordering) {
    partly(checks, one, other, wanted);
    hold!(checks; one.cmp(other) == wanted);
}

fn views(checks: &mut Checks<'_>, kind: usize, one: &Scalar, other: &Scalar, wanted: Ordering) {
    let same = wanted == Ordering::Equal;
    match kind {
        BOOL => ordered(checks, &one.as_bool(), &other.as_bool(), wanted),
        NUMBERS | OCTETS => partly(checks, &one.as_primitive(), &other.as_primitive(), wanted),
        UTF8 => ordered(checks, &one.as_utf8(), &other.as_utf8(), wanted),
        BINARY => ordered(checks, &one.as_binary(), &other.as_binary(), wanted),
        LIST | FIXED => alike(checks, &one.as_list(), &other.as_list(), same),
        STRUCT => alike(checks, &one.as_struct(), &other.as_struct(), same),
        MAP => alike(checks, &one.as_map(), &other.as_map(), same),
        UNION => alike(checks, &one.as_union(), &other.as_union(), same),
        VARIANT => alike(checks, &one.as_variant(), &other.as_variant(), same),
        _ => alike(checks, &one.as_extension(), &other.as_extension(), same),
    }
    let found = match kind {
        LIST | FIXED => one.as_list().partial_cmp(&other.as_list()),
        STRUCT => one.as_struct().partial_cmp(&other.as_struct()),
        EXTENSION => one.as_extension().partial_cmp(&other.as_extension()),
        _ => return,
    };
    hold!(checks, kind; found == Some(wanted));
}
