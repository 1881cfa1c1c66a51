//! `Scalar`: which values a type has, `Scalar::cast` and `StructScalar::cast`, and what the laws
//! say of all casts.

use crate::checks::Checks;
use crate::counted::{done, hold};
use crate::numbers::FLOATS;
use crate::samples::{BOOL, FIXED, LIST, NO_VALUES, NUMBERS, OCTETS, groups, hash_of, is_twin, of};
use crate::value_notation::{value, values};
use crate::values::{
    Done, KINDS, Value, WITH, WITHOUT, copied, has, is_made, is_of, is_same, is_within, number_of,
};
use std::alloc::{AllocError, Global};
use std::hash::{DefaultHasher, Hasher};
use vortex_dtype::{DType, PType};
use vortex_scalar::{NestedScalarViews, Scalar, ScalarError, ScalarValue, StructScalarExt, laws};

/// Types, values that they have, and values that they lack.
const VALUES: [(&str, &str, &str); 13] = [
    ("list(i16)", "[]; [1]", "[1, null]; [1i32]; [1, 'a']"),
    ("fixed(i16?, 2)", "[null, null]", "[]; [null]; [null, null, null]; [null, 'a']"),
    ("fixed(i16?, 0)", "[]", "[null]"),
    ("fixed(i16?, max)", "", "[]"),
    ("list(fixed(i16?, 2))", "[[null, 2]]", "[[2]]"),
    // That keys are sorted is the type's word, and no rule on values.
    (
        "sorted(utf8, i16?)",
        "[]; [['b', 1], ['a', null]]; [['a', 1], ['a', null]]",
        "[null]; ['a']; [[null, 1]]; [[1, 1]]; [['a', 'a']]; [['a']]; [['a', null, null]]",
    ),
    ("{a=i16, a=utf8?}", "[1, 'a']; [1, null]", "[null, null]; ['a', 1]; [1]; [1, null, null]"),
    ("{}", "[]", "[null]"),
    ("<a:1=i16, a:0=utf8?>", "<1:7>; <0:'a'>; <0:null>", "<0:7>; <1:null>; <2:7>"),
    ("<>?", "null", "<0:null>"),
    ("variant", "(i16)7; (variant)(null)null", "(i16)null; (utf8?)7; (variant)(null)7"),
    ("a''(b''(list(i16)?))", "[1]; null", "[null]"),
    ("a''(null)", "null", "7"),
];

pub fn validity(alloc: Global, checks: &mut Checks<'_>) -> Done {
    for nullability in [WITH, WITHOUT] {
        let all = groups(alloc, nullability)?;
        for (i, group) in all.iter().enumerate() {
            let dtype = group[0].dtype();
            for (j, other) in all.iter().enumerate() {
                for scalar in other {
                    judged(checks, dtype, copied(scalar.value())?, i == j)?;
                }
            }
            judged(checks, dtype, None, nullability == WITH)?;
        }
    }
    for text in NO_VALUES {
        let dtype = of(alloc, text)?;
        judged(checks, &dtype, None, true)?;
        for group in groups(alloc, WITH)? {
            judged(checks, &dtype, copied(group[0].value())?, false)?;
        }
    }
    for (text, there, not_there) in VALUES {
        let dtype = of(alloc, text)?;
        for value in values(alloc, there)? {
            judged(checks, &dtype, value, true)?;
        }
        for value in values(alloc, not_there)? {
            judged(checks, &dtype, value, false)?;
        }
    }
    Ok(())
}

/// The type has the value exactly where it is to, as all calls say, and then the scalar of it is
/// that value.
fn judged(checks: &mut Checks<'_>, dtype: &DType, value: Value, has: bool) -> Done {
    let twin = copied(value.as_ref())?;
    hold!(checks; is_made(Scalar::validate(dtype, value.as_ref()), has));
    hold!(checks; Scalar::is_compatible(dtype, value.as_ref()) == has);
    if !has {
        let answer = Scalar::try_new(dtype.clone()?, value);
        return checks.refused("try_new", answer, ScalarError::Invalid);
    }
    let unchecked = Scalar::new_unchecked(dtype.clone()?, copied(value.as_ref())?);
    let scalar = Scalar::try_new(dtype.clone()?, value)?;
    let wide = scalar.clone()?.into_nullable()?;
    hold!(checks; is_of(&unchecked, dtype, twin.as_ref()) && is_of(&scalar, dtype, twin.as_ref()));
    hold!(checks; scalar.is_null() == twin.is_none() && scalar.is_valid() == twin.is_some());
    hold!(checks; is_same(scalar.clone()?.into_value().as_ref(), twin.as_ref()));
    hold!(checks; is_of(&wide, &dtype.as_nullable()?, twin.as_ref()) && wide.dtype().is_nullable());
    hold!(checks; twin.is_some() || is_of(&Scalar::null(dtype.clone()?), dtype, None));
    let answer: Result<Scalar, AllocError> = scalar.clone();
    checks.stays("a scalar after a clone", is_of(&scalar, dtype, twin.as_ref()));
    let copy = answer?;
    let (found, value) = scalar.into_parts();
    hold!(checks; found == *dtype && is_same(value.as_ref(), twin.as_ref()));
    drop(value);
    done!(checks; is_of(&copy, dtype, twin.as_ref()))
}

/// Counts the cast of the value of the source to the target, which is to give this value, or none.
fn cast(
    alloc: Global,
    checks: &mut Checks<'_>,
    (source, target): (&DType, &DType),
    value: Value,
    wanted: Option<Value>,
) -> Done {
    let scalar = Scalar::try_new(source.clone()?, copied(value.as_ref())?)?;
    let mut answers = [Some(scalar.cast(alloc, target)), None];
    checks.stays("a value after a cast", is_of(&scalar, source, value.as_ref()));
    if let Some(view) = scalar.as_struct_opt() {
        answers[1] = Some(view.cast(alloc, target));
    }
    for answer in answers.into_iter().flatten() {
        match &wanted {
            Some(wanted) => hold!(checks; is_of(&answer?, target, wanted.as_ref())),
            None => checks.refused("a cast", answer, ScalarError::NotConvertible)?,
        }
    }
    Ok(())
}

/// Types to cast from and to, and what becomes of values, where `!` is a refusal.
const CASTS: [(&str, &str, &str); 34] = [
    ("list(i16?)", "list(i64)?", "[7, -7] = [7i64, -7i64]; [7, null] = !"),
    ("list(i16?)", "fixed(u8, 3)", "[0, 1, 255] = [0u8, 1u8, 255u8]; [0, 1, 256] = !; [0, 1] = !"),
    (
        "list(list(i16?)?)",
        "list(fixed(i64?, 2)?)",
        "[[1, null], null] = [[1i64, null], null]; [null, [null]] = !",
    ),
    ("list(i16?)", "fixed(i16?, 2)", "[null, 7] = [null, 7]"),
    ("fixed(i16?, 2)", "list(i16?)?", "[null, 7] = [null, 7]"),
    // In sequences of none the elements don't matter, and the kind does.
    ("list(i16)", "list(utf8)", "[1] = !; [] = []"),
    ("list(i16)", "fixed(utf8, 0)", "[] = []"),
    ("fixed(utf8, 0)", "list(i16)", "[] = []"),
    ("{}", "list(utf8)", "[] = !"),
    ("list(utf8)", "{}", "[] = !"),
    ("map(utf8, i16?)", "list(utf8)", "[] = !"),
    ("list(utf8)", "map(utf8, i16?)", "[] = !"),
    // Fields are paired by position.
    (
        "{a=i16?, b=utf8?}",
        "{b=u64, a=utf8?}?",
        "[7, 'a'] = [7u64, 'a']; [null, 'a'] = !; [-1, null] = !",
    ),
    ("{a=i16?, b=utf8?}", "{b=utf8?, a=i16?}", "[7, 'a'] = !; [null, null] = [null, null]"),
    ("{a=i16?, b=utf8?}", "{a=i16?}?", "[7, null] = !"),
    ("{a=i16?}?", "{a=i16?, b=utf8?}", "[7] = !; null = !"),
    (
        "{a=i16, b=utf8?, a=bool?}?",
        "{x=u8?, y=utf8, z=binary?}",
        "[7, 'é', null] = [7u8, 'é', null]",
    ),
    ("{a=i16, b=utf8?, a=bool?}?", "{a=i16?, b=bool?, a=bool?}?", "[7, 'é', null] = !"),
    ("{a=i16, b=utf8?, a=bool?}?", "{a=i16?, b=utf8?, a=bool}?", "[7, 'é', null] = !"),
    ("{a=i16, b=utf8?, a=bool?}?", "list(i16?)?", "[7, 'é', null] = !; null = null"),
    ("{a=i16, b=utf8?, a=bool?}?", "null", "[7, 'é', null] = !; null = null"),
    ("{a=i16}?", "i16?", "null = null"),
    // Maps and unions go to the same type, outer nullability aside.
    ("map(utf8, i16?)", "map(utf8, i64?)", "[['a', 7]] = !; [] = !"),
    ("map(utf8, i16?)", "map(utf8, i16)", "[['a', 7]] = !; [] = !"),
    ("map(utf8, i16?)", "sorted(utf8, i16?)", "[['a', 7]] = !; [] = !"),
    ("<a:5=i16?>", "<a:6=i16?>", "<5:7> = !"),
    ("<a:5=i16?>", "<a:5=i16>", "<5:7> = !"),
    ("<a:5=i16?>", "<a:5=i64?>", "<5:7> = !"),
    // So do extensions and variants, in lists and records too.
    ("date'd'(i16)", "date'd'(i16?)", "7 = 7"),
    ("date'd'(i16)", "date'd'(i64)", "7 = !"),
    ("date'd'(i16)", "i16?", "7 = !"),
    ("i16", "date'd'(i16?)", "7 = !"),
    ("list({a=variant})", "fixed({b=variant?}?, 1)", "[[(i16?)7]] = [[(i16?)7]]"),
    ("list(date'd'(list(i16)))", "list(date'd'(list(i16?)))", "[[7]] = !; [] = []"),
];

pub fn casts(alloc: Global, checks: &mut Checks<'_>) -> Done {
    for (source, target, rows) in CASTS {
        let (source, target) = (of(alloc, source)?, of(alloc, target)?);
        for row in rows.split("; ") {
            let (given, wanted) = row.split_once(" = ").ok_or(ScalarError::Invalid)?;
            let wanted = if wanted == "!" { None } else { Some(value(alloc, wanted)?) };
            cast(alloc, checks, (&source, &target), value(alloc, given)?, wanted)?;
        }
    }
    each_number(alloc, checks)?;
    each_kind(alloc, checks)
}

/// The ends of all kinds and what lies beyond them, from each kind that has them to each kind, and
/// to floats.
fn each_number(alloc: Global, checks: &mut Checks<'_>) -> Done {
    for (source, _, _) in KINDS {
        let from = DType::Primitive(source, WITH);
        for (_, least, most) in KINDS {
            for given in [least, least - 1, most, most + 1] {
                if !is_within(source, given) {
                    continue;
                }
                for target in KINDS.iter().map(|it| it.0).chain(FLOATS) {
                    let to = DType::Primitive(target, WITHOUT);
                    let value = |ptype| Some(ScalarValue::Primitive(number_of(ptype, given)));
                    let fits = is_within(target, given);
                    let wanted = if fits { Some(value(target)) } else { None };
                    cast(alloc, checks, (&from, &to), value(source), wanted)?;
                }
            }
        }
    }
    Ok(())
}

/// Each value goes to its own type, and to no kind but those of integers and of lists. Null goes to
/// nullable types, and to no other.
fn each_kind(alloc: Global, checks: &mut Checks<'_>) -> Done {
    let sources = groups(alloc, WITH)?;
    for nullability in [WITH, WITHOUT] {
        let targets = groups(alloc, nullability)?;
        for (i, source) in sources.iter().enumerate() {
            for (j, target) in targets.iter().enumerate() {
                let types = (source[0].dtype(), target[0].dtype());
                let wanted = if nullability == WITH { Some(None) } else { None };
                cast(alloc, checks, types, None, wanted)?;
                let of_both = |one, other| [one, other].contains(&i) && [one, other].contains(&j);
                if i != j && (of_both(NUMBERS, OCTETS) || of_both(LIST, FIXED)) {
                    continue;
                }
                for scalar in source {
                    let (given, kept) = (copied(scalar.value())?, copied(scalar.value())?);
                    cast(alloc, checks, types, given, if i == j { Some(kept) } else { None })?;
                }
            }
            for text in NO_VALUES {
                let target = of(alloc, text)?;
                let types = (source[0].dtype(), &target);
                cast(alloc, checks, types, None, Some(None))?;
                cast(alloc, checks, types, copied(source[0].value())?, None)?;
            }
        }
    }
    let null = of(alloc, "null")?;
    cast(alloc, checks, (&null, sources[BOOL][0].dtype()), None, Some(None))
}

/// What the laws say of all casts, on values of all kinds, by the functions of the laws.
pub fn laws_of_casts(alloc: Global, checks: &mut Checks<'_>) -> Done {
    // The types of the samples, with null and without, and other integer types.
    let mut targets = Vec::new(alloc);
    for nullability in [WITH, WITHOUT] {
        for group in groups(alloc, nullability)? {
            targets.push(group[0].dtype().clone()?)?;
        }
    }
    for ptype in [PType::U16, PType::U64, PType::I8, PType::I64] {
        targets.push(DType::Primitive(ptype, WITHOUT))?;
    }
    for nullability in [WITH, WITHOUT] {
        for group in groups(alloc, nullability)? {
            for one in &group {
                nullable_and_back(alloc, checks, one)?;
                for target in &targets {
                    there_and_back(alloc, checks, one, target)?;
                    for other in &group {
                        casts_of_both(alloc, checks, one, other, target)?;
                    }
                }
            }
        }
    }
    by_way_of(alloc, checks, &targets)
}

/// What was made, and `None` where a target can't hold a value.
fn made<T: Drop>(answer: Result<T, ScalarError>) -> Result<Option<T>, ScalarError> {
    match answer {
        Ok(made) => Ok(Some(made)),
        Err(ScalarError::NotConvertible) => Ok(None),
        Err(error) => Err(error),
    }
}

/// `into_nullable` cast back gives the value again.
fn nullable_and_back(alloc: Global, checks: &mut Checks<'_>, scalar: &Scalar) -> Done {
    let (wide, back) = laws::nullable_and_back(alloc, scalar)?;
    done!(checks;
        wide == *scalar && wide.dtype().is_nullable() && hash_of(&wide) == hash_of(scalar),
        is_twin(&back, scalar),
    )
}

/// A cast there and back gives the value again.
fn there_and_back(alloc: Global, checks: &mut Checks<'_>, scalar: &Scalar, target: &DType) -> Done {
    let is_possible = made(scalar.cast(alloc, target))?.is_some();
    let found = made(laws::there_and_back(alloc, scalar, target))?;
    hold!(checks; found.is_some() == is_possible);
    if let Some((there, back)) = found {
        hold!(checks; *there.dtype() == *target && has(target, there.value()));
        hold!(checks; there.is_null() == scalar.is_null() && is_twin(&back, scalar));
    }
    Ok(())
}

/// Casts to one type keep order, equality and equal hashes.
fn casts_of_both(
    alloc: Global,
    checks: &mut Checks<'_>,
    one: &Scalar,
    other: &Scalar,
    target: &DType,
) -> Done {
    let found = made(laws::casts_of_both(alloc, one, other, target))?;
    let Some((of_one, of_other, before, after)) = found else {
        return Ok(());
    };
    let (mut left, mut right) = (DefaultHasher::new(), DefaultHasher::new());
    let is_equal = laws::equality_and_hashes(&of_one, &of_other, &mut left, &mut right);
    hold!(checks; before == after && before == laws::order_and_equality(one, other));
    hold!(checks; before == (one.partial_cmp(other), one == other) && is_equal == (one == other));
    done!(checks; (left.finish() == right.finish()) == is_equal)
}

/// Values that go to a type in two steps go in one, to the same value.
fn by_way_of(alloc: Global, checks: &mut Checks<'_>, targets: &[DType]) -> Done {
    for group in groups(alloc, WITHOUT)? {
        let scalar = &group[1];
        for middle in targets {
            if made(scalar.cast(alloc, middle))?.is_none() {
                continue;
            }
            for target in targets {
                let found = made(laws::by_way_of(alloc, scalar, middle, target))?;
                if let Some((first, second, at_once)) = found {
                    hold!(checks; *first.dtype() == *middle && *second.dtype() == *target);
                    hold!(checks; is_twin(&second, &at_once));
                }
            }
        }
    }
    Ok(())
}
