//! `PValue`, `CoercePValue`, `match_each_pvalue!`, the views of numbers and their arithmetic, and
//! native numbers by all calls that read one, against whole numbers of 128 bits.

use crate::checks::Checks;
use crate::counted::{done, hold};
use crate::samples::{groups, hash_of, of};
use crate::values::{Done, KINDS, WITH, WITHOUT, is_made, is_of, is_within, number_of};
use std::alloc::Global;
use std::cmp::Ordering;
use vortex_dtype::{DType, NativePType, Nullability, PType, match_each_integer_ptype};
use vortex_scalar::{
    CoercePValue, FromScalar, NumericOperator, PValue, PrimitiveScalar, Scalar, ScalarError,
    ScalarValue, ScalarViews, match_each_pvalue,
};

pub const FLOATS: [PType; 3] = [PType::F16, PType::F32, PType::F64];

/// A number as one native type, or the refusal.
type Read = Result<i128, ScalarError>;

pub fn run(alloc: Global, checks: &mut Checks<'_>) -> Done {
    each_kind(checks);
    for kind in KINDS {
        let (ptype, least, most) = kind;
        for number in [least, least + 1, -1, 0, 1, 100, most / 2, most / 2 + 1, most - 1, most] {
            if least <= number {
                seen(alloc, checks, ptype, Some(number))?;
                converted(checks, kind, number)?;
                each_other(checks, number_of(ptype, number), number);
            }
        }
        seen(alloc, checks, ptype, None)?;
        calculated(checks, kind)?;
    }
    of_no_integers(alloc, checks)?;
    of_machine(alloc, checks)
}

fn each_kind(checks: &mut Checks<'_>) {
    for (ptype, least, most) in KINDS {
        let (low, high) = (PValue::min_value(ptype), PValue::max_value(ptype));
        let zero = PValue::zero(ptype);
        let found = match_each_pvalue!(number_of(ptype, least), told(1_000));
        hold!(checks; low.get() == least && low.ptype() == ptype && high.get() == most);
        hold!(checks; high.ptype() == ptype && zero.get() == 0 && zero.ptype() == ptype);
        hold!(checks; zero.is_zero() && !high.is_zero() && found == least + 2_000);
        for number in [least - 1, most + 1, i128::MIN, i128::MAX] {
            hold!(checks; PValue::of(ptype, number).is_none());
        }
        for (other, _, _) in KINDS {
            hold!(checks; high.is_instance_of(&other) == (other == ptype));
            hold!(checks; low.is_of(other) == (other == ptype));
        }
    }
    for ptype in FLOATS {
        let zero = PValue::I8(0);
        hold!(checks; PValue::of(ptype, 0).is_none() && zero.cast_to(ptype).is_none());
        hold!(checks; !zero.is_instance_of(&ptype) && !zero.is_of(ptype));
    }
}

/// The number and twice another, by the type of the macro's first argument.
fn told<T: NativePType>(native: T, other: i128) -> i128 {
    native.get() + 2 * other
}

fn of_pvalue<T: NativePType + CoercePValue + TryFrom<PValue, Error = ScalarError>>(
    value: PValue,
) -> [Read; 3] {
    let tried: Result<T, ScalarError> = T::try_from(value);
    [
        value.cast::<T>().map(|it| it.get()),
        T::coerce(value).map(|it| it.get()),
        tried.map(|it| it.get()),
    ]
}

fn of_value<'a, T: NativePType + TryFrom<&'a ScalarValue, Error = ScalarError>>(
    value: &'a ScalarValue,
) -> [Read; 2] {
    let tried: Result<T, ScalarError> = T::try_from(value);
    [value.to_native::<T>().map(|it| it.get()), tried.map(|it| it.get())]
}

fn of_scalar<T: NativePType + FromScalar>(alloc: Global, scalar: &Scalar) -> Read {
    T::from_scalar(alloc, scalar).map(|it| it.get())
}

/// The number or null of the view as one of `T`, by the calls for the same kind and for all.
fn of_view<T: NativePType>(checks: &mut Checks<'_>, view: &PrimitiveScalar<'_>, is: Option<i128>) {
    let is_kind = view.ptype() == T::ptype();
    let fits = is.is_none_or(|number| is_within(T::ptype(), number));
    let is_so = match view.try_typed_value::<T>() {
        Ok(found) => is_kind && found.map(|it| it.get()) == is,
        Err(error) => !is_kind && error == ScalarError::Invalid,
    };
    hold!(checks;
        is_so, !is_kind || view.typed_value::<T>().map(|it| it.get()) == is,
        view.as_opt::<T>().map(|it| it.map(|it| it.get())) == if fits { Some(is) } else { None },
        !fits || view.as_::<T>().map(|it| it.get()) == is,
    );
}

/// Each native type, and the scalar as one of it, and as one of it or null.
macro_rules! natives {
    ($scalar:expr; $($native:ident),+) => {
        [$((
            $native::ptype(),
            $native::try_from($scalar).map(|it| it.get()),
            Option::<$native>::try_from($scalar).map(|it| it.map(|it| it.get())),
        )),+]
    };
}

/// The scalar as native numbers: `Some(None)` stands for null of a type of numbers, and `None` for
/// what is of another type.
pub fn native(checks: &mut Checks<'_>, scalar: &Scalar, number: Option<Option<i128>>) {
    let sized = (
        PType::U64,
        usize::try_from(scalar).map(|it| it as i128),
        Option::<usize>::try_from(scalar).map(|found| found.map(|it| it as i128)),
    );
    let others = natives!(scalar; u8, u16, u32, u64, i8, i16, i32, i64);
    for (ptype, one, option) in others.into_iter().chain([sized]) {
        let wanted = match number {
            Some(Some(number)) if !is_within(ptype, number) => Err(ScalarError::Invalid),
            Some(found) => Ok(found),
            None => Err(ScalarError::Invalid),
        };
        let is_one = match wanted {
            Ok(Some(number)) => one == Ok(number),
            _ => one == Err(ScalarError::Invalid),
        };
        hold!(checks; is_one, option == wanted);
    }
}

/// The view of the number or null, and what it is as each native type.
fn seen(alloc: Global, checks: &mut Checks<'_>, ptype: PType, number: Option<i128>) -> Done {
    let dtype = DType::Primitive(ptype, WITH);
    let value = number.map(|number| ScalarValue::Primitive(number_of(ptype, number)));
    let scalar = Scalar::try_new(dtype.clone()?, value)?;
    let view = PrimitiveScalar::try_new(&dtype, scalar.value())?;
    hold!(checks; *view.dtype() == dtype && view.ptype() == ptype);
    hold!(checks; view.is_null() == number.is_none(), view.pvalue().map(|it| it.get()) == number);
    hold!(checks; view.value().map(|it| it.get()) == number);
    hold!(checks; view.pvalue().is_none_or(|it| it.ptype() == ptype));
    hold!(checks; view.is_zero() == number.map(|number| number == 0));
    native(checks, &scalar, Some(number));
    for (target, _, _) in KINDS {
        match_each_integer_ptype!(target, of_view(checks, &view, number));
        let other = DType::Primitive(target, WITH);
        let has = number.is_none() || target == ptype;
        hold!(checks; is_made(PrimitiveScalar::try_new(&other, scalar.value()), has));
        let Some(number) = number else {
            continue;
        };
        let wanted = if is_within(target, number) { Ok(number) } else { Err(ScalarError::Invalid) };
        let (value, raw) =
            (number_of(ptype, number), ScalarValue::Primitive(number_of(ptype, number)));
        let made = value.cast_to(target);
        hold!(checks; made.map(|it| it.get()) == wanted.ok());
        hold!(checks; made.is_none_or(|it| it.ptype() == target));
        hold!(checks; match_each_integer_ptype!(target, of_pvalue(value)) == [wanted; 3]);
        hold!(checks; match_each_integer_ptype!(target, of_value(&raw)) == [wanted; 2]);
        hold!(checks; match_each_integer_ptype!(target, of_scalar(alloc, &scalar)) == wanted);
    }
    if let Some(number) = number {
        let found = usize::from_scalar(alloc, &scalar).map(|it| it as i128);
        let wanted = if number < 0 { Err(ScalarError::Invalid) } else { Ok(number) };
        hold!(checks; found == wanted);
    }
    Ok(())
}

/// The number from the least to the most that has the same bits.
fn with_sign(number: i128, (_, least, most): (PType, i128, i128)) -> i128 {
    let all = most - least + 1;
    if number < least {
        number + all
    } else if number > most {
        number - all
    } else {
        number
    }
}

/// Bytes by division, the least first, and the kinds that are as wide.
fn converted(checks: &mut Checks<'_>, kind: (PType, i128, i128), number: i128) -> Done {
    let (ptype, value) = (kind.0, number_of(kind.0, number));
    let (bytes, width) = value.to_le_bytes();
    let mut rest = with_sign(number, (ptype, 0, (1 << (8 * width)) - 1));
    for byte in &bytes[..width] {
        hold!(checks; i128::from(*byte) == rest % 256);
        rest /= 256;
    }
    hold!(checks; width == ptype.byte_width());
    for target in KINDS {
        reinterpreted(checks, ptype, target, None, WITH)?;
        reinterpreted(checks, ptype, target, Some(number), WITHOUT)?;
        if number == kind.2 {
            reinterpreted(checks, ptype, target, Some(number), WITH)?;
        }
        if target.0.byte_width() == width {
            let made = value.reinterpret_cast(target.0);
            hold!(checks; made.get() == with_sign(number, target) && made.ptype() == target.0);
            hold!(checks; made.reinterpret_cast(ptype).get() == number);
        }
    }
    Ok(())
}

/// The scalar as the target reads its bytes, and back.
fn reinterpreted(
    checks: &mut Checks<'_>,
    ptype: PType,
    target: (PType, i128, i128),
    number: Option<i128>,
    nullability: Nullability,
) -> Done {
    let raw = |ptype, number| ScalarValue::Primitive(number_of(ptype, number));
    let dtype = DType::Primitive(ptype, nullability);
    let scalar = Scalar::try_new(dtype.clone()?, number.map(|it| raw(ptype, it)))?;
    let answer = scalar.clone()?.primitive_reinterpret_cast(target.0);
    if target.0.byte_width() != ptype.byte_width() {
        hold!(checks; is_made(answer, false));
        return Ok(());
    }
    let (made, to) = (answer?, DType::Primitive(target.0, nullability));
    let wanted = number.map(|it| raw(target.0, with_sign(it, target)));
    hold!(checks; is_of(&made, &to, wanted.as_ref()));
    let back = made.primitive_reinterpret_cast(ptype)?;
    done!(checks; is_of(&back, &dtype, scalar.value()))
}

/// Order, equality and hashes against numbers of all kinds.
fn each_other(checks: &mut Checks<'_>, value: PValue, number: i128) {
    for (ptype, least, most) in KINDS {
        for other in [least, 1, most] {
            let (found, wanted) = (number_of(ptype, other), number.cmp(&other));
            let is_equal = wanted == Ordering::Equal;
            hold!(checks; value.compare(found) == wanted && value.cmp(&found) == wanted);
            hold!(checks; value.partial_cmp(&found) == Some(wanted));
            hold!(checks; (value == found) == is_equal);
            hold!(checks; !is_equal || hash_of(&value) == hash_of(&found));
        }
    }
}

/// Nulls of floats, and types but those of integers.
fn of_no_integers(alloc: Global, checks: &mut Checks<'_>) -> Done {
    for (float, ptype) in
        [(PType::F16, PType::I16), (PType::F32, PType::U32), (PType::F64, PType::I64)]
    {
        let null = |ptype| Scalar::null(DType::Primitive(ptype, WITH));
        let scalar = null(float);
        hold!(checks; scalar.as_primitive().ptype() == float);
        hold!(checks; is_made(null(float).primitive_reinterpret_cast(ptype), false));
        hold!(checks; is_made(null(ptype).primitive_reinterpret_cast(float), false));
        hold!(checks; i32::is_read_from(scalar.dtype()) && !i32::is_read_from(&of(alloc, "bool")?));
        of_view::<i32>(checks, &scalar.as_primitive(), None);
        native(checks, &scalar, Some(None));
    }
    for group in groups(alloc, WITH)? {
        let null = Scalar::null(group[0].dtype().clone()?);
        for scalar in group.iter().chain(&[null]) {
            let number = scalar.value().and_then(|it| it.as_primitive()).map(|it| it.get());
            let is_number = scalar.dtype().is_int();
            native(checks, scalar, if is_number { Some(number) } else { None });
            for ptype in [PType::U8, PType::I32] {
                let answer = scalar.clone()?.primitive_reinterpret_cast(ptype);
                hold!(checks; is_number || is_made(answer, false));
            }
        }
    }
    Ok(())
}

fn of_machine(alloc: Global, checks: &mut Checks<'_>) -> Done {
    for (found, ptype, number) in [
        (PValue::from(255u8), PType::U8, 255),
        (PValue::from(255u16), PType::U16, 255),
        (PValue::from(255u32), PType::U32, 255),
        (PValue::from(u64::MAX), PType::U64, i128::from(u64::MAX)),
        (PValue::from(-1i8), PType::I8, -1),
        (PValue::from(-1i16), PType::I16, -1),
        (PValue::from(-1i32), PType::I32, -1),
        (PValue::from(i64::MIN), PType::I64, i128::from(i64::MIN)),
        (PValue::from(usize::MAX), PType::U64, i128::from(u64::MAX)),
        (PValue::of_native(7u8), PType::U8, 7),
        (PValue::of_native(-7i64), PType::I64, -7),
    ] {
        hold!(checks; found.ptype() == ptype && found.get() == number);
    }
    let (value, most) = (PValue::I8(-5), ScalarValue::from(u64::MAX));
    let copied = value.clone()?;
    hold!(checks; usize::try_from(PValue::U64(u64::MAX))? == usize::MAX);
    hold!(checks; usize::try_from(&most)? == usize::MAX);
    hold!(checks; format!(in alloc; "{value:?}")?.as_str() == "I8(-5)");
    hold!(checks; copied.get() == -5 && copied.ptype() == PType::I8);
    let below = usize::try_from(PValue::I8(-1));
    checks.refused("try_from below usize", below, ScalarError::Invalid)?;
    let below = usize::try_from(&ScalarValue::from(-1i8));
    checks.refused("try_from below usize", below, ScalarError::Invalid)
}

const OPERATORS: [NumericOperator; 4] =
    [NumericOperator::Add, NumericOperator::Sub, NumericOperator::Mul, NumericOperator::Div];

/// A number or null, and the nullability of its type.
type Side = (Option<i128>, Nullability);

fn calculated(checks: &mut Checks<'_>, (ptype, least, most): (PType, i128, i128)) -> Done {
    for first in [least, least + 1, -7, -1, 0, 1, 2, most / 2, most - 1, most] {
        for second in [least, -2, -1, 0, 1, 2, 7, most] {
            if first >= least && second >= least {
                each_operator(checks, ptype, (Some(first), WITHOUT), (Some(second), WITHOUT))?;
            }
        }
    }
    for (one, other) in [(WITH, WITH), (WITH, WITHOUT), (WITHOUT, WITH)] {
        each_operator(checks, ptype, (Some(7), one), (Some(2), other))?;
        each_operator(checks, ptype, (Some(7), one), (Some(0), other))?;
    }
    // Null goes before a divisor of zero.
    for nullability in [WITH, WITHOUT] {
        each_operator(checks, ptype, (None, WITH), (Some(0), nullability))?;
        each_operator(checks, ptype, (Some(0), nullability), (None, WITH))?;
    }
    each_operator(checks, ptype, (None, WITH), (None, WITH))
}

/// What the operator makes of the numbers, where there is such a number.
fn whole(operator: NumericOperator, first: i128, second: i128) -> Option<i128> {
    match operator {
        NumericOperator::Add => Some(first + second),
        NumericOperator::Sub => Some(first - second),
        // A product past 128 bits is past 64 of them.
        NumericOperator::Mul => first.checked_mul(second),
        NumericOperator::Div if second == 0 => None,
        NumericOperator::Div => {
            let quotient = (first.unsigned_abs() / second.unsigned_abs()) as i128;
            Some(if (first < 0) == (second < 0) { quotient } else { -quotient })
        }
    }
}

/// What the operators make of the two: none, or a number or null.
fn each_operator(checks: &mut Checks<'_>, ptype: PType, first: Side, second: Side) -> Done {
    let (a, b) = (DType::Primitive(ptype, first.1), DType::Primitive(ptype, second.1));
    let one = first.0.map(|number| ScalarValue::Primitive(number_of(ptype, number)));
    let other = second.0.map(|number| ScalarValue::Primitive(number_of(ptype, number)));
    let dtype = DType::Primitive(ptype, if first.1 == WITH { WITH } else { second.1 });
    let mine = || PrimitiveScalar::try_new(&a, one.as_ref());
    let theirs = || PrimitiveScalar::try_new(&b, other.as_ref());
    for operator in OPERATORS {
        let wanted = match (first.0, second.0) {
            (Some(first), Some(second)) => {
                whole(operator, first, second).filter(|it| is_within(ptype, *it)).map(|it| Some(it))
            }
            _ => Some(None),
        };
        let made = mine()?.checked_binary_numeric(&theirs()?, operator);
        hold!(checks; is_number(made, &dtype, wanted));
        if operator == NumericOperator::Add {
            hold!(checks; is_number(mine()?.checked_add(&theirs()?), &dtype, wanted));
            let made = if wanted.is_some() { Some(mine()? + theirs()?) } else { None };
            hold!(checks; is_number(made, &dtype, wanted));
        }
        if operator == NumericOperator::Sub {
            hold!(checks; is_number(mine()?.checked_sub(&theirs()?), &dtype, wanted));
            let made = if wanted.is_some() { Some(mine()? - theirs()?) } else { None };
            hold!(checks; is_number(made, &dtype, wanted));
        }
    }
    Ok(())
}

/// Whether the answer is this number or null of the type.
fn is_number(made: Option<PrimitiveScalar<'_>>, dtype: &DType, is: Option<Option<i128>>) -> bool {
    match made {
        Some(made) => {
            let found = made.pvalue();
            *made.dtype() == *dtype
                && Some(found.map(|it| it.get())) == is
                && found.is_none_or(|it| Some(it.ptype()) == dtype.as_ptype_opt())
        }
        None => is.is_none(),
    }
}
