//! Values of placeholders, by what a set of statistics knows, and statistics of dictionaries and of
//! constants.

use crate::checks::Checks;
use crate::make_arrays::{Done, answered, array_of, plain, valid_where};
use crate::trees::{WITH, WITHOUT, floats, integers};
use crate::values::{is_of, text};
use std::alloc::Global;
use vortex_arrays::{ArrayRef, DictArray};
use vortex_dtype::{DType, DTypeError, PType};
use vortex_scalar::{PValue, Scalar, ScalarValue};
use vortex_stats::{
    AggregateFn, ArrayStats, Precision, Stat, StatsError, StatsSet, array_stats, stat_scalar,
};
use vortex_stats::Precision::{Absent, Exact, Inexact};

/// What is known of a count, and its value: one that is inexact tells only that it is 0.
const COUNTS: [(Precision<u64>, Option<u64>); 6] = [
    (Exact(3), Some(3)),
    (Exact(0), Some(0)),
    (Inexact(3), None),
    (Inexact(1), None),
    (Inexact(0), Some(0)),
    (Absent, None),
];

/// Statistics that are known inexactly, and are told all the same.
const INEXACT: [(Stat, AggregateFn, PValue); 3] = [
    (Stat::Max, AggregateFn::Max, PValue::I32(7)),
    (Stat::Sum, AggregateFn::Sum, PValue::I64(9)),
    (Stat::UncompressedSizeInBytes, AggregateFn::UncompressedSizeInBytes, PValue::U64(12)),
];

fn count(count: u64) -> ScalarValue {
    ScalarValue::Primitive(PValue::U64(count))
}

pub fn placeholders(alloc: Global, checks: &mut Checks<'_>) -> Result<(), StatsError> {
    for (i, (known, wanted)) in COUNTS.into_iter().enumerate() {
        let (wanted, dtype) = (wanted.map(count), DType::Primitive(PType::U64, WITH));
        let set = StatsSet::of(alloc, Stat::NullCount, known.map(count));
        let value = stat_scalar(alloc, AggregateFn::NullCount, &set, &integers(), 3)?;
        checks.holds_at("a count of nulls", i, is_of(&value, &dtype, wanted.as_ref()));
        let set = StatsSet::of(alloc, Stat::NaNCount, known.map(count));
        let value = stat_scalar(alloc, AggregateFn::NanCount, &set, &floats(WITH), 3)?;
        checks.holds_at("a count of NaN", i, is_of(&value, &dtype, wanted.as_ref()));
    }
    let mut set = StatsSet::empty(alloc);
    for (stat, _, number) in INEXACT {
        set.set(stat, Inexact(ScalarValue::Primitive(number)))?;
    }
    for (i, (_, aggregate, number)) in INEXACT.into_iter().enumerate() {
        let value = stat_scalar(alloc, aggregate, &set, &integers(), 3)?;
        let (dtype, wanted) = (number.ptype(), ScalarValue::Primitive(number));
        let holds = is_of(&value, &DType::Primitive(dtype, WITH), Some(&wanted));
        checks.holds_at("an inexact statistic", i, holds);
    }
    let value = stat_scalar(alloc, AggregateFn::Min, &set, &integers(), 3)?;
    checks.holds("an absent one", value.is_null());
    // The record of both bounds has no statistic behind it.
    let value = stat_scalar(alloc, AggregateFn::MinMax, &set, &integers(), 3)?;
    checks.holds("both bounds", value.is_null() && value.dtype().is_struct());
    refusals(alloc, checks)
}

/// A type that the function doesn't take goes before a value that the type doesn't have.
fn refusals(alloc: Global, checks: &mut Checks<'_>) -> Result<(), StatsError> {
    let mut set = StatsSet::empty(alloc);
    for stat in [Stat::Max, Stat::Sum, Stat::NullCount] {
        set.set(stat, text("x").map_or(Absent, Exact))?;
    }
    for (aggregate, dtype, wanted) in [
        (AggregateFn::Sum, DType::Utf8(WITHOUT), StatsError::UnsupportedAggregate),
        (AggregateFn::AllNan, DType::Utf8(WITHOUT), StatsError::UnsupportedAggregate),
        (AggregateFn::NanCount, integers(), StatsError::UnsupportedAggregate),
        (AggregateFn::Max, DType::Null, StatsError::UnsupportedAggregate),
        (AggregateFn::Max, integers(), StatsError::InvalidStat),
        (AggregateFn::Sum, integers(), StatsError::InvalidStat),
        (AggregateFn::AllNull, integers(), StatsError::InvalidStat),
    ] {
        let found = stat_scalar(alloc, aggregate, &set, &dtype, 3);
        checks.refused("a refused placeholder", found, wanted)?;
    }
    Ok(())
}

/// Bounds, how many rows are null, the sum, and whether the rows are constant.
type Wanted = (Option<(i64, i64)>, usize, Option<i64>, bool);

pub fn dictionaries(alloc: Global, checks: &mut Checks<'_>) -> Done {
    by_codes(alloc, checks)?;
    nulls(alloc, checks)?;
    nested(alloc, checks)?;
    constants(alloc, checks)
}

fn is_bound(bound: &Precision<ScalarValue>, wanted: Option<i64>) -> bool {
    match (bound, wanted) {
        (Exact(ScalarValue::Primitive(PValue::I64(number))), Some(wanted)) => *number == wanted,
        (Absent, None) => true,
        _ => false,
    }
}

fn are_wanted(stats: &ArrayStats, row_count: usize, wanted: Wanted) -> bool {
    let (bounds, null_count, sum, is_constant) = wanted;
    is_bound(&stats.min, bounds.map(|(low, _)| low))
        && is_bound(&stats.max, bounds.map(|(_, high)| high))
        && stats.null_count == null_count
        && stats.row_count == row_count
        && stats.sum.map(|it| (it.ptype(), it.get())) == sum.map(|it| (PType::I64, it as i128))
        && stats.is_constant == Some(is_constant)
}

fn check(
    alloc: Global,
    checks: &mut Checks<'_>,
    name: &str,
    array: &ArrayRef,
    wanted: Wanted,
) -> Done {
    let right = match array_stats(alloc, array, 16)? {
        Some(stats) => {
            let copy = stats.clone()?;
            are_wanted(&stats, array.len(), wanted) && are_wanted(&copy, array.len(), wanted)
        }
        None => false,
    };
    checks.holds(name, right);
    Ok(())
}

fn dictionary(alloc: Global, codes: ArrayRef, values: ArrayRef) -> Result<ArrayRef, DTypeError> {
    Ok(answered(DictArray::try_new(alloc, codes, values))?.into_array())
}

/// Only values that a code references count, and equal ones as one. The sum is judged at the end:
/// what passes the range in between may come back.
fn by_codes(alloc: Global, checks: &mut Checks<'_>) -> Done {
    let (low, high) = (i64::MIN, i64::MAX);
    let rows: [(&str, &[u8], &[i64], Wanted); 6] = [
        ("unreferenced", &[1, 2, 1, 2], &[-9, 5, 7, 99], (Some((5, 7)), 0, Some(24), false)),
        ("more values than rows", &[2], &[-9, 5, 7, 99], (Some((7, 7)), 0, Some(7), true)),
        ("no rows", &[], &[], (None, 0, Some(0), true)),
        ("equal values", &[0, 2, 0, 2], &[5, 6, 5], (Some((5, 5)), 0, Some(20), true)),
        ("a sum in range", &[1, 1, 0, 0], &[low, high], (Some((low, high)), 0, Some(-2), false)),
        ("a sum out of range", &[1, 1], &[low, high], (Some((high, high)), 0, None, true)),
    ];
    for (name, codes, values, wanted) in rows {
        let array = dictionary(alloc, plain(alloc, codes)?, plain(alloc, values)?)?;
        check(alloc, checks, name, &array, wanted)?;
    }
    Ok(())
}

/// A null code and the code of a null value are null rows.
fn nulls(alloc: Global, checks: &mut Checks<'_>) -> Done {
    let valid = valid_where(alloc, &[true, false, true, true, true])?;
    let codes = array_of(alloc, &[0u16, 200, 1, 1, 0], valid)?;
    let valid = valid_where(alloc, &[true, false])?;
    let values = array_of(alloc, &[5i64, 1000], valid)?;
    let array = dictionary(alloc, codes, values)?;
    check(alloc, checks, "null codes and values", &array, (Some((5, 5)), 3, Some(10), false))
}

/// The values are a dictionary, and the codes a constant.
fn nested(alloc: Global, checks: &mut Checks<'_>) -> Done {
    let values = dictionary(alloc, plain(alloc, &[1u8, 0])?, plain(alloc, &[7i64, 5])?)?;
    let array = dictionary(alloc, plain(alloc, &[0u8, 1, 1])?, values)?;
    check(alloc, checks, "dictionary values", &array, (Some((5, 7)), 0, Some(19), false))?;
    let codes = ArrayRef::of_constant(alloc, Scalar::from(Some(1u8)), 3)?;
    let array = dictionary(alloc, codes, plain(alloc, &[5i64, 7])?)?;
    check(alloc, checks, "constant codes", &array, (Some((7, 7)), 0, Some(21), true))
}

fn constants(alloc: Global, checks: &mut Checks<'_>) -> Done {
    let half = 1i64 << 62;
    let rows: [(&str, Option<i64>, usize, Wanted); 3] = [
        ("a constant, its sum out of range", Some(half), 3, (Some((half, half)), 0, None, true)),
        ("many rows", Some(-7), 1 << 40, (Some((-7, -7)), 0, Some(-7_696_581_394_432), true)),
        ("a constant of null", None, 5, (None, 5, Some(0), true)),
    ];
    for (name, value, len, wanted) in rows {
        let array = ArrayRef::of_constant(alloc, Scalar::from(value), len)?;
        check(alloc, checks, name, &array, wanted)?;
    }
    Ok(())
}
