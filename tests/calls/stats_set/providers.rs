//! Statistics read with their types, as bounds and as native values; the function of placeholders;
//! and laws as functions that make the calls.

use crate::Done;
use crate::checks::Checks;
use crate::sets::{has, set_of};
use crate::trees::integers;
use crate::values::is_of;
use crate::words::dtype;
use std::alloc::Global;
use vortex_dtype::DType;
use vortex_scalar::{PValue, Scalar, ScalarValue};
use vortex_stats::{
    AggregateFn, IsConstant, IsSorted, IsStrictSorted, LowerBound, Max, Min, NaNCount, NullCount,
    Precision, Stat, StatBound, StatFn, StatOptions, StatType, StatsError, StatsProvider,
    StatsProviderExt, StatsSetExt, Sum, UncompressedSizeInBytes,
};
use vortex_stats::Precision::{Absent, Exact, Inexact};
use vortex_stats::laws::{
    combine_of_same_rows, merge_rows_in_any_order, merge_rows_in_order, unite_lower_both_ways,
    unite_three_lower, unite_three_upper, unite_upper_both_ways,
};

/// The greatest is 1, the least at least -4, and two rows are null.
const KNOWN: &str = "max 1 min ~-4 nulls 2 sum ?";

pub fn provided(alloc: Global, checks: &mut Checks<'_>) -> Done {
    of_sets(alloc, checks)?;
    of_columns(alloc, checks)?;
    as_bounds(alloc, checks)?;
    markers(alloc, checks)
}

/// Whether the number is known exactly, as one of this type.
fn is_number(known: Precision<Scalar>, dtype: &DType, number: PValue) -> bool {
    let number = ScalarValue::Primitive(number);
    known.as_exact().is_some_and(|found| is_of(&found, dtype, Some(&number)))
}

fn of_sets(alloc: Global, checks: &mut Checks<'_>) -> Done {
    let (texts, long, total) = (dtype("utf8"), dtype("i64?"), set_of(alloc, "sum 7")?);
    let (set, dtype) = (set_of(alloc, KNOWN)?, integers());
    let is_most = set.get_as::<i32>(alloc, Stat::Max, &dtype)? == Exact(1)
        && set.get_as::<i64>(alloc, Stat::Max, &dtype)? == Exact(1);
    checks.holds("get_as of an exact one", is_most);
    let is_least = set.get_as::<i8>(alloc, Stat::Min, &dtype)? == Inexact(-4);
    checks.holds("get_as of an inexact one", is_least);
    let is_none = set.get_as::<bool>(alloc, Stat::IsSorted, &dtype)? == Absent
        && set.get_as::<i64>(alloc, Stat::Sum, &dtype)? == Absent;
    checks.holds("get_as of none", is_none);
    checks.holds("of a sum", total.get_as::<i64>(alloc, Stat::Sum, &long)? == Exact(7));
    let boolean = set.get_as::<bool>(alloc, Stat::Max, &dtype);
    checks.refused("get_as: a number is no boolean", boolean, StatsError::InvalidStat)?;
    let below = set.get_as::<u8>(alloc, Stat::Min, &dtype);
    checks.refused("get_as: a number below the kind", below, StatsError::InvalidStat)?;
    let other = set.get_as::<i32>(alloc, Stat::Max, &texts);
    checks.refused("get_as: a number that is no text", other, StatsError::InvalidStat)
}

fn of_columns(alloc: Global, checks: &mut Checks<'_>) -> Done {
    let (texts, counts) = (dtype("utf8"), dtype("u64"));
    let (mut set, dtype) = (set_of(alloc, KNOWN)?, integers());
    let typed = set.as_typed_ref(&dtype);
    let are_two = is_number(typed.get(Stat::NullCount)?, &counts, PValue::U64(2));
    checks.holds("get of a provider", are_two && typed.len() == 4);
    checks.holds("get of none", typed.get(Stat::NaNCount)?.is_absent());
    let nulls: Precision<u64> = StatsProviderExt::get_as(&typed, alloc, Stat::NullCount)?;
    checks.holds("get_as of a provider", nulls == Exact(2));
    let other = set.as_typed_ref(&texts).get(Stat::Max);
    checks.refused("get of another type", other, StatsError::InvalidStat)?;
    let typed = set.as_mut_typed_ref(&dtype);
    let least: Precision<i32> = StatsProviderExt::get_as(&typed, alloc, Stat::Min)?;
    checks.holds("get_as of one that can be changed", least == Inexact(-4) && typed.len() == 4);
    let mut words = set_of(alloc, "max 'z'")?;
    let text = words.as_mut_typed_ref(&dtype).get(Stat::Max);
    checks.refused("get of a text where numbers are", text, StatsError::InvalidStat)
}

fn as_bounds(alloc: Global, checks: &mut Checks<'_>) -> Done {
    let null = dtype("null");
    let (set, dtype) = (set_of(alloc, KNOWN)?, integers());
    let typed = set.as_typed_ref(&dtype);
    let least: Option<LowerBound<i32>> = typed.get_as_bound::<Min, i32>(alloc)?;
    checks.holds("get_as_bound", least == Some(LowerBound::lift(Inexact(-4))));
    let most = typed.get_as_bound::<Max, i32>(alloc)?.map(|most| most.into_value());
    checks.holds("get_as_bound of the greatest", most == Some(Exact(1)));
    checks.holds("get_as_bound of none", typed.get_as_bound::<Sum, i64>(alloc)?.is_none());
    let boolean = typed.get_as_bound::<Max, bool>(alloc);
    checks.refused("get_as_bound of booleans", boolean, StatsError::InvalidStat)?;
    let most = typed.get_scalar_bound::<Max>()?.map(|most| most.into_value());
    let is_most = |most: Precision<Scalar>| is_number(most, &dtype, PValue::I32(1));
    checks.holds("get_scalar_bound", most.is_some_and(is_most));
    checks.holds("get_scalar_bound of none", typed.get_scalar_bound::<NaNCount>()?.is_none());
    let none = set.as_typed_ref(&null).get_scalar_bound::<Max>();
    checks.refused("get_scalar_bound of no such type", none, StatsError::InvalidStat)
}

/// Each aggregate function by its name.
const FUNCTIONS: [(AggregateFn, &str); 11] = [
    (AggregateFn::Min, "min"),
    (AggregateFn::Max, "max"),
    (AggregateFn::Sum, "sum"),
    (AggregateFn::NullCount, "null_count"),
    (AggregateFn::NanCount, "nan_count"),
    (AggregateFn::UncompressedSizeInBytes, "uncompressed_size_in_bytes"),
    (AggregateFn::MinMax, "min_max"),
    (AggregateFn::AllNull, "all_null"),
    (AggregateFn::AllNonNull, "all_non_null"),
    (AggregateFn::AllNan, "all_nan"),
    (AggregateFn::AllNonNan, "all_non_nan"),
];

fn markers(alloc: Global, checks: &mut Checks<'_>) -> Done {
    let all = [
        <IsConstant as StatType<bool>>::STAT,
        <IsSorted as StatType<bool>>::STAT,
        <IsStrictSorted as StatType<bool>>::STAT,
        <Max as StatType<i32>>::STAT,
        <Min as StatType<i32>>::STAT,
        <Sum as StatType<i32>>::STAT,
        <NullCount as StatType<u64>>::STAT,
        <UncompressedSizeInBytes as StatType<u64>>::STAT,
        <NaNCount as StatType<u64>>::STAT,
    ];
    for (number, (stat, wanted)) in all.into_iter().zip(Stat::all()).enumerate() {
        checks.holds_at("STAT", number, stat == wanted && u8::from(stat) as usize == number);
    }
    checks.holds("StatFn", StatFn == StatFn);
    for (number, (aggregate, name)) in FUNCTIONS.into_iter().enumerate() {
        let options = StatOptions::new(aggregate);
        let is_told = options.aggregate_fn() == aggregate
            && format!(in alloc; "{options}")?.as_str() == name;
        checks.holds_at("aggregate_fn and its text", number, is_told);
        let same = options == StatOptions::new(AggregateFn::Sum);
        checks.holds_at("equal options", number, same == (aggregate == AggregateFn::Sum));
    }
    Ok(())
}

pub fn laws(alloc: Global, checks: &mut Checks<'_>) -> Done {
    let two = unite_lower_both_ways(Exact(3), Inexact(5));
    united(checks, "two lower bounds", two, Some(Exact(3)));
    let two = unite_upper_both_ways(Exact(3), Inexact(5));
    united(checks, "two upper bounds", two, Some(Inexact(5)));
    let three = unite_three_lower(Exact(4), Exact(2), Inexact(9));
    united(checks, "three lower bounds", three, Some(Exact(2)));
    united(checks, "an absent bound", unite_three_upper(Exact(4), Exact(2), Absent), None);
    let dtype = integers();
    let merged = merge_rows_in_order(set_of(alloc, "min 3")?, &set_of(alloc, "min 2")?, &dtype)?;
    checks.holds("rows in order", has(alloc, &merged, "min 2")?);
    let (left, right) = (set_of(alloc, "min 3")?, set_of(alloc, "min 4")?);
    let merged = merge_rows_in_any_order(left, &right, &dtype)?;
    checks.holds("rows in any order", has(alloc, &merged, "min 3")?);
    let mut set = set_of(alloc, "min 3")?;
    combine_of_same_rows(&mut set, &set_of(alloc, "min 3")?, &dtype)?;
    checks.holds("the same rows", has(alloc, &set, "min 3")?);
    let outcome = combine_of_same_rows(&mut set, &right, &dtype);
    checks.refused("no overlap", outcome, StatsError::NoOverlap)
}

/// Counts a union that was made in two ways.
fn united<B: StatBound<i32>>(
    checks: &mut Checks<'_>,
    name: &str,
    (first, second): (Option<B>, Option<B>),
    wanted: Option<Precision<i32>>,
) {
    checks.holds_at(name, 0, first.map(|bound| bound.into_value()) == wanted);
    checks.holds_at(name, 1, second.map(|bound| bound.into_value()) == wanted);
}
