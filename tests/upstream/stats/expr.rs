//! Placeholders. The value of one is read from a set by `stat_scalar`, where the Rust crate's tests
//! read an array's own statistics.

use crate::Done;
use crate::checks::Checks;
use crate::sets::{set_of, value};
use crate::trees::integers;
use crate::values::is_of;
use crate::words::{bound, dtype, row};
use std::alloc::Global;
use vortex_scalar::ScalarValue;
use vortex_stats::bound as make;
use vortex_stats::{AggregateFn, BoundNode, StatsError, stat_scalar};

/// Names of tests, and placeholders over integers: the type and the value that it has over so many
/// rows, where the sum, the null count and the bounds are known.
const VALUES: [(&str, AggregateFn, usize, &str, &str); 4] = [
    ("stat_expr_reads_cached_sum", AggregateFn::Sum, 3, "i64?", "sum 6"),
    ("stat_expr_reads_cached_null_count", AggregateFn::NullCount, 4, "u64?", "nulls 2"),
    ("stat_expr_reads_cached_min_and_max", AggregateFn::Min, 3, "i32?", "min 1"),
    ("stat_expr_reads_cached_min_and_max", AggregateFn::Max, 3, "i32?", "max 3"),
];

/// Names of tests, and flags: over so many rows, by what is known of the count behind them, and
/// their values.
const FLAGS: [(&str, &str); 11] = [
    ("stat_expr_reads_cached_all_null_from_null_count", "null 3 3 1"),
    ("stat_expr_reads_cached_all_null_false_from_inexact_low_null_count", "null 3 ~2 0"),
    ("stat_expr_returns_null_for_inexact_full_null_count_as_all_null", "null 3 ~3 ?"),
    ("stat_expr_reads_cached_all_non_null_from_null_count", "non_null 3 0 1"),
    ("stat_expr_reads_cached_all_non_null_true_from_inexact_zero_null_count", "non_null 3 ~0 1"),
    ("stat_expr_returns_null_for_inexact_nonzero_null_count_as_all_non_null", "non_null 4 ~2 ?"),
    ("stat_expr_reads_cached_all_nan_from_nan_count", "nan 3 3 1"),
    ("stat_expr_reads_cached_all_nan_false_from_inexact_low_nan_count", "nan 3 ~2 0"),
    ("stat_expr_returns_null_for_inexact_full_nan_count_as_all_nan", "nan 3 ~3 ?"),
    ("stat_expr_reads_cached_all_non_nan_true_from_inexact_zero_nan_count", "non_nan 3 ~0 1"),
    ("stat_expr_returns_null_for_inexact_nonzero_nan_count_as_all_non_nan", "non_nan 3 ~1 ?"),
];

pub fn run(alloc: Global, checks: &mut Checks<'_>) -> Done {
    let name = "bound_stats_constructor_preserves_child_and_dtype";
    let sum = make::sum(alloc, Box::new(alloc, bound(alloc, ".", &integers())?)?)?;
    let is_child = match &sum.node {
        BoundNode::Stat(AggregateFn::Sum, input, _) => input.as_column() == Some(&[]),
        _ => false,
    };
    checks.holds(name, is_child && sum.dtype()? == dtype("i64?"));
    let none = stat_scalar(alloc, AggregateFn::Sum, &set_of(alloc, "")?, &integers(), 3)?;
    let is_null = is_of(&none, &dtype("i64?"), None);
    checks.holds("stat_expr_returns_null_when_sum_is_missing", is_null);
    let set = set_of(alloc, "sum 6 nulls 2 min 1 max 3")?;
    for (name, aggregate, rows, of, told) in VALUES {
        let [stat, number]: [&str; 2] = row(told);
        let (found, wanted) = (
            stat_scalar(alloc, aggregate, &set, &integers(), rows)?,
            value(alloc, stat, number)?,
        );
        checks.holds(name, is_of(&found, &dtype(of), wanted.as_ref()));
    }
    for (name, text) in FLAGS {
        checks.holds(name, is_flag(alloc, row(text))?);
    }
    let (name, found) =
        ("stat_expr_rejects_all_nan_for_non_float", bound(alloc, "all_nan .", &integers()));
    checks.refused(name, found, StatsError::UnsupportedAggregate)
}

fn is_flag(
    alloc: Global,
    [name, rows, count, wanted]: [&str; 4],
) -> Result<bool, StatsError> {
    let (aggregate, stat, of) = match name {
        "null" => (AggregateFn::AllNull, "nulls", "i32"),
        "non_null" => (AggregateFn::AllNonNull, "nulls", "i32"),
        "nan" => (AggregateFn::AllNan, "nans", "f32"),
        _ => (AggregateFn::AllNonNan, "nans", "f32"),
    };
    let set = set_of(alloc, format!(in alloc; "{stat} {count}")?.as_str())?;
    let rows = rows.parse::<usize>().unwrap_or(0);
    let found = stat_scalar(alloc, aggregate, &set, &dtype(of), rows)?;
    let wanted: Option<ScalarValue> = value(alloc, "constant", wanted)?;
    Ok(is_of(&found, &dtype("bool?"), wanted.as_ref()))
}
