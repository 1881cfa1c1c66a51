//! The proofs of the built-in rules, told as texts. The nodes that `falsify` visits are counted by
//! its meter and not by a rule; the record of the unsupported comparison holds a null.

use crate::Done;
use crate::checks::Checks;
use crate::trees::{WITH, WITHOUT, floats, integers, is_told, of_value, record};
use crate::words::bound;
use std::alloc::Global;
use vortex_dtype::DType;
use vortex_scalar::{Scalar, ScalarValue};
use vortex_stats::{Expression, Meter, StatsError, bind, column, eq, falsify, lit, lt_eq, satisfy};

/// Names of tests, predicates and their falsifiers, empty where there is none.
const FALSIFIERS: [(&str, &str, &str); 16] = [
    ("rewrites_comparison_falsifier", "> a 10", "(max a <= 10i32)"),
    ("rewrites_comparison_falsifier", "= a b", "((min a > max b) OR (min b > max a))"),
    ("rewrites_comparison_falsifier", "= s t", "((min s > max t) OR (min t > max s))"),
    (
        "rewrites_boolean_falsifiers",
        "and > a 10 < a 50",
        "((max a <= 10i32) OR (min a >= 50i32))",
    ),
    ("rewrites_boolean_falsifiers", "or > a 10 < a 5", "((max a <= 10i32) AND (min a >= 5i32))"),
    ("rewrites_between_falsifier", "between[] a 10 50", "((10i32 > max a) OR (min a > 50i32))"),
    ("rewrites_null_falsifiers", "is_null a", "((null_count a = 0u64) OR all_non_null a)"),
    ("rewrites_null_falsifiers", "is_not_null a", "((null_count a = rows) OR all_null a)"),
    ("rewrites_nan_falsifiers", "is_nan f", "((nan_count f = 0u64) OR all_non_nan f)"),
    ("rewrites_nan_falsifiers", "is_nan n.x", "((nan_count n.x = 0u64) OR all_non_nan n.x)"),
    (LIKE, "like s 'prefix%'", "((min s >= 'prefiy') OR (max s < 'prefix'))"),
    (LIKE, "like s '\\%%'", "((min s >= '&') OR (max s < '%'))"),
    (LIKE, "like s 'pref%ix%'", "((min s >= 'preg') OR (max s < 'pref'))"),
    (LIKE, "like s 'pref_ix_'", "((min s >= 'preg') OR (max s < 'pref'))"),
    (LIKE, "like s 'exact'", "((min s > 'exact') OR (max s < 'exact'))"),
    (LIKE, "like s '%suffix'", ""),
];

const LIKE: &str = "rewrites_like_falsifier";

/// The same of satisfiers.
const SATISFIERS: [(&str, &str, &str); 3] = [
    ("rewrites_null_satisfiers", "is_null a", "((null_count a = rows) OR all_null a)"),
    ("rewrites_null_satisfiers", "is_not_null a", "((null_count a = 0u64) OR all_non_null a)"),
    ("rewrites_nan_satisfiers", "is_nan f", "((nan_count f = rows) OR all_nan f)"),
];

/// The type {a=i32, b=i32, f=f32, s=utf8, t=utf8, n={x=f32?}}.
fn test_scope(alloc: Global) -> Result<DType, StatsError> {
    let nested = record(alloc, ["x"], [floats(WITH)])?;
    let texts = || DType::Utf8(WITHOUT);
    let dtypes = [integers(), integers(), floats(WITHOUT), texts(), texts(), nested];
    Ok(record(alloc, ["a", "b", "f", "s", "t", "n"], dtypes)?)
}

pub fn run(alloc: Global, checks: &mut Checks<'_>) -> Done {
    let dtype = test_scope(alloc)?;
    for (name, text, wanted) in FALSIFIERS {
        let proof = falsify(alloc, &bound(alloc, text, &dtype)?, &[], &mut Meter::new())?;
        checks.holds(name, is_told(alloc, &proof, wanted)?);
    }
    for (name, text, wanted) in SATISFIERS {
        let proof = satisfy(alloc, &bound(alloc, text, &dtype)?, &[], &mut Meter::new())?;
        checks.holds(name, is_told(alloc, &proof, wanted)?);
    }
    let (mut chain, mut meter) = (format!(in alloc; "= a 0")?, Meter::new());
    for i in 1..16 {
        chain = format!(in alloc; "or {chain} = a {i}")?;
    }
    let proof = falsify(alloc, &bound(alloc, chain.as_str(), &dtype)?, &[], &mut meter)?;
    let is_visited_once = proof.is_some() && meter.visits == 31;
    checks.holds("or_chain_falsify_visits_each_node_once", is_visited_once);
    for expr in [
        lt_eq(alloc, column(alloc, "n")?, nested_value(alloc)?)?,
        eq(alloc, column(alloc, "n")?, nested_value(alloc)?)?,
    ] {
        let proof = falsify(alloc, &bind(alloc, &expr, &dtype)?, &[], &mut Meter::new())?;
        checks.holds("skips_falsifier_when_min_max_unsupported_for_dtype", proof.is_none());
    }
    Ok(())
}

/// The record {x=null} of the column n.
fn nested_value(alloc: Global) -> Result<Expression, StatsError> {
    let dtype = record(alloc, ["x"], [floats(WITH)])?;
    match Scalar::try_new(dtype, Some(ScalarValue::Tuple(Vec::from_array(alloc, [None])?))) {
        Ok(scalar) => Ok(lit(scalar)),
        Err(error) => Err(of_value(error)),
    }
}
