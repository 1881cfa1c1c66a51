//! Placeholders: statistics by path, proofs over them, what a meter counts, and placeholders that
//! are made of bound inputs.

use crate::checks::Checks;
use crate::expressions::{add, is_at_rows, null_floats, pairs, proven, refusal, rows_alone, told};
use crate::make_arrays::{Done, array_of};
use crate::words::{bound, dtype};
use std::alloc::Global;
use vortex_arrays::{ArrayRef, Validity};
use vortex_dtype::DTypeError;
use vortex_stats::bound as make;
use vortex_stats::{
    AggregateFn, BoundExpression, Meter, Scope, StatsError, bind_stats, falsify, prove, satisfy,
};

/// What is known of a column whose values go from 1 to 4.
const ONE_TO_FOUR: &str = "min 1 max 4 nulls 0";

/// Two rows of the columns a and b.
fn two_rows(alloc: Global) -> Result<ArrayRef, DTypeError> {
    let a = array_of(alloc, &[1i32, 4], Validity::AllValid)?;
    let b = array_of(alloc, &[7i32, 8], Validity::AllValid)?;
    pairs(alloc, ["a", "b"], (a, b), Validity::NonNullable)
}

/// The two rows as a part of a hundred, where a is known to go from 1 to 4.
fn known(alloc: Global) -> Result<Scope, DTypeError> {
    let mut scope = Scope::new(alloc, two_rows(alloc)?, 100);
    add(alloc, &mut scope, &["a"], ONE_TO_FOUR)?;
    Ok(scope)
}

/// The proof that no row satisfies the predicate of these words, or that each does.
fn proof(
    alloc: Global,
    text: &str,
    scope: &Scope,
    of_each: bool,
) -> Result<BoundExpression, DTypeError> {
    let bound = told(bound(alloc, text, scope.array.dtype()))?;
    let mut meter = Meter::new();
    let proof = if of_each {
        satisfy(alloc, &bound, &[], &mut meter)
    } else {
        falsify(alloc, &bound, &[], &mut meter)
    };
    match told(proof)? {
        Some(proof) => Ok(proof),
        None => Err(DTypeError::Malformed),
    }
}

pub fn statistics(alloc: Global, checks: &mut Checks<'_>) -> Done {
    proofs(alloc, checks)?;
    nested_paths(alloc, checks)?;
    at_rows(alloc, checks)?;
    bound_by_hand(alloc, checks)?;
    counts(alloc, checks)
}

/// Predicates, whether their satisfier is meant, and what is proved of them.
const PROOFS: [(&str, bool, Option<bool>); 5] = [
    ("> a 4", false, Some(true)),
    ("> a 3", false, Some(false)),
    ("> b 9", false, None),
    ("is_null a", false, Some(true)),
    ("is_null a", true, Some(false)),
];

fn proofs(alloc: Global, checks: &mut Checks<'_>) -> Done {
    let (scope, mut meter) = (known(alloc)?, Meter::new());
    for (text, of_each, wanted) in PROOFS {
        let proof = proof(alloc, text, &scope, of_each)?;
        checks.holds(text, told(prove(alloc, &proof, &scope, &mut meter))? == wanted);
    }
    let found = proven(alloc, "= rows 100u64", &scope, &mut meter)?;
    checks.holds("the scope's number of rows", found == Some(true));
    checks.holds("six proofs", meter.proofs == 6 && meter.rows_tested == 0);
    Ok(())
}

/// The column x.a and the column a, of which only the first is known. The first set of it counts.
fn nested_paths(alloc: Global, checks: &mut Checks<'_>) -> Done {
    let a = array_of(alloc, &[1i32, 4], Validity::AllValid)?;
    let rows = pairs(alloc, ["x", "a"], (two_rows(alloc)?, a), Validity::NonNullable)?;
    let mut scope = rows_alone(alloc, &rows)?;
    for text in [ONE_TO_FOUR, ""] {
        add(alloc, &mut scope, &["x", "a"], text)?;
        for (text, wanted) in [("> x.a 4", Some(true)), ("> a 4", None)] {
            let proof = proof(alloc, text, &scope, false)?;
            let found = told(prove(alloc, &proof, &scope, &mut Meter::new()))?;
            checks.holds(text, found == wanted);
        }
    }
    Ok(())
}

/// Placeholders beside columns.
fn at_rows(alloc: Global, checks: &mut Checks<'_>) -> Done {
    let (scope, mut meter) = (known(alloc)?, Meter::new());
    for (text, wanted) in [("< a max a", "10"), ("> b min b", "??"), ("all_null a", "00")] {
        checks.holds(text, is_at_rows(alloc, text, &scope, &mut meter, wanted)?);
    }
    checks.holds("six rows", meter.rows_tested == 6 && meter.proofs == 0);
    let mut full = Meter { rows_tested: u64::MAX - 1, proofs: u64::MAX, visits: 3 };
    is_at_rows(alloc, "all_null a", &scope, &mut full, "00")?;
    proven(alloc, "all_null a", &scope, &mut full)?;
    let stays = full.rows_tested == u64::MAX && full.proofs == u64::MAX && full.visits == 3;
    checks.holds("counts stay at the greatest", stays);
    Ok(())
}

/// A scope binds placeholders; what is left is proved where nothing is known. Clones tell the same.
fn bound_by_hand(alloc: Global, checks: &mut Checks<'_>) -> Done {
    let scope = known(alloc)?;
    let (bare, proof) = (rows_alone(alloc, &scope.array)?, proof(alloc, "> a 4", &scope, false)?);
    let bound = bind_stats(alloc, &proof, &scope)?;
    let (copy, twin) = (scope.clone()?, proof.clone()?);
    drop(scope);
    for (name, proof, scope, wanted) in [
        ("a placeholder that is left", &proof, &bare, None),
        ("a placeholder that was bound", &bound, &bare, Some(true)),
        ("a proof by clones", &twin, &copy, Some(true)),
    ] {
        let found = told(prove(alloc, proof, scope, &mut Meter::new()))?;
        checks.holds(name, found == wanted);
    }
    checks.holds("a clone of a scope", copy.rows == 100);
    Ok(())
}

/// A count that isn't exact says something where it is 0.
fn counts(alloc: Global, checks: &mut Checks<'_>) -> Done {
    for (text, wanted) in [("nulls ~0", Some(true)), ("nulls ~3", None)] {
        let mut scope = Scope::new(alloc, two_rows(alloc)?, 3);
        add(alloc, &mut scope, &["a"], text)?;
        let found = proven(alloc, "= null_count a 0u64", &scope, &mut Meter::new())?;
        checks.holds("a count in a proof", found == wanted);
    }
    Ok(())
}

/// Two rows of an i32 a, and of a record x of a float f, which is null, and a text s. It is known
/// that a has no null, and f no NaN.
fn with_text(alloc: Global) -> Result<Scope, DTypeError> {
    let (a, x) = (array_of(alloc, &[1i32, 4], Validity::AllValid)?, null_floats(alloc)?);
    let rows = pairs(alloc, ["a", "x"], (a, x), Validity::NonNullable)?;
    let mut scope = Scope::new(alloc, rows, 2);
    add(alloc, &mut scope, &["a"], "nulls 0")?;
    add(alloc, &mut scope, &["x", "f"], "nans 0")?;
    Ok(scope)
}

/// The placeholder of this name over the expression of these words.
fn made(
    alloc: Global,
    name: &str,
    text: &str,
    scope: &Scope,
) -> Result<Result<Box<BoundExpression>, StatsError>, DTypeError> {
    let input = Box::new(alloc, told(bound(alloc, text, scope.array.dtype()))?)?;
    Ok(match name {
        "all_null" => make::all_null(alloc, input),
        "all_non_null" => make::all_non_null(alloc, input),
        "all_nan" => make::all_nan(alloc, input),
        "all_non_nan" => make::all_non_nan(alloc, input),
        "min_max" => make::min_max(alloc, input),
        "sum" => make::sum(alloc, input),
        "null_count" => make::null_count(alloc, input),
        "nan_count" => make::nan_count(alloc, input),
        _ => make::stat(alloc, AggregateFn::Max, input),
    })
}

/// Placeholders and their inputs, and what is proved by them, or the refusal of a proof.
const MADE: [(&str, &str, Result<Option<bool>, StatsError>); 10] = [
    ("all_null", "a", Ok(Some(false))),
    ("all_non_null", "a", Ok(Some(true))),
    ("all_nan", "x.f", Ok(Some(false))),
    ("all_non_nan", "x.f", Ok(Some(true))),
    ("all_null", "x.f", Ok(None)),
    ("max", "a", Err(StatsError::NotBoolean)),
    ("min_max", "a", Err(StatsError::NotBoolean)),
    ("sum", "a", Err(StatsError::NotBoolean)),
    ("null_count", "a", Err(StatsError::NotBoolean)),
    ("nan_count", "x.f", Err(StatsError::NotBoolean)),
];

/// Placeholders over inputs that they don't take.
const UNSUPPORTED: [(&str, &str); 5] =
    [("all_nan", "a"), ("all_non_nan", "a"), ("nan_count", "a"), ("sum", "x.s"), ("min_max", "x")];

pub fn placeholders(alloc: Global, checks: &mut Checks<'_>) -> Done {
    let scope = with_text(alloc)?;
    for (name, text, wanted) in MADE {
        let made = told(made(alloc, name, text, &scope)?)?;
        // It is as binding the placeholder gives it, and reads no column.
        let text = format!(in alloc; "{name} {text}")?;
        let same = told(bound(alloc, text.as_str(), scope.array.dtype()))?;
        let is_alike = made.dtype()? == same.dtype()? && made.has_truth() == same.has_truth();
        checks.holds(name, is_alike && !made.reads_columns() && !same.reads_columns());
        match prove(alloc, &made, &scope, &mut Meter::new()) {
            Err(StatsError::Memory) => return Err(DTypeError::Memory),
            found => checks.holds(name, found == wanted),
        }
    }
    let sum = told(made(alloc, "sum", "a", &scope)?)?;
    checks.holds("the sum of i32 is an i64", sum.dtype()? == dtype("i64?"));
    for (name, text) in UNSUPPORTED {
        let found = refusal(made(alloc, name, text, &scope)?)?;
        checks.holds(name, found == Some(StatsError::UnsupportedAggregate));
    }
    let made = told(made(alloc, "all_null", "is_nan x.f", &scope)?)?;
    let found = refusal(prove(alloc, &made, &scope, &mut Meter::new()))?;
    checks.holds("an input without a truth", found == Some(StatsError::NotEvaluable));
    Ok(())
}
