//! Predicates at the rows of arrays of each layout; what can't be evaluated or proved, by name,
//! and which refusal goes first.

use crate::checks::Checks;
use crate::expressions::{is_at_rows, null_floats, pairs, refusal, rows_alone, told};
use crate::make_arrays::{Done, answered, array_of, bools, plain, valid_where};
use crate::sets::set_of;
use crate::words::bound;
use std::alloc::Global;
use vortex_arrays::{
    ArrayRef, ConstantArray, ConstantArrayExt, DictArray, FixedSizeListArray, Validity,
    VarBinViewArray, VarBinViewArrayIter,
};
use vortex_dtype::FieldNames;
use vortex_scalar::Scalar;
use vortex_stats::{Meter, Scope, StatsError, evaluate, prove};

/// Expressions at three rows, of which `a` is 1, null and 9, and `s` is "ab", "b" and "abc".
const FORMS: [(&str, &str); 10] = [
    ("> a 5", "0?1"),
    ("not > a 5", "1?0"),
    ("like s 'ab%'", "101"),
    // False decides an AND, and true an OR.
    ("and > a 5 like s 'ab%'", "001"),
    ("or > a 5 like s 'b%'", "011"),
    ("is_null a", "010"),
    ("is_not_null a", "101"),
    ("between[) a 1 9", "1?0"),
    ("is_null > a 5", "010"),
    ("= rows 3u64", "111"),
];

/// Counts the truths of these expressions at the rows.
fn check(alloc: Global, checks: &mut Checks<'_>, rows: &ArrayRef, all: &[(&str, &str)]) -> Done {
    for (text, wanted) in all {
        let (scope, mut meter) = (rows_alone(alloc, rows)?, Meter::new());
        checks.holds(text, is_at_rows(alloc, text, &scope, &mut meter, wanted)?);
        let counted = meter.rows_tested == wanted.len() as u64;
        checks.stays(text, counted && meter.proofs == 0 && meter.visits == 0);
    }
    Ok(())
}

pub fn layouts(alloc: Global, checks: &mut Checks<'_>) -> Done {
    let a = array_of(alloc, &[1i32, 5, 9], valid_where(alloc, &[true, false, true])?)?;
    let s = answered(VarBinViewArray::from_iter_str(alloc, ["ab", "b", "abc"]))?.into_array();
    let rows = pairs(alloc, ["a", "s"], (a, s), Validity::NonNullable)?;
    check(alloc, checks, &rows, &FORMS)?;
    // Dictionaries, constants and lists.
    let codes = array_of(alloc, &[0u8, 1, 0], valid_where(alloc, &[true, true, false])?)?;
    let named = answered(DictArray::try_new(alloc, codes, plain(alloc, &[1i32, 9])?))?.into_array();
    let seven = answered(ConstantArray::try_new(alloc, Scalar::from(7i32), 3))?.into_array();
    let rows = pairs(alloc, ["a", "b"], (named, seven), Validity::NonNullable)?;
    check(alloc, checks, &rows, &[("> a 5", "01?"), ("> b 5", "111"), ("> a b", "01?")])?;
    let (elements, valid) = (plain(alloc, &[1i32, 2, 3, 4])?, valid_where(alloc, &[true, false])?);
    let lists = answered(FixedSizeListArray::try_new(alloc, elements, 2, valid, 2))?.into_array();
    let others = plain(alloc, &[6i32, 4])?;
    let rows = pairs(alloc, ["l", "a"], (lists, others), Validity::NonNullable)?;
    check(alloc, checks, &rows, &[("is_null l", "01")])?;
    // A null record has null columns.
    let columns = (plain(alloc, &[6i32, 7])?, plain(alloc, &[6i32, 7])?);
    let rows = pairs(alloc, ["a", "b"], columns, valid_where(alloc, &[false, true])?)?;
    let all = [("> a 5", "?1"), ("is_null .", "10"), ("is_null > a 5", "10")];
    check(alloc, checks, &rows, &all)?;
    // Rows that are no records, and no rows.
    check(alloc, checks, &bools(alloc, &[true, false])?, &[(".", "10")])?;
    check(alloc, checks, &plain::<i32>(alloc, &[])?, &[("> . 5", "")])
}

const NOT_EVALUABLE: Option<StatsError> = Some(StatsError::NotEvaluable);

const NOT_BOOLEAN: Option<StatsError> = Some(StatsError::NotBoolean);

const RULE_FAULT: Option<StatsError> = Some(StatsError::RuleFault);

/// Expressions, and the refusals of their evaluation and of a proof by them.
const REFUSALS: [(&str, Option<StatsError>, Option<StatsError>); 18] = [
    // Without a truth. A proof reads a column first.
    ("is_nan f", NOT_EVALUABLE, RULE_FAULT),
    ("= f f", NOT_EVALUABLE, RULE_FAULT),
    ("between() f f f", NOT_EVALUABLE, RULE_FAULT),
    ("like s 'a\\%'", NOT_EVALUABLE, RULE_FAULT),
    ("ilike s 'a'", NOT_EVALUABLE, RULE_FAULT),
    ("is_null is_nan f", NOT_EVALUABLE, RULE_FAULT),
    ("or like s 'a' ilike s 'a'", NOT_EVALUABLE, RULE_FAULT),
    // The fault of a child before its parent's.
    ("null_count is_nan f", NOT_EVALUABLE, NOT_EVALUABLE),
    ("s", NOT_BOOLEAN, RULE_FAULT),
    ("5", NOT_BOOLEAN, NOT_BOOLEAN),
    ("like s 'a'", None, RULE_FAULT),
    ("is_null f", None, RULE_FAULT),
    ("and is_null null_count s like s 'a'", None, RULE_FAULT),
    ("is_null null_count s", None, None),
    ("> 5 4", None, None),
    // A side that reads a column beside one that has no truth: that of the left goes first.
    ("> min f max f", NOT_EVALUABLE, NOT_EVALUABLE),
    ("and is_null s > min f max f", NOT_EVALUABLE, RULE_FAULT),
    ("or > min f max f is_null s", NOT_EVALUABLE, NOT_EVALUABLE),
];

/// Statistics that a scope is given of a column, and their refusal.
const ADDED: [(&str, &str, Option<StatsError>); 3] = [
    ("t", "constant 1", Some(StatsError::UnknownColumn)),
    ("s", "max 1", Some(StatsError::InvalidStat)),
    ("s", "constant 1", None),
];

pub fn refusals(alloc: Global, checks: &mut Checks<'_>) -> Done {
    let rows = null_floats(alloc)?;
    for case in REFUSALS {
        is_refused(alloc, checks, &rows, case)?;
    }
    for (name, text, wanted) in ADDED {
        let (mut scope, set) = (rows_alone(alloc, &rows)?, told(set_of(alloc, text))?);
        let found = scope.add_stats(alloc, FieldNames::from_names(alloc, &[name])?, set);
        checks.holds("statistics of a scope", refusal(found)? == wanted);
    }
    let mut scope = Scope::new(alloc, plain(alloc, &[1i32])?, 1);
    let (path, set) = (FieldNames::from_names(alloc, &[])?, told(set_of(alloc, ""))?);
    let found = refusal(scope.add_stats(alloc, path, set))?;
    checks.holds("statistics of the rows themselves", found == None);
    Ok(())
}

/// Counts the refusals of both calls, which leave the meter as it was.
fn is_refused(
    alloc: Global,
    checks: &mut Checks<'_>,
    rows: &ArrayRef,
    (text, evaluated, proved): (&str, Option<StatsError>, Option<StatsError>),
) -> Done {
    let (scope, mut meter) = (rows_alone(alloc, rows)?, Meter::new());
    let bound = told(bound(alloc, text, rows.dtype()))?;
    let found = refusal(evaluate(alloc, &bound, &scope, &mut meter))?;
    checks.holds(text, found == evaluated);
    let found = refusal(prove(alloc, &bound, &scope, &mut meter))?;
    checks.holds(text, found == proved);
    let tested = if evaluated.is_none() { 2 } else { 0 };
    let proofs = if proved.is_none() { 1 } else { 0 };
    checks.holds(text, meter.rows_tested == tested && meter.proofs == proofs);
    Ok(())
}
