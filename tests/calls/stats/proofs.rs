//! Proofs with their columns resolved, what answers their placeholders, and proofs that are made by
//! rewrite rules of callers.

use crate::binder::Binder;
use crate::checks::Checks;
use crate::fixed_rule::{Answer, FixedRule};
use crate::trees::{WITHOUT, integers, is_told, record};
use crate::values::is_of;
use crate::words::{bound, expression};
use std::alloc::{AllocError, Global};
use vortex_dtype::DType;
use vortex_scalar::{PValue, Scalar, ScalarValue};
use vortex_stats::Value as Operand;
use vortex_stats::bound as make;
use vortex_stats::{
    AggregateFn, BoundExpression, Expression, Meter, Never, NotLiteral, Operands, StatsError,
    StatsRewriteRuleRef, bind, bind_stats, falsify, satisfy,
};

/// The end of calls, of which none was refused memory.
type Done = Result<(), StatsError>;

/// What is known of four rows of one column, the first.
#[derive(Drop)]
struct Known {
    greatest: Option<ScalarValue>,
    null_count: u64,
}

// Nothing here is proved, so the ghost members say nothing.
impl Operands for Known {
    ghost use Rattle.vortex_model.specs.Content.{null};
    ghost use Rattle.vortex_stats_bind.specs.Bound.{in_row};

    ghost provided = { λ _. in_row null };

    fn column<'a>(&'a self, _path: &[usize]) -> Operand<'a> {
        Operand::Null
    }

    fn statistic<'a>(&'a self, input: &BoundExpression, aggregate: AggregateFn) -> Operand<'a> {
        if input.as_column() != Some(&[0]) {
            return Operand::Null;
        }
        match (aggregate, &self.greatest) {
            (AggregateFn::Max, Some(greatest)) => Operand::Stored(greatest),
            (AggregateFn::NullCount, _) => Operand::Count(self.null_count),
            _ => Operand::Null,
        }
    }

    fn rows(&self) -> u64 {
        4
    }
}

fn statistics(greatest: Option<i32>, null_count: u64) -> Known {
    let greatest = greatest.map(|number| ScalarValue::Primitive(PValue::I32(number)));
    Known { greatest, null_count }
}

/// Predicates, and whether they are true of the row {a=9}.
const AT_ROW: [(&str, bool); 9] = [
    ("> a 5", true),
    ("not > a 5", false),
    ("is_null a", false),
    ("is_not_null a", true),
    ("between(] a 9 12", false),
    ("between[] a 9 12", true),
    ("like 'abc' 'ab%'", true),
    ("not_like 'abc' 'ab%'", false),
    ("like 'abc' 'a\\%'", false),
];

/// Proofs, the greatest of four rows, how many are null, and whether the proof holds.
const HOLD: [(&str, Option<i32>, u64, bool); 8] = [
    ("<= max a 5", Some(5), 0, true),
    ("<= max a 5", Some(6), 0, false),
    ("<= max a 5", None, 0, false),
    ("< null_count a 4u64", None, 3, true),
    ("< null_count a 4u64", None, 4, false),
    ("= null_count a rows", None, 4, true),
    ("= null_count a rows", None, 3, false),
    ("= rows rows", None, 0, true),
];

pub fn proofs(alloc: Global, checks: &mut Checks<'_>) -> Done {
    let dtype = record(alloc, ["a"], [integers()])?;
    for (text, greatest, null_count, wanted) in HOLD {
        let proof = bound(alloc, text, &dtype)?;
        checks.holds(text, proof.holds(&statistics(greatest, null_count)) == wanted);
    }
    let row = ScalarValue::tuple(alloc, [Some(ScalarValue::Primitive(PValue::I32(9)))])?;
    for (text, wanted) in AT_ROW {
        // Clones select the same rows.
        let node = expression(alloc, text)?.node.clone()?;
        let predicate = bind(alloc, &Expression { node }, &dtype)?;
        let copy = predicate.clone()?;
        let are_alike = copy.selects(&row) == wanted && predicate.selects(&row) == wanted;
        checks.holds(text, are_alike && predicate.holds(&row) == wanted);
    }
    for (text, fault) in
        [("b", StatsError::UnknownColumn), ("is_nan a", StatsError::UnequalTypes)]
    {
        checks.refused(text, bound(alloc, text, &dtype), fault)?;
    }
    let found = satisfy(alloc, &bound(alloc, "5", &dtype)?, &[], &mut Meter::new());
    checks.refused("no truth", found, StatsError::NotBoolean)?;
    let Some(proof) = falsify(alloc, &bound(alloc, "> a 5", &dtype)?, &[], &mut Meter::new())?
    else {
        return Err(StatsError::InvalidStat);
    };
    checks.holds("statistics at a row", !proof.holds(&row) && !proof.selects(&row));
    two_steps(alloc, checks, &dtype, &proof)?;
    let copy = proof.clone()?;
    drop(proof);
    let holds = copy.holds(&statistics(Some(5), 0)) && !copy.holds(&statistics(Some(6), 0));
    checks.holds("a clone of a falsifier", holds);
    Ok(())
}

/// A binder of the greatest of the first column, if it is known, to a literal of the nullable type.
fn binder(alloc: Global, greatest: Option<i32>) -> Result<Binder, StatsError> {
    let mut known = Vec::new(alloc);
    if greatest.is_some() {
        let literal = make::lit(alloc, Scalar::from(greatest))?;
        known.push((AggregateFn::Max, Box::into_inner(literal)))?;
    }
    Ok(Binder { known })
}

/// Binds statistics and evaluates what is left, of which nothing more is known. Under AND, NOT and
/// IS NULL too what is known is a literal of the statistic's type, and else null of it.
fn two_steps(
    alloc: Global,
    checks: &mut Checks<'_>,
    dtype: &DType,
    proof: &BoundExpression,
) -> Done {
    let tree = bound(alloc, "and not > max a 5 is_null max a", dtype)?;
    let (alone, nullable) = (bound(alloc, "max a", dtype)?, integers().as_nullable()?);
    for (greatest, holds, told) in [
        (Some(5), true, "(not (5i32 > 5i32) AND is_null 5i32)"),
        (Some(6), false, "(not (6i32 > 5i32) AND is_null 6i32)"),
        (None, false, "(not (null > 5i32) AND is_null null)"),
    ] {
        let binder = binder(alloc, greatest)?;
        let bound = bind_stats(alloc, proof, &binder)?;
        checks.holds("bound and proved", bound.holds(&statistics(None, 0)) == holds);
        checks.holds("a truth", bound.is_boolean() && bound.has_truth());
        let bound = bind_stats(alloc, &tree, &binder)?;
        checks.holds(told, is_told(alloc, &Some(bound), told)?);
        let bound = bind_stats(alloc, &alone, &binder)?;
        let value = statistics(greatest, 0).greatest;
        let wanted = |found: &Scalar| is_of(found, &nullable, value.as_ref());
        checks.holds("its type", bound.as_literal().is_some_and(wanted));
    }
    let left = bind_stats(alloc, proof, &binder(alloc, None)?)?;
    checks.holds("bound to null", !left.holds(&statistics(Some(5), 0)));
    Ok(())
}

type Rules = Vec<StatsRewriteRuleRef>;

/// The rules for NOT, in this order, and behind them one that gives this answer.
fn rules_with(alloc: Global, answer: Option<Answer>) -> Result<Rules, AllocError> {
    let mut rules: Rules = Vec::new(alloc);
    rules.push(Box::new(alloc, Never)?)?;
    rules.push(Box::new(alloc, NotLiteral)?)?;
    if let Some(answer) = answer {
        rules.push(Box::new(alloc, FixedRule::new(answer))?)?;
    }
    Ok(rules)
}

/// Counts the proof that no row satisfies the predicate, or each does, which is told so, or refused
/// by this error. Refused memory is handed on.
fn proof(
    alloc: Global,
    checks: &mut Checks<'_>,
    (predicate, of_each): (&BoundExpression, bool),
    rules: &Rules,
    meter: &mut Meter,
    wanted: Result<&str, StatsError>,
) -> Done {
    let found = if of_each {
        satisfy(alloc, predicate, rules, meter)
    } else {
        falsify(alloc, predicate, rules, meter)
    };
    match (found, wanted) {
        (Ok(proof), Ok(told)) => checks.holds(told, is_told(alloc, &proof, told)?),
        (Err(found), Err(wanted)) if found == wanted => checks.holds("a refused proof", true),
        (Err(StatsError::Memory), _) => return Err(StatsError::Memory),
        _ => checks.holds("a proof where none is, or none", false),
    }
    Ok(())
}

pub fn rules_of_callers(alloc: Global, checks: &mut Checks<'_>) -> Done {
    let dtype = record(alloc, ["a", "b"], [integers(), DType::Bool(WITHOUT)])?;
    of_two_rules(alloc, checks, &dtype)?;
    visits(alloc, checks, &dtype)?;
    // A rule that has no memory is no faulty rule.
    for (answer, fault) in [
        (Answer::Error(StatsError::NotEvaluable), StatsError::RuleFault),
        (Answer::Number, StatsError::RuleFault),
        (Answer::Column, StatsError::RuleFault),
        (Answer::Backslash, StatsError::RuleFault),
        (Answer::Error(StatsError::Memory), StatsError::Memory),
    ] {
        faulty(alloc, checks, &dtype, answer, fault)?;
    }
    constants(alloc, checks, &dtype)
}

fn of_two_rules(alloc: Global, checks: &mut Checks<'_>, dtype: &DType) -> Done {
    let (two, none): (Rules, Rules) = (rules_with(alloc, None)?, Vec::new(alloc));
    let mut meter = Meter::new();
    for (text, of_each, rules, wanted) in [
        ("not true", false, &two, Ok("(false OR true)")),
        ("not false", true, &two, Ok("(false OR true)")),
        ("not true", false, &none, Ok("")),
        ("and not true true", false, &two, Ok("((false OR true) OR false)")),
        ("a", false, &two, Err(StatsError::NotBoolean)),
    ] {
        let predicate = bound(alloc, text, dtype)?;
        proof(alloc, checks, (&predicate, of_each), rules, &mut meter, wanted)?;
    }
    checks.holds("visits", meter.visits == 6 && meter.proofs == 0 && meter.rows_tested == 0);
    Ok(())
}

/// A BETWEEN, its AND and two comparisons.
fn visits(alloc: Global, checks: &mut Checks<'_>, dtype: &DType) -> Done {
    let (within, mut meter) = (bound(alloc, "between[) a 1 9", dtype)?, Meter::new());
    let _proof = falsify(alloc, &within, &[], &mut meter)?;
    checks.holds("visits of a BETWEEN", meter.visits == 4);
    let mut full = Meter { rows_tested: 1, proofs: 2, visits: u64::MAX };
    let _proof = satisfy(alloc, &within, &[], &mut full)?;
    checks.holds("it stays at the greatest", full.visits == u64::MAX && full.proofs == 2);
    Ok(())
}

/// A rule of this answer is at this fault, behind other nodes too, and leaves the meter as it was.
/// Predicates without a NOT have proofs.
fn faulty(
    alloc: Global,
    checks: &mut Checks<'_>,
    dtype: &DType,
    answer: Answer,
    fault: StatsError,
) -> Done {
    let (rules, mut meter) = (rules_with(alloc, Some(answer))?, Meter::new());
    for (text, of_each) in [("not b", false), ("not b", true), ("and true not b", false)] {
        let predicate = bound(alloc, text, dtype)?;
        proof(alloc, checks, (&predicate, of_each), &rules, &mut meter, Err(fault))?;
    }
    checks.holds("no visit of a refused call", meter == Meter::new());
    let other = bound(alloc, "> a 3", dtype)?;
    proof(alloc, checks, (&other, false), &rules, &mut meter, Ok("(max a <= 3i32)"))
}

/// A rule may answer false, null or true: the proof is then the literal, and has this truth.
fn constants(alloc: Global, checks: &mut Checks<'_>, dtype: &DType) -> Done {
    let predicate = bound(alloc, "not b", dtype)?;
    for (answer, told) in
        [(Answer::False, "false"), (Answer::Null, "null"), (Answer::True, "true")]
    {
        let (mut rules, mut meter): (Rules, Meter) = (Vec::new(alloc), Meter::new());
        rules.push(Box::new(alloc, FixedRule::new(answer))?)?;
        proof(alloc, checks, (&predicate, false), &rules, &mut meter, Ok(told))?;
        proof(alloc, checks, (&predicate, true), &rules, &mut meter, Ok(told))?;
        checks.holds("a visit each", meter.visits == 2);
    }
    Ok(())
}
