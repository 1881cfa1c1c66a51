//! `falsify` and `satisfy` with rules. The rules of the Rust crate's tests answer any tree that
//! they are given; here `Never` and `NotLiteral`, which keep the law of a rule, stand in for them.

use crate::Done;
use crate::checks::Checks;
use crate::trees::{integers, is_told};
use crate::words::bound;
use std::alloc::Global;
use vortex_stats::{Meter, Never, NotLiteral, StatsError, StatsRewriteRuleRef, falsify, satisfy};

pub fn run(alloc: Global, checks: &mut Checks<'_>) -> Done {
    let mut rules: Vec<StatsRewriteRuleRef> = Vec::new(alloc);
    rules.push(Box::new(alloc, Never)?)?;
    rules.push(Box::new(alloc, NotLiteral)?)?;
    let mut meter = Meter::new();
    let not_true = bound(alloc, "not true", &integers())?;
    let proof = falsify(alloc, &not_true, &rules, &mut meter)?;
    let holds = is_told(alloc, &proof, "(false OR true)")?;
    checks.holds("combines_multiple_falsifiers_with_or", holds);
    let not_false = bound(alloc, "not false", &integers())?;
    let proof = satisfy(alloc, &not_false, &rules, &mut meter)?;
    let holds = is_told(alloc, &proof, "(false OR true)")?;
    checks.holds("combines_multiple_satisfiers_with_or", holds);
    let name = "unregistered_expression_has_no_rewrite";
    checks.holds_at(name, 0, falsify(alloc, &not_true, &[], &mut meter)?.is_none());
    checks.holds_at(name, 1, satisfy(alloc, &not_true, &[], &mut meter)?.is_none());
    let (name, seven) = ("non_predicate_expression_errors", bound(alloc, "7", &integers())?);
    let proof = falsify(alloc, &seven, &[], &mut meter);
    checks.refused(name, proof, StatsError::NotBoolean)?;
    checks.refused(name, satisfy(alloc, &seven, &[], &mut meter), StatsError::NotBoolean)
}
