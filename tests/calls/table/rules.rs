//! Scans by proofs that are made with rewrite rules of the caller.

use crate::checks::Checks;
use crate::fixed_rule::{Answer, FixedRule};
use crate::make::{Case, Done, Found, is_found, predicate, scan, scans, table_of};
use std::alloc::{AllocError, Global};
use vortex_dtype::FieldPath;
use vortex_stats::{Never, NotLiteral, NullComparison, PushNot, StatsError, StatsRewriteRuleRef};
use vortex_table::table::{Table, TableError};

type Rules = Vec<StatsRewriteRuleRef>;

pub fn run(alloc: Global, checks: &mut Checks<'_>) -> Done {
    of_two_rules(alloc, checks)?;
    ready_rules(alloc, checks)?;
    at_fault(alloc, checks)?;
    never_true(alloc, checks)
}

/// The two rules for NOT.
fn two_rules(alloc: Global) -> Result<Rules, AllocError> {
    let mut rules: Rules = Vec::new(alloc);
    rules.push(Box::new(alloc, Never)?)?;
    rules.push(Box::new(alloc, NotLiteral)?)?;
    Ok(rules)
}

/// Counts scans with these rules.
fn scans_with(
    alloc: Global,
    checks: &mut Checks<'_>,
    (table, rules): (&Table, &Rules),
    cases: &[Case<'_>],
) -> Done {
    for (text, found) in cases {
        let by = predicate(alloc, text)?;
        let answer = table.scan_with(alloc, &[FieldPath::root(alloc)], &by, rules)?;
        checks.holds(text, is_found(alloc, &answer, *found)?);
    }
    Ok(())
}

/// NOT has no built-in proofs, and those of two rules decide it.
fn of_two_rules(alloc: Global, checks: &mut Checks<'_>) -> Done {
    let table = table_of(alloc, "a:i32", 16, &["[1]\n[2]"])?;
    let (none, two): (Rules, Rules) = (Vec::new(alloc), two_rules(alloc)?);
    scans(alloc, checks, &table, &[("not true", ("", "", "", 2, 0))])?;
    scans_with(alloc, checks, (&table, &none), &[("not true", ("", "", "", 2, 0))])?;
    scans_with(alloc, checks, (&table, &two), &[
        ("not true", ("", "0", "", 0, 1)),
        ("not false", ("[1],[2]", "", "0", 0, 2)),
    ])
}

/// NOT pushed inward skips what its predicate does, and a column of nulls is equal to nothing.
fn ready_rules(alloc: Global, checks: &mut Checks<'_>) -> Done {
    let mut rules: Rules = Vec::new(alloc);
    rules.push(Box::new(alloc, PushNot)?)?;
    rules.push(Box::new(alloc, NullComparison)?)?;
    let table = table_of(alloc, "a:i32", 16, &["[1]\n[2]"])?;
    scans_with(alloc, checks, (&table, &rules), &[
        ("not > a 0", ("", "0", "", 0, 1)),
        ("not > a 1", ("[1]", "", "", 2, 1)),
        ("not between[] a 1 2", ("", "0", "", 0, 1)),
    ])?;
    let nulls = table_of(alloc, "a:i32?", 16, &["[null]\n[null]"])?;
    scans_with(alloc, checks, (&nulls, &rules), &[("= a 8", ("", "0", "", 0, 1))])
}

/// A rule at fault, and a proof that can't be used, refuse the scan, of a table without rows too,
/// and what a scan refuses goes first. The table stays.
fn at_fault(alloc: Global, checks: &mut Checks<'_>) -> Done {
    let table = table_of(alloc, "a:i32", 16, &["[1]\n[2]"])?;
    let empty = table_of(alloc, "a:i32", 16, &[""])?;
    let (by, error) = (predicate(alloc, "not true")?, Answer::Error(StatsError::NotEvaluable));
    for (answer, to_satisfy_alone, table) in [
        (error, false, &table),
        (error, true, &table),
        (error, false, &empty),
        (Answer::Number, false, &table),
        (Answer::Column, false, &table),
        (Answer::Backslash, false, &table),
    ] {
        let mut rules: Rules = Vec::new(alloc);
        rules.push(Box::new(alloc, NotLiteral)?)?;
        rules.push(Box::new(alloc, FixedRule { answer, to_satisfy_alone })?)?;
        let found = table.scan_with(alloc, &[FieldPath::root(alloc)], &by, &rules);
        checks.refused("a rule at fault", found, TableError::RuleFault)?;
        let path = FieldPath::from_names(alloc, &["z"])?;
        let found = table.scan_with(alloc, &[path], &by, &rules);
        checks.refused("a path goes first", found, TableError::UnknownPath(0))?;
    }
    let answer = scan(alloc, &table, &predicate(alloc, "not false")?)?;
    let stays = is_found(alloc, &answer, ("[1],[2]", "", "", 2, 0))?;
    checks.holds("the table stays", stays && table.chunk_count() == 1);
    Ok(())
}

/// A rule whose proof is false or null decides no chunk, and takes nothing from what another proof
/// decides: of the same node, or of another.
fn never_true(alloc: Global, checks: &mut Checks<'_>) -> Done {
    let table = table_of(alloc, "a:i32", 16, &["[1]\n[2]", "[3]", "[0]"])?;
    let all: Found<'static> = ("[1],[2],[3],[0]", "", "0,1,2", 0, 6);
    for answer in [Answer::False, Answer::Null] {
        let mut alone: Rules = Vec::new(alloc);
        alone.push(Box::new(alloc, FixedRule::new(answer))?)?;
        scans_with(alloc, checks, (&table, &alone), &[
            ("not false", ("[1],[2],[3],[0]", "", "", 4, 6)),
            ("not true", ("", "", "", 4, 6)),
            ("and not false > a 1", ("[2],[3]", "2", "", 3, 3)),
        ])?;
        for at in [0, 2] {
            let mut rules = two_rules(alloc)?;
            rules.insert(at, Box::new(alloc, FixedRule::new(answer))?)?;
            let decided = [("not false", all), ("not true", ("", "0,1,2", "", 0, 3))];
            scans_with(alloc, checks, (&table, &rules), &decided)?;
        }
    }
    Ok(())
}
