//! Which zones are read for a predicate, the rows that it selects there, and predicates that a
//! reader refuses, as a pruner does.

use crate::checks::Checks;
use crate::file::File;
use crate::words::expression;
use std::alloc::Global;
use vortex_stats::{Meter, NullComparison, PushNot, StatsError, StatsRewriteRuleRef, bind};

/// Predicates, which zones are read for each, as `1` and `0`, and how many rows it selects.
const PREDICATES: [(&str, &str, usize); 12] = [
    ("> a 4", "0111", 4),
    ("= a 2", "1011", 1),
    ("!= a 3", "1111", 7),
    ("is_null a", "0111", 3),
    ("is_not_null a", "1101", 8),
    ("between[] a 5 8", "0111", 2),
    (">= s 'd'", "0111", 6),
    ("like s 'c%'", "0100", 2),
    ("and > a 4 < s 'e'", "0100", 3),
    ("or = a 2 = s 'cow'", "1111", 2),
    // The upper bound of the last zone is above each of its strings.
    ("> s 'h'", "0001", 1),
    ("> s 'hex'", "0001", 0),
];

const REFUSED: [(&str, StatsError); 4] = [
    ("7", StatsError::NotBoolean),
    ("> z 4", StatsError::UnknownColumn),
    ("> a 'x'", StatsError::UnequalTypes),
    ("like s 'a\\%'", StatsError::NotEvaluable),
];

/// Whether these zones are read.
pub fn are(read: &[bool], wanted: &str) -> bool {
    let mut letters = read.iter().zip(wanted.as_bytes());
    read.len() == wanted.len() && letters.all(|(is_read, letter)| *is_read == (*letter == b'1'))
}

/// Counts a predicate: the zones that are read for it, the rows that it selects in them, and that
/// it selects none in the others.
fn reads(
    alloc: Global,
    checks: &mut Checks<'_>,
    file: &File,
    rules: &[StatsRewriteRuleRef],
    (text, wanted, count): (&str, &str, usize),
) -> Result<(), StatsError> {
    let predicate = expression(alloc, text)?;
    let read = file.footer.zones_to_read(alloc, &predicate, rules, &mut Meter::new())?;
    checks.holds_at(text, 0, are(&read, wanted));
    let bound = bind(alloc, &predicate, &file.footer.dtype)?;
    let (mut found, mut lost) = (0, 0);
    for (rows, is_read) in file.zones.iter().zip(&read) {
        for row in rows {
            let is_selected = row.as_ref().is_some_and(|row| bound.selects(row));
            found += if is_selected && *is_read { 1 } else { 0 };
            lost += if is_selected && !*is_read { 1 } else { 0 };
        }
    }
    checks.holds_at(text, 1, found == count && lost == 0);
    Ok(())
}

/// By the bounds and null counts of the footer alone.
pub fn run(alloc: Global, checks: &mut Checks<'_>) -> Result<(), StatsError> {
    let file = File::new(alloc)?;
    for case in PREDICATES {
        reads(alloc, checks, &file, &[], case)?;
    }
    Ok(())
}

/// By rules of the caller too: NOT of a comparison, and a column of nulls alone.
pub fn by_rules(alloc: Global, checks: &mut Checks<'_>) -> Result<(), StatsError> {
    let (file, mut rules) = (File::new(alloc)?, Vec::<StatsRewriteRuleRef>::new(alloc));
    reads(alloc, checks, &file, &rules, ("not > a 4", "1111", 4))?;
    rules.push(Box::new(alloc, PushNot)?)?;
    reads(alloc, checks, &file, &rules, ("not > a 4", "1011", 4))?;
    rules.push(Box::new(alloc, NullComparison)?)?;
    reads(alloc, checks, &file, &rules, ("> a 4", "0101", 4))
}

pub fn refused_predicates(alloc: Global, checks: &mut Checks<'_>) -> Result<(), StatsError> {
    let file = File::new(alloc)?;
    for (text, wanted) in REFUSED {
        let predicate = expression(alloc, text)?;
        let found = file.footer.zones_to_read(alloc, &predicate, &[], &mut Meter::new());
        checks.refused(text, found, wanted)?;
    }
    Ok(())
}
