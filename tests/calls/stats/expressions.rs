//! Expressions by the operators that make them, and the functions at their roots; what `bind`
//! refuses, children before their parent and left before right; and falsifiers of LIKE by the form
//! of its pattern, of floats, and of what is known of literals.

use crate::checks::Checks;
use crate::trees::{WITH, WITHOUT, floats, integers, is_told, record};
use crate::words::{bound, expression};
use std::alloc::Global;
use vortex_dtype::DType;
use vortex_stats::{
    Expression, Meter, Operator, ScalarFnId, StatsError, and_collect, binary, bind, falsify,
    or_collect, satisfy,
};

/// The end of calls, of which none was refused memory.
type Done = Result<(), StatsError>;

/// The AND of each number of predicates, all of them the column b.
const CONJUNCTIONS: [(usize, &str); 5] = [
    (0, ""),
    (1, "b"),
    (2, "(b AND b)"),
    (3, "((b AND b) AND b)"),
    (5, "(((b AND b) AND (b AND b)) AND b)"),
];

/// What each operator makes of these two operands.
const OPERATORS: [(Operator, &str, &str, &str); 8] = [
    (Operator::Eq, "a", "1", "(a = 1i32)"),
    (Operator::NotEq, "a", "1", "(a != 1i32)"),
    (Operator::Gt, "a", "1", "(a > 1i32)"),
    (Operator::Gte, "a", "1", "(a >= 1i32)"),
    (Operator::Lt, "a", "1", "(a < 1i32)"),
    (Operator::Lte, "a", "1", "(a <= 1i32)"),
    (Operator::And, "b", "true", "(b AND true)"),
    (Operator::Or, "b", "true", "(b OR true)"),
];

const ROOTS: [(&str, ScalarFnId); 13] = [
    ("1", ScalarFnId::Literal),
    ("a", ScalarFnId::Column),
    ("= a 1", ScalarFnId::Binary),
    ("and true false", ScalarFnId::Binary),
    ("or true false", ScalarFnId::Binary),
    ("between(] a 1 2", ScalarFnId::Between),
    ("not true", ScalarFnId::Not),
    ("is_null a", ScalarFnId::IsNull),
    ("is_not_null a", ScalarFnId::IsNotNull),
    ("is_nan a", ScalarFnId::IsNan),
    ("like a 'b%'", ScalarFnId::Like),
    ("rows", ScalarFnId::RowCount),
    ("min a", ScalarFnId::Stat),
];

/// Each operator on operands that it doesn't take, and a path through no record.
const FAULTS: [(&str, StatsError); 10] = [
    ("a.b", StatsError::UnknownColumn),
    ("between[) a s a", StatsError::UnequalTypes),
    ("between[) a a s", StatsError::UnequalTypes),
    ("like s a", StatsError::UnequalTypes),
    ("like a 'a'", StatsError::UnequalTypes),
    ("is_nan a", StatsError::UnequalTypes),
    ("and a true", StatsError::NotBoolean),
    ("or true a", StatsError::NotBoolean),
    ("min .", StatsError::UnsupportedAggregate),
    ("sum s", StatsError::UnsupportedAggregate),
];

/// Operands that have a fault.
const FAULTY: [(&str, StatsError); 4] = [
    ("zz", StatsError::UnknownColumn),
    ("= a s", StatsError::UnequalTypes),
    ("not s", StatsError::NotBoolean),
    ("all_nan a", StatsError::UnsupportedAggregate),
];

/// The words before and behind one operand, none of which the operators there take.
const PARENTS: [(&str, &str); 5] =
    [("and", "1"), ("and 1", ""), ("all_nan", ""), ("like 1", ""), ("not is_nan", "")];

/// The words before and behind two operands.
const PAIRS: [(&str, &str); 3] = [("=", ""), ("between[) a", ""), ("between[)", "a")];

/// A number as a whole, floats, a LIKE by a backslash and a record have no fault here.
const RIGHT: [&str; 5] = ["a", "= f f", "like s 'a\\b'", "is_nan f", "is_null ."];

pub fn bound_expressions(alloc: Global, checks: &mut Checks<'_>) -> Done {
    let dtypes = [integers(), DType::Bool(WITHOUT), DType::Utf8(WITHOUT), floats(WITHOUT)];
    let dtype = record(alloc, ["a", "b", "s", "f"], dtypes)?;
    made(alloc, checks, &dtype)?;
    for (text, fault) in FAULTS {
        checks.refused(text, bound(alloc, text, &dtype), fault)?;
    }
    for (first, fault) in FAULTY {
        for (before, behind) in PARENTS {
            let text = format!(in alloc; "{before} {first} {behind}")?;
            checks.refused(text.as_str(), bound(alloc, text.as_str(), &dtype), fault)?;
        }
        for (second, _) in FAULTY {
            if second == first {
                continue;
            }
            for (before, behind) in PAIRS {
                let text = format!(in alloc; "{before} {first} {second} {behind}")?;
                checks.refused(text.as_str(), bound(alloc, text.as_str(), &dtype), fault)?;
            }
        }
    }
    for text in RIGHT {
        let _bound = bound(alloc, text, &dtype)?;
        checks.holds("no fault", true);
    }
    Ok(())
}

fn made(alloc: Global, checks: &mut Checks<'_>, dtype: &DType) -> Done {
    for (operator, left, right, wanted) in OPERATORS {
        let (left, right) = (expression(alloc, left)?, expression(alloc, right)?);
        let made = binary(alloc, operator, left, right)?;
        checks.holds("scalar_fn_id of binary", made.scalar_fn_id() == ScalarFnId::Binary);
        let bound = bind(alloc, &made, dtype)?;
        checks.holds("the same, bound", bound.scalar_fn_id() == ScalarFnId::Binary);
        checks.holds(wanted, is_told(alloc, &Some(bound), wanted)?);
    }
    for (text, wanted) in ROOTS {
        checks.holds(text, expression(alloc, text)?.scalar_fn_id() == wanted);
    }
    let columns = |count| -> Result<Vec<Expression>, StatsError> {
        let mut all = Vec::new(alloc);
        for _ in 0..count {
            all.push(expression(alloc, "b")?)?;
        }
        Ok(all)
    };
    for (count, wanted) in CONJUNCTIONS {
        let bound = match and_collect(alloc, columns(count)?)? {
            Some(all) => Some(bind(alloc, &all, dtype)?),
            None => None,
        };
        checks.holds_at("and_collect", count, is_told(alloc, &bound, wanted)?);
    }
    let bound = match or_collect(alloc, columns(4)?)? {
        Some(any) => Some(bind(alloc, &any, dtype)?),
        None => None,
    };
    checks.holds("or_collect", is_told(alloc, &bound, "((b OR b) OR (b OR b))")?);
    Ok(())
}

/// Patterns with the falsifier of LIKE by them, empty where there is none.
const LIKES: [(&str, &str); 21] = [
    // Without a wildcard one text matches. A backslash spells what stands behind it.
    ("", "((min s > '') OR (max s < ''))"),
    ("ab", "((min s > 'ab') OR (max s < 'ab'))"),
    ("\\%\\_", "((min s > '%_') OR (max s < '%_'))"),
    ("\\a\\\\", "((min s > 'a\\') OR (max s < 'a\\'))"),
    ("é", "((min s > 'é') OR (max s < 'é'))"),
    // What matches begins with what stands before a wildcard. The last character that can be
    // raised is, and what follows it is dropped.
    ("a%", "((min s >= 'b') OR (max s < 'a'))"),
    ("a_", "((min s >= 'b') OR (max s < 'a'))"),
    ("ab%cd_", "((min s >= 'ac') OR (max s < 'ab'))"),
    ("a\\%_", "((min s >= 'a&') OR (max s < 'a%'))"),
    ("a\\\\%", "((min s >= 'a]') OR (max s < 'a\\'))"),
    ("a\u{7f}%", "((min s >= 'b') OR (max s < 'a\u{7f}'))"),
    ("a\u{10ffff}b%", "((min s >= 'a\u{10ffff}c') OR (max s < 'a\u{10ffff}b'))"),
    ("\u{d7ff}%", "((min s >= '\u{e000}') OR (max s < '\u{d7ff}'))"),
    ("é_%", "((min s >= 'ê') OR (max s < 'é'))"),
    // A wildcard stands first, nothing can be raised, or a backslash ends the pattern.
    ("%", ""),
    ("_", ""),
    ("%a", ""),
    ("\u{10ffff}%", ""),
    ("\u{7f}\u{7f}_", ""),
    ("a\\", ""),
    ("a%\\", ""),
];

/// Predicates with their falsifiers. Bounds of floats tell nothing of NaN, so a proof also asks
/// that there is none: by the counts, and by the flags. A literal has its own statistics.
const FALSIFIERS: [(&str, &str); 14] = [
    ("not_like s 'a%'", ""),
    ("ilike s 'a%'", ""),
    ("like s null:utf8?", ""),
    ("like s t", ""),
    (
        "> f g",
        "((((nan_count f = 0u64) AND (nan_count g = 0u64)) AND (max f <= min g)) \
            OR ((all_non_nan f AND all_non_nan g) AND (max f <= min g)))",
    ),
    (
        "!= null:f32? f",
        "(((nan_count f = 0u64) AND ((null = max f) AND (null = min f))) \
            OR (all_non_nan f AND ((null = max f) AND (null = min f))))",
    ),
    ("> null:f32? null:f32?", "(null <= null)"),
    ("is_null null:utf8?", "((1u64 = 0u64) OR all_non_null null)"),
    ("is_not_null 'x'", "((0u64 = rows) OR all_null 'x')"),
    ("is_nan null:f32?", "((0u64 = 0u64) OR all_non_nan null)"),
    ("true", "false"),
    ("false", "true"),
    ("null:bool?", ""),
    ("not true", ""),
];

const SATISFIERS: [(&str, &str); 3] = [("true", "true"), ("false", "false"), ("null:bool?", "")];

pub fn falsifiers(alloc: Global, checks: &mut Checks<'_>) -> Result<(), StatsError> {
    let texts = || DType::Utf8(WITHOUT);
    let dtypes = [texts(), texts(), floats(WITHOUT), floats(WITH), integers()];
    let dtype = record(alloc, ["s", "t", "f", "g", "a"], dtypes)?;
    for (pattern, wanted) in LIKES {
        let text = format!(in alloc; "like s '{pattern}'")?;
        let predicate = bound(alloc, text.as_str(), &dtype)?;
        let proof = falsify(alloc, &predicate, &[], &mut Meter::new())?;
        checks.holds(text.as_str(), is_told(alloc, &proof, wanted)?);
    }
    for (text, wanted) in FALSIFIERS {
        let proof = falsify(alloc, &bound(alloc, text, &dtype)?, &[], &mut Meter::new())?;
        checks.holds(text, is_told(alloc, &proof, wanted)?);
    }
    for (text, wanted) in SATISFIERS {
        let proof = satisfy(alloc, &bound(alloc, text, &dtype)?, &[], &mut Meter::new())?;
        checks.holds(text, is_told(alloc, &proof, wanted)?);
    }
    Ok(())
}
