//! What stays known of the rows of two columns, and what two sets of the same rows say together.

use crate::Done;
use crate::checks::Checks;
use crate::sets::{dtype_of, has, knows, set_of};
use crate::trees::{WITHOUT, integers};
use crate::words::{dtype, row};
use std::alloc::Global;
use vortex_dtype::DType;
use vortex_stats::{StatsError, StatsSet};

/// What is known on the left, on the right, and of both: the lesser, exact if an exact side has it.
const MINIMUMS: [&str; 13] = [
    "3 5 3", "5 3 3", "5 5 5", "3 ~5 3", "5 ~3 ~3", "5 ~5 5", "~3 5 ~3", "~5 3 3", "~5 5 5",
    "~-5 ~-3 ~-5", "3 ? ?", "? ~3 ?", "? ? ?",
];

/// The greater, exact if an exact side has it.
const MAXIMUMS: [&str; 13] = [
    "5 3 5", "3 5 5", "5 5 5", "5 ~3 5", "3 ~5 ~5", "5 ~5 5", "~5 3 ~5", "~3 5 5", "~5 5 5",
    "~-5 ~-3 ~-3", "3 ? ?", "? ~3 ?", "? ? ?",
];

/// The sum, as precise as both.
const COUNTS: [&str; 12] = [
    "1 2 3", "0 0 0", "1 ~2 ~3", "~1 2 ~3", "~1 ~2 ~3", "1 ? ?", "? 1 ?", "~0 ? ?", "? ? ?",
    "18446744073709551615 0 18446744073709551615",
    "18446744073709551615 1 ?",
    "~1 18446744073709551615 ?",
];

/// The sum, if both are exact.
const SUMS: [&str; 12] = [
    "3 -5 -2", "0 0 0", "3 ~5 ?", "~3 5 ?", "~3 ~5 ?", "3 ? ?", "? 3 ?", "? ? ?",
    "9223372036854775807 0 9223372036854775807",
    "9223372036854775807 -9223372036854775808 -1",
    "9223372036854775807 1 ?",
    "-1 -9223372036854775808 ?",
];

const UNSIGNED_SUMS: [&str; 3] = [
    "9223372036854775807 1 9223372036854775808",
    "18446744073709551615 0 18446744073709551615",
    "1 18446744073709551615 ?",
];

/// Whether the left rows are constant, with their minimum, the same of the right ones and of all.
const CONSTANTS: [&str; 14] = [
    "1 42 1 42 1", "1 3 1 5 0", "1 5 1 3 0", "1 42 1 ~42 ?", "1 ~42 1 42 ?", "1 42 1 ? ?",
    "0 42 1 42 0", "1 42 0 42 0", "0 ? ? ? 0", "~1 ? 0 ? 0", "~1 42 1 42 ?", "1 42 ~0 42 ?",
    "1 42 ? 42 ?", "~0 42 ~0 42 ?",
];

/// Whether the left rows are sorted, with their maximum, the right ones, with their minimum, and
/// all, and whether strictly.
const SORTED: [&str; 13] = [
    "1 1 1 2 1 1", "1 2 1 2 1 ~0", "1 3 1 2 ~0 ~0", "1 ~1 1 ~2 1 1", "1 ~3 1 2 ~0 ~0",
    "1 3 1 ~2 ~0 ~0", "1 ? 1 2 ? ?", "1 1 1 ? ? ?", "0 1 1 2 ? ?", "1 1 0 2 ? ?", "~1 1 1 2 ? ?",
    "1 1 ~1 2 ? ?", "? 1 1 2 ? ?",
];

/// What a side knows where the other lists the statistic as absent.
const ONE_SIDE: [&str; 5] = ["? 1 1", "? ~1 ~1", "1 ? 1", "~1 ? ~1", "? ? ?"];

/// What two bounds from below have in common: `-` where they don't overlap.
const LOWER_BOUNDS: [&str; 12] = [
    "5 5 5", "5 6 -", "6 5 -", "~3 ~5 ~5", "~5 ~3 ~5", "~5 ~5 ~5", "5 ~3 5", "~3 5 5", "5 ~5 5",
    "~5 5 5", "3 ~5 -", "~5 3 -",
];

/// What two bounds from above have in common.
const UPPER_BOUNDS: [&str; 12] = [
    "5 5 5", "5 6 -", "6 5 -", "~3 ~5 ~3", "~5 ~3 ~3", "~5 ~5 ~5", "3 ~5 3", "~5 3 3", "5 ~5 5",
    "~5 5 5", "5 ~3 -", "~3 5 -",
];

/// What two values have in common that bound nothing.
const VALUES: [&str; 11] = [
    "-5 -5 -5", "5 6 -", "6 5 -", "3 ~5 ~3", "~5 3 ~3", "5 ~3 5", "~3 5 5", "5 ~5 5", "~3 ~5 ~3",
    "~5 ~3 ~3", "~5 ~5 ~5",
];

/// The same of booleans.
const FLAGS: [&str; 12] = [
    "1 1 1", "0 0 0", "1 0 -", "0 1 -", "1 ~0 1", "~0 1 1", "0 ~1 ~0", "~1 0 ~0", "0 ~0 0",
    "1 ~1 1", "~1 ~0 ~0", "~1 ~1 ~1",
];

/// Calls that make one set of two.
const MERGES: &str = "ordered unordered typed_ordered typed_unordered";
const ORDERED: &str = "ordered typed_ordered";
const UNORDERED: &str = "unordered typed_unordered";
const COMBINED: &str = "combined typed_combined";

/// Rows from 3 to 5.
const BELOW: &str = "min 3 nulls 1 sorted 1 max 5 strict 1 sum 12 size ~16 constant 0";

/// A row of 5.
const ABOVE: &str = "max 5 min 5 constant 1 sorted 1 strict 1 sum 5 size 4 nulls 0";

/// The type of two columns, their sets, and what is merged of these in order, and in any order. A
/// side without a statistic has it absent. Bounds of variants don't compare, so they are cleared.
const WHOLE: [[&str; 5]; 8] = [
    [
        "i32",
        BELOW,
        ABOVE,
        "min 3 nulls 1 sorted 1 max 5 strict ~0 sum 17 size ~20 constant 0",
        "min 3 nulls 1 max 5 sum 17 size ~20 constant 0",
    ],
    [
        "i32",
        ABOVE,
        BELOW,
        "max 5 min 3 constant 0 sorted ~0 strict ~0 sum 17 size ~20 nulls 1",
        "max 5 min 3 constant 0 sum 17 size ~20 nulls 1",
    ],
    ["i32", "max 1", "", "", ""],
    ["i32", "", "nulls 1", "", ""],
    ["i32", "", "constant 0", "constant 0", "constant 0"],
    [
        "utf8",
        "min ~'b' max 'ba' sorted 1",
        "min 'bab' max ~'c' sorted 1",
        "min ~'b' max ~'c' sorted 1",
        "min ~'b' max ~'c'",
    ],
    [
        "lists",
        "nulls 1 sorted 1 min [1,2] max [3]",
        "nulls 1 sorted 1 min [1] max [3,0]",
        "nulls 2 sorted ~0 min [1] max [3,0]",
        "nulls 2 min [1] max [3,0]",
    ],
    ["variant", "max <1> min <1> nulls 1", "nulls 2 max <2> min <1>", "nulls 3", "nulls 3"],
];

/// The type of two sets, these, and what they say together; or, where they don't overlap, what is
/// left: what comes before the first that doesn't stays combined.
const TOGETHER: [(&str, &str, &str, Result<&str, &str>); 5] = [
    (
        "i32",
        "max ? min 3 nulls ? sorted ? constant ~1",
        "sum 4 nulls 0 sorted ? strict ? constant ? min ~2",
        Ok("max ? min 3 nulls 0 constant ~1 sum 4"),
    ),
    (
        "i32",
        "nulls ~7 min 3 max ~10",
        "sum 4 max 9 min 4 nulls 5 sorted 1",
        Err("nulls ~7 min 3 max 9 sum 4"),
    ),
    // To copy a sequence takes memory.
    ("lists", "max ~[3]", "nulls 1 max ~[2,9] min [1]", Ok("max ~[2,9] nulls 1 min [1]")),
    ("variant", "max <1>", "max ~<1>", Err("max <1>")),
    ("variant", "min <1>", "min ~<1>", Err("min <1>")),
];

/// Calls on columns of i32 and of another type, two sets, and what is made of them: bounds of two
/// types are cleared, or refused, where these differ by more than nullability; counts are not.
const OTHER_TYPES: [(&str, &str, &str, &str, Result<&str, &str>); 6] = [
    ("typed_ordered", "i32?", "max 4 nulls 1", "max 5 nulls 2", Ok("max 5 nulls 3")),
    ("typed_unordered", "i32?", "max 4 nulls 1", "max 5 nulls 2", Ok("max 5 nulls 3")),
    ("typed_ordered", "i64", "max 5 nulls 3", "max 5 nulls 2", Ok("nulls 5")),
    ("typed_unordered", "i64", "max 5 nulls 3", "max 5 nulls 2", Ok("nulls 5")),
    ("typed_combined", "i32?", "max 5", "nulls 2 max ~6", Ok("max 5 nulls 2")),
    ("typed_combined", "i64", "max 5", "nulls 2 max ~6", Err("max 5 nulls 2")),
];

pub fn run(alloc: Global, checks: &mut Checks<'_>) -> Done {
    let tables: [(&str, &[&'static str], &[&'static str]); 10] = [
        ("constant", &[], &FLAGS),
        ("sorted", &[], &FLAGS),
        ("strict", &[], &FLAGS),
        ("max", &MAXIMUMS, &UPPER_BOUNDS),
        ("min", &MINIMUMS, &LOWER_BOUNDS),
        ("sum", &SUMS, &VALUES),
        ("unsigned_sum", &UNSIGNED_SUMS, &[]),
        ("nulls", &COUNTS, &UPPER_BOUNDS),
        ("size", &COUNTS, &UPPER_BOUNDS),
        ("nans", &COUNTS, &UPPER_BOUNDS),
    ];
    for (name, merged, combined) in tables {
        of_one(alloc, checks, MERGES, name, merged)?;
        of_one(alloc, checks, COMBINED, name, combined)?;
        of_one(alloc, checks, COMBINED, name, &ONE_SIDE)?;
        missing(alloc, checks, name)?;
    }
    flags(alloc, checks)?;
    for [of, left, right, ordered, unordered] in WHOLE {
        let of = type_of(alloc, of)?;
        makes(alloc, checks, ORDERED, (&of, &of), [left, right], Ok(ordered))?;
        makes(alloc, checks, UNORDERED, (&of, &of), [left, right], Ok(unordered))?;
    }
    for (of, left, right, wanted) in TOGETHER {
        let of = type_of(alloc, of)?;
        makes(alloc, checks, COMBINED, (&of, &of), [left, right], wanted)?;
    }
    for (call, of, left, right, wanted) in OTHER_TYPES {
        makes(alloc, checks, call, (&integers(), &dtype(of)), [left, right], wanted)?;
    }
    Ok(())
}

fn type_of(alloc: Global, name: &str) -> Result<DType, StatsError> {
    if name == "lists" { Ok(DType::list(alloc, integers(), WITHOUT)?) } else { Ok(dtype(name)) }
}

/// The set on the left behind a call, which refused memory leaves as it was, and whether they
/// overlap.
fn made(
    alloc: Global,
    checks: &mut Checks<'_>,
    (call, left, other): (&str, &str, &StatsSet),
    (of, others): (&DType, &DType),
) -> Result<(StatsSet, bool), StatsError> {
    let mut set = set_of(alloc, left)?;
    let outcome = match call {
        "ordered" => return Ok((set.merge_ordered(other, of)?, true)),
        "unordered" => return Ok((set.merge_unordered(other, of)?, true)),
        "typed_ordered" => set.as_mut_typed_ref(of).merge_ordered(&other.as_typed_ref(others)),
        "typed_unordered" => {
            set.as_mut_typed_ref(of).merge_unordered(&other.as_typed_ref(others))
        }
        "combined" => set.combine_sets(other, of),
        _ => set.as_mut_typed_ref(of).combine_sets(&other.as_typed_ref(others)),
    };
    if outcome == Err(StatsError::Memory) {
        let stays = has(alloc, &set, left)?;
        checks.stays("what refused memory leaves", stays);
        return Err(StatsError::Memory);
    }
    Ok((set, outcome != Err(StatsError::NoOverlap)))
}

/// Counts calls on two sets, which make this, or leave that where they don't overlap.
fn makes(
    alloc: Global,
    checks: &mut Checks<'_>,
    calls: &str,
    of: (&DType, &DType),
    [left, right]: [&str; 2],
    wanted: Result<&str, &str>,
) -> Done {
    let other = set_of(alloc, right)?;
    for call in calls.split_whitespace() {
        let (set, overlap) = made(alloc, checks, (call, left, &other), of)?;
        let holds = match wanted {
            Ok(text) => overlap && has(alloc, &set, text)?,
            Err(text) => !overlap && has(alloc, &set, text)?,
        };
        checks.holds(left, holds);
    }
    checks.holds("the other of two", has(alloc, &other, right)?);
    Ok(())
}

/// Calls on sets of one statistic. One of which nothing is known then isn't there.
fn of_one(
    alloc: Global,
    checks: &mut Checks<'_>,
    calls: &str,
    name: &str,
    rows: &[&'static str],
) -> Done {
    for text in rows {
        let [left, right, both]: [&str; 3] = row(*text);
        let left = format!(in alloc; "{name} {left}")?;
        let right = format!(in alloc; "{name} {right}")?;
        let common = format!(in alloc; "{name} {both}")?;
        let wanted = match both {
            "-" => Err(left.as_str()),
            "?" => Ok(""),
            _ => Ok(common.as_str()),
        };
        let (of, sides) = (dtype_of(name), [left.as_str(), right.as_str()]);
        makes(alloc, checks, calls, (&of, &of), sides, wanted)?;
    }
    Ok(())
}

/// Combinations where one set doesn't have the statistic.
fn missing(alloc: Global, checks: &mut Checks<'_>, name: &str) -> Done {
    let of = dtype_of(name);
    for word in ["1", "~1", "?"] {
        let known = format!(in alloc; "{name} {word}")?;
        let here = if word == "?" { "" } else { known.as_str() };
        makes(alloc, checks, COMBINED, (&of, &of), ["", known.as_str()], Ok(here))?;
        let listed = Ok(known.as_str());
        makes(alloc, checks, COMBINED, (&of, &of), [known.as_str(), ""], listed)?;
    }
    Ok(())
}

/// Merges of flags, which are told by bounds.
fn flags(alloc: Global, checks: &mut Checks<'_>) -> Done {
    for text in CONSTANTS {
        let [left, min, right, other, both]: [&str; 5] = row(text);
        let left = format!(in alloc; "constant {left} min {min}")?;
        let right = format!(in alloc; "constant {right} min {other}")?;
        let both = format!(in alloc; "constant {both}")?;
        tells(alloc, checks, MERGES, [left.as_str(), right.as_str(), both.as_str()])?;
    }
    for text in SORTED {
        let [left, max, right, min, sorted, strict]: [&str; 6] = row(text);
        let left = format!(in alloc; "sorted {left} strict {left} max {max}")?;
        let right = format!(in alloc; "sorted {right} strict {right} min {min}")?;
        let both = format!(in alloc; "sorted {sorted} strict {strict}")?;
        tells(alloc, checks, ORDERED, [left.as_str(), right.as_str(), both.as_str()])?;
        let none = "sorted ? strict ?";
        tells(alloc, checks, UNORDERED, [left.as_str(), right.as_str(), none])?;
    }
    Ok(())
}

/// Counts merges of two sets, which know this.
fn tells(
    alloc: Global,
    checks: &mut Checks<'_>,
    calls: &str,
    [left, right, wanted]: [&str; 3],
) -> Done {
    let (other, of) = (set_of(alloc, right)?, integers());
    for call in calls.split_whitespace() {
        let (set, _) = made(alloc, checks, (call, left, &other), (&of, &of))?;
        checks.holds(left, knows(alloc, &set, wanted)?);
    }
    Ok(())
}
