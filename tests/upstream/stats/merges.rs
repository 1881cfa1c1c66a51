//! Merges of `StatsSet`, and `combine_sets`. What a typed set is asked for there is read from the
//! set, to the last kind of an integer. The set of `merge_unordered` is written by hand, and
//! `test_combine_is_constant` calls `combine_sets`.

use crate::Done;
use crate::checks::Checks;
use crate::sets::{knows, set_of};
use crate::trees::integers;
use std::alloc::Global;
use vortex_stats::StatsError;

/// Names of tests, two sets, and what is known of what is merged of them in order.
const ORDERED: [(&str, &str, &str, &str); 26] = [
    ("merge_mins", "min 37", "min 42", "min 37"),
    ("merge_maxes", "max 37", "max 42", "max 42"),
    ("merge_maxes_bound", "max 42", "max ~43", "max ~43"),
    ("merge_min_bound_same", "min ~5", "min 5", "min 5"),
    ("merge_min_bound_bound_lower", "min ~4", "min 5", "min ~4"),
    ("merge_scalars", "sum 37", "sum 42", "sum 79"),
    (
        "merge_sums_overflow_clears",
        "sum 9223372036854775807",
        "sum 9223372036854775807",
        "sum ?",
    ),
    ("merge_into_min", "min 42", "", "min ?"),
    ("merge_from_min", "", "min 42", "min ?"),
    ("merge_into_bound_max", "max 42", "", "max ?"),
    ("merge_from_max", "", "max 42", "max ?"),
    ("merge_into_scalar", "sum 42", "", "sum ?"),
    ("merge_from_scalar", "", "sum 42", "sum ?"),
    ("merge_into_sortedness", "strict 1", "", "strict ?"),
    ("merge_from_sortedness", "", "strict 1", "strict ?"),
    ("merge_constant", "min 42 constant 1", "min ~42 constant 1", "constant ? min 42"),
    ("merge_constant_parts", "min 42 constant 1", "min 42 constant 1", "constant 1"),
    ("merge_constant_parts", "min 42 constant 1", "min 7 constant 1", "constant 0"),
    ("merge_constant_parts", "min 42 constant 0", "min 42 constant 1", "constant 0"),
    ("merge_constant_parts", "min 42 constant 1", "min 42 constant 0", "constant 0"),
    ("merge_constant_parts", "min 42 constant ~1", "min 42 constant 1", "constant ?"),
    ("merge_sortedness", "strict 1 max 1", "strict 1 min 2", "strict 1"),
    ("merge_sortedness_out_of_order", "strict 1 max 2", "strict 1 min 1", "strict ~0"),
    ("merge_sortedness_only_one_sorted", "strict 1 max 1", "strict 0 min 2", "strict ?"),
    ("merge_sortedness_missing_min", "strict 1 max 1", "strict 1", "strict ?"),
    ("merge_sortedness_bound_min", "strict 1 max 1", "strict 1 min ~2", "strict 1"),
];

/// What is computed there of 1, null, 2, 42, 10000 and null.
const COMPUTED: &str = "min 1 max 10000 nulls 2 size 25 constant 0 sorted 0 strict 0";

const UNORDERED: &str = "min 1 max 10000 nulls 4 size 50 constant 0 sorted ? strict ?";

/// Names of tests, two sets, and what the first knows combined with the second.
const COMBINED: [(&str, &str, &str, &str); 5] = [
    ("test_combine_is_constant", "constant 1", "constant 1", "constant 1"),
    ("test_combine_is_constant", "constant 1", "constant ~0", "constant 1"),
    ("test_combine_is_constant", "constant 0", "constant ~0", "constant 0"),
    (
        "test_combine_sets_with_missing_stats",
        "min 42 size 1000",
        "max 100 strict 1",
        "size 1000 min 42 max 100 strict 1",
    ),
    (
        "test_combine_sets_with_inexact",
        "min 42 max ~100 constant 0",
        "min ~40 max 90 sorted 1",
        "constant 0 min 42 max 90 sorted 1",
    ),
];

pub fn run(alloc: Global, checks: &mut Checks<'_>) -> Done {
    let dtype = integers();
    for (name, left, right, wanted) in ORDERED {
        let merged = set_of(alloc, left)?.merge_ordered(&set_of(alloc, right)?, &dtype)?;
        checks.holds(name, knows(alloc, &merged, wanted)?);
    }
    let merged = set_of(alloc, COMPUTED)?.merge_unordered(&set_of(alloc, COMPUTED)?, &dtype)?;
    checks.holds("merge_unordered", knows(alloc, &merged, UNORDERED)?);
    for (name, left, right, wanted) in COMBINED {
        let (mut stats1, stats2) = (set_of(alloc, left)?, set_of(alloc, right)?);
        stats1.as_mut_typed_ref(&dtype).combine_sets(&stats2.as_typed_ref(&dtype))?;
        checks.holds(name, knows(alloc, &stats1, wanted)?);
    }
    let mut stats1 = set_of(alloc, "constant 1 sorted 1")?;
    let outcome = stats1.combine_sets(&set_of(alloc, "constant 0 sorted 1")?, &dtype);
    checks.refused("test_combine_sets_boolean_conflict", outcome, StatsError::NoOverlap)
}
