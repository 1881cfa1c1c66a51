//! `LowerBound` and `UpperBound`. A bound of a value is made by `lift`.

use crate::checks::Checks;
use std::cmp::Ordering::{Equal, Greater, Less};
use vortex_stats::IntersectionResult::{Empty, Value};
use vortex_stats::Precision::{Exact, Inexact};
use vortex_stats::{LowerBound, Precision, StatBound, UpperBound};

pub fn run(checks: &mut Checks<'_>) {
    let upper = |known: Precision<i32>| UpperBound::lift(known);
    let lower = |known: Precision<i32>| LowerBound::lift(known);
    let (exact, inexact) = (upper(Exact(10)), upper(Inexact(10)));
    let orders = [
        exact.partial_cmp_value(&9) == Some(Greater),
        exact.partial_cmp_value(&10) == Some(Equal),
        inexact.partial_cmp_value(&11) == Some(Less),
        inexact.partial_cmp_value(&9) == None,
    ];
    checks.holds("test_upper_bound_cmp", orders == [true; 4]);
    checks.holds("test_upper_bound_cmp", exact.eq_value(&10) && !inexact.eq_value(&10));
    for (left, right) in [
        (Exact(10), Exact(12)),
        (Inexact(10), Exact(12)),
        (Exact(10), Inexact(12)),
        (Inexact(10), Inexact(12)),
    ] {
        let union = upper(left).union(upper(right));
        checks.holds("test_upper_bound_union", union == Some(upper(right)));
    }
    let common = upper(Exact(10)).intersection(upper(Inexact(12)));
    checks.holds("test_upper_bound_intersection", common == Some(Value(upper(Exact(10)))));
    let none = upper(Exact(13)).intersection(upper(Inexact(12)));
    checks.holds("test_upper_bound_intersection", none == Some(Empty));
    let common = lower(Exact(12)).intersection(lower(Inexact(10)));
    checks.holds("test_lower_bound_intersection", common == Some(Value(lower(Exact(12)))));
    let none = lower(Exact(12)).intersection(lower(Inexact(13)));
    checks.holds("test_lower_bound_intersection", none == Some(Empty));
}
