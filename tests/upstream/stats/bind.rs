//! `bind_stats`, to a binder that answers the column of a table of statistics.

use crate::Done;
use crate::binder::Binder;
use crate::checks::Checks;
use crate::trees::{WITHOUT, floats, is_told, record};
use crate::words::{bound, dtype};
use std::alloc::Global;
use vortex_stats::{AggregateFn, bind_stats};

/// Names of tests, expressions, whether the counts of NaN are bound, what is left, and its type.
const LEFT: [(&str, &str, bool, &str, &str); 5] = [
    ("nan_count_binds_to_direct_stat_slot", "nan_count f", true, "f_nan_count", "u64"),
    ("all_non_nan_does_not_derive_from_nan_count", "all_non_nan f", true, "null", "bool?"),
    (MISSING, "and false all_non_nan f", false, "(false AND null)", "bool?"),
    (MISSING, "or true all_non_nan f", false, "(true OR null)", "bool?"),
    ("unrelated_expressions_are_preserved", "is_null f", false, "is_null f", "bool?"),
];

const MISSING: &str = "missing_stats_bind_to_null_without_reducing";

pub fn run(alloc: Global, checks: &mut Checks<'_>) -> Done {
    let input_scope = record(alloc, ["f"], [floats(WITHOUT)])?;
    let stats_scope = record(alloc, ["f_nan_count"], [dtype("u64")])?;
    for (name, text, bind_nan_count, told, of) in LEFT {
        let mut binder = Binder { known: Vec::new(alloc) };
        if bind_nan_count {
            let counts = bound(alloc, "f_nan_count", &stats_scope)?;
            binder.known.push((AggregateFn::NanCount, counts))?;
        }
        let left = bind_stats(alloc, &bound(alloc, text, &input_scope)?, &binder)?;
        checks.holds(name, left.dtype()? == dtype(of));
        checks.holds(name, is_told(alloc, &Some(left), told)?);
    }
    Ok(())
}
