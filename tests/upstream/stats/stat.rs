//! `Stat`.

use crate::checks::Checks;
use vortex_stats::Stat;

pub fn run(checks: &mut Checks<'_>) {
    has_same_dtype_as_array(checks);
}

fn has_same_dtype_as_array(checks: &mut Checks<'_>) {
    for stat in Stat::all() {
        let wanted = matches!(stat, Stat::Min | Stat::Max);
        checks.holds("has_same_dtype_as_array", stat.has_same_dtype_as_array() == wanted);
    }
}
