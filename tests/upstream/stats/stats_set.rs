//! `StatsSet`. A number of a set is read as one of `i32`.

use crate::Done;
use crate::checks::Checks;
use crate::sets::{is_known, pair};
use std::alloc::Global;
use vortex_stats::{StatsArray, StatsError, StatsSet};

pub fn run(alloc: Global, checks: &mut Checks<'_>) -> Done {
    let wanted = [pair(alloc, "max", "100")?, pair(alloc, "min", "42")?];
    let set = max_and_min(alloc)?;
    let (mut lent, mut moved) = (set.iter(), max_and_min(alloc)?.into_iter());
    for (stat, known) in &wanted {
        let found = lent.next().is_some_and(|it| it.0 == *stat && is_known(&it.1, known));
        checks.holds("test_iter", found);
        let found = moved.next().is_some_and(|it| it.0 == *stat && is_known(&it.1, known));
        checks.holds("into_iter", found);
    }
    checks.holds("the end of test_iter", lent.next().is_none());
    checks.holds("the end of into_iter", moved.next().is_none());
    Ok(())
}

fn max_and_min(alloc: Global) -> Result<StatsSet, StatsError> {
    let mut values = StatsArray::new(alloc);
    values.push(pair(alloc, "max", "100")?)?;
    values.push(pair(alloc, "min", "42")?)?;
    Ok(StatsSet::new_unchecked(values))
}
