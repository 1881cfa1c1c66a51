//! Partitions of a column of i32 by days, and what is known of them.

use crate::checks::Checks;
use example_catalogue::catalogue::Catalogue;
use example_catalogue::error::CatalogueError;
use std::alloc::Global;
use vortex_dtype::{DType, Nullability, PType};
use vortex_scalar::{PValue, ScalarValue};
use vortex_stats::Precision::{Absent, Exact, Inexact};
use vortex_stats::{Precision, Stat, StatsError, StatsSet};

/// The least value, the greatest and the null count.
pub type Known = [Precision<i128>; 3];

/// What is known of each of the days 1 to 5.
pub const DAYS: [Known; 5] = [
    [Exact(3), Exact(9), Exact(1)],
    [Exact(1), Exact(5), Exact(0)],
    [Inexact(1), Exact(7), Exact(2)],
    [Exact(2), Inexact(9), Inexact(4)],
    [Exact(8), Exact(8), Absent],
];

fn value(number: i128) -> ScalarValue {
    ScalarValue::Primitive(PValue::I32(number as i32))
}

fn count(number: i128) -> ScalarValue {
    ScalarValue::Primitive(PValue::U64(number as u64))
}

fn number_of(value: &ScalarValue) -> i128 {
    match value {
        ScalarValue::Primitive(number) => number.get(),
        _ => -1,
    }
}

/// Whether a set knows this.
pub fn is_known(set: &StatsSet, known: &Known) -> bool {
    let mut both = [Stat::Min, Stat::Max, Stat::NullCount].into_iter().zip(known.iter());
    both.all(|(stat, known)| set.get_ref(stat).map(number_of) == *known)
}

/// The set that knows this.
pub fn set_of(alloc: Global, known: &Known) -> Result<StatsSet, StatsError> {
    let [least, greatest, nulls] = *known;
    let mut set = StatsSet::empty(alloc);
    set.set(Stat::Min, least.map(value))?;
    set.set(Stat::Max, greatest.map(value))?;
    set.set(Stat::NullCount, nulls.map(count))?;
    Ok(set)
}

/// The catalogue of these days, added in this order.
pub fn catalogue_of(alloc: Global, days: &[u64]) -> Result<Catalogue, CatalogueError> {
    let dtype = DType::Primitive(PType::I32, Nullability::Nullable);
    let mut catalogue = Catalogue::new(alloc, dtype);
    for day in days {
        let set = set_of(alloc, &DAYS[*day as usize - 1])?;
        catalogue.add(*day, set)?;
    }
    Ok(catalogue)
}

/// Counts what a catalogue knows of the days from one to before another.
pub fn tells(
    alloc: Global,
    checks: &mut Checks<'_>,
    catalogue: &Catalogue,
    (name, days, wanted): (&str, (u64, u64), Known),
) -> Result<(), CatalogueError> {
    let set = catalogue.statistics(alloc, days.0, days.1)?;
    checks.holds(name, is_known(&set, &wanted));
    Ok(())
}

/// Whether the catalogue knows this of one day.
pub fn knows(catalogue: &Catalogue, day: u64, wanted: &Known) -> bool {
    catalogue.partition(day).is_some_and(|set| is_known(set, wanted))
}
