//! `Stat`, `StatIter` and `StatsError`, the types of statistics, and statistics as bits.

use crate::Done;
use crate::checks::Checks;
use crate::words::{dtype, row};
use std::alloc::Global;
use std::cmp::Ordering::{Equal, Greater, Less};
use vortex_stats::{
    AggregateFn, PRUNING_STATS, Stat, StatsError, as_stat_bitset_bytes, stats_from_bitset_bytes,
    written_statistics_are_read,
};

/// Each statistic by its number, with its name and the aggregate function that computes it.
const STATS: [(Stat, &str, Option<AggregateFn>); 9] = [
    (Stat::IsConstant, "is_constant", None),
    (Stat::IsSorted, "is_sorted", None),
    (Stat::IsStrictSorted, "is_strict_sorted", None),
    (Stat::Max, "max", Some(AggregateFn::Max)),
    (Stat::Min, "min", Some(AggregateFn::Min)),
    (Stat::Sum, "sum", Some(AggregateFn::Sum)),
    (Stat::NullCount, "null_count", Some(AggregateFn::NullCount)),
    (Stat::UncompressedSizeInBytes, "uncompressed_size_in_bytes", SIZE),
    (Stat::NaNCount, "nan_count", Some(AggregateFn::NanCount)),
];

const SIZE: Option<AggregateFn> = Some(AggregateFn::UncompressedSizeInBytes);

/// Functions that compute no statistic.
const OTHERS: [AggregateFn; 5] = [
    AggregateFn::MinMax,
    AggregateFn::AllNull,
    AggregateFn::AllNonNull,
    AggregateFn::AllNan,
    AggregateFn::AllNonNan,
];

const REFUSALS: [(StatsError, u8, &str, &str); 4] = [
    (StatsError::Memory, 1, "Memory", "out of memory"),
    (StatsError::NoOverlap, 2, "NoOverlap", "two statistics of the same rows don't overlap"),
    (StatsError::NoSuchStat, 9, "NoSuchStat", "there is no such statistic"),
    (StatsError::InvalidStat, 10, "InvalidStat", "the stored value doesn't fit the statistic"),
];

/// The type of a column, and of its flags, counts of nulls and sizes, bounds, sums and
/// counts of NaN: `-` where it has none.
const TYPES: [&str; 6] = [
    "i32    bool u64 i32   i64? -",
    "u8?    bool u64 u8?   u64? -",
    "f64?   bool u64 f64?  f64? u64",
    "utf8?  bool u64 utf8? -    -",
    "bool   bool u64 bool  u64? -",
    "null   bool u64 -     -    -",
];

pub fn run(alloc: Global, checks: &mut Checks<'_>) -> Done {
    listed(alloc, checks)?;
    types(checks)?;
    written(alloc, checks)?;
    for (error, number, name, text) in REFUSALS {
        let is_told = error.number() == number && error.name() == name;
        checks.holds("the number and the name of a refusal", is_told);
        checks.holds("its text", format!(in alloc; "{error}")?.as_str() == text);
    }
    Ok(())
}

fn listed(alloc: Global, checks: &mut Checks<'_>) -> Done {
    let mut all = Stat::all();
    checks.holds("len of all", all.len() == 9);
    for (i, (stat, name, function)) in STATS.into_iter().enumerate() {
        checks.holds_at("a statistic of all", i, all.next() == Some(stat));
        let (left, number) = (8 - i, u8::from(stat));
        let are_left = all.len() == left && all.size_hint() == (left, Some(left));
        checks.holds_at("how many are left", i, are_left);
        let is_number = usize::from(number) == i && Stat::try_from(number) == Ok(stat);
        checks.holds_at("the number", i, is_number);
        let is_name = stat.name() == name && format!(in alloc; "{stat}")?.as_str() == name;
        checks.holds_at("the name", i, is_name);
        let is_of_order = stat == Stat::IsSorted || stat == Stat::IsStrictSorted;
        checks.holds_at("is_commutative", i, stat.is_commutative() != is_of_order);
        let is_value = stat == Stat::Max || stat == Stat::Min;
        checks.holds_at("of the column's type", i, stat.has_same_dtype_as_array() == is_value);
        checks.holds_at("aggregate_fn", i, stat.aggregate_fn() == function);
        let found = function.map(|function| Stat::from_aggregate_fn(&function));
        checks.holds_at("from_aggregate_fn", i, found == function.map(|_| Some(stat)));
    }
    checks.holds("the end of all", all.next() == None);
    for function in OTHERS {
        checks.holds("no statistic", Stat::from_aggregate_fn(&function) == None);
    }
    for number in [9, 255] {
        checks.holds("no such number", Stat::try_from(number) == Err(StatsError::NoSuchStat));
    }
    let orders = [
        Stat::IsConstant.cmp(&Stat::IsSorted),
        Stat::Min.cmp(&Stat::Max),
        Stat::Sum.cmp(&Stat::Sum),
    ];
    checks.holds("by number", orders == [Less, Greater, Equal]);
    checks.holds("partial_cmp", Stat::Sum.partial_cmp(&Stat::NaNCount) == Some(Less));
    Ok(())
}

fn types(checks: &mut Checks<'_>) -> Done {
    for text in TYPES {
        let [column, flag, count, bound, sum, nans]: [&str; 6] = row(text);
        for (stat, _, _) in STATS {
            let wanted = match stat {
                Stat::IsConstant | Stat::IsSorted | Stat::IsStrictSorted => flag,
                Stat::Max | Stat::Min => bound,
                Stat::Sum => sum,
                Stat::NullCount | Stat::UncompressedSizeInBytes => count,
                Stat::NaNCount => nans,
            };
            let wanted = if wanted == "-" { None } else { Some(dtype(wanted)) };
            checks.holds(column, stat.dtype(&dtype(column))? == wanted);
        }
    }
    Ok(())
}

fn written(alloc: Global, checks: &mut Checks<'_>) -> Done {
    let rows: [(&[Stat], [u8; 2]); 7] = [
        (PRUNING_STATS, [0x78, 0x01]),
        (&[Stat::Max, Stat::Min], [0x18, 0x00]),
        (&[Stat::Min, Stat::Max], [0x18, 0x00]),
        (&[Stat::IsConstant], [0x01, 0x00]),
        (&[Stat::UncompressedSizeInBytes], [0x80, 0x00]),
        (&[Stat::NaNCount], [0x00, 0x01]),
        (&[], [0x00, 0x00]),
    ];
    for (i, (stats, wanted)) in rows.iter().enumerate() {
        let bytes = as_stat_bitset_bytes(alloc, stats)?;
        checks.holds_at("bits of statistics", i, bytes[..] == wanted[..]);
    }
    let rows: [(&[u8], &[Stat]); 7] = [
        (&[0x18, 0xff, 0xff], &[Stat::Max, Stat::Min, Stat::NaNCount]),
        (&[0x18, 0x00], &[Stat::Max, Stat::Min]),
        (&[0x18], &[Stat::Max, Stat::Min]),
        (&[0x07, 0xfe], &[Stat::IsConstant, Stat::IsSorted, Stat::IsStrictSorted]),
        (&[0xe0], &[Stat::Sum, Stat::NullCount, Stat::UncompressedSizeInBytes]),
        (&[0x00, 0x00], &[]),
        (&[], &[]),
    ];
    for (i, (bytes, wanted)) in rows.iter().enumerate() {
        let stats = stats_from_bitset_bytes(alloc, bytes)?;
        checks.holds_at("statistics of bits", i, stats[..] == wanted[..]);
    }
    let twice = [Stat::NaNCount, Stat::Max, Stat::NaNCount];
    let (bytes, stats) = written_statistics_are_read(alloc, &twice)?;
    let are_read = bytes[..] == [0x08, 0x01] && stats[..] == [Stat::Max, Stat::NaNCount];
    checks.holds("bits of a list, and what they are read as", are_read);
    Ok(())
}
