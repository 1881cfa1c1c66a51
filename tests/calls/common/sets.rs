//! Sets of statistics that are written as words, as `max 5 min ~3 sum ?`: each statistic of numbers
//! with what is known of it. That is a value, exact or, behind `~`, inexact, or for any other word
//! nothing. A value is a number, of which 1 is true and 0 is false, a string in quotes, a sequence
//! as `[1,2]`, or a variant as `<1>`.

use crate::values::{is_same, number_of};
use crate::words::{dtype, known};
use std::alloc::Global;
use vortex_dtype::{BufferString, DType, PType};
use vortex_scalar::{ScalarValue, VariantValue};
use vortex_stats::Precision::{Absent, Exact, Inexact};
use vortex_stats::{Precision, Stat, StatsError, StatsSet};

/// A statistic with what is known of it.
pub type Pair = (Stat, Precision<ScalarValue>);

/// The statistic of this name, and the type of its numbers, of which booleans have none.
pub fn stat_of(name: &str) -> (Stat, Option<PType>) {
    match name {
        "constant" => (Stat::IsConstant, None),
        "sorted" => (Stat::IsSorted, None),
        "strict" => (Stat::IsStrictSorted, None),
        "max" => (Stat::Max, Some(PType::I32)),
        "min" => (Stat::Min, Some(PType::I32)),
        "sum" => (Stat::Sum, Some(PType::I64)),
        "unsigned_sum" => (Stat::Sum, Some(PType::U64)),
        "nulls" => (Stat::NullCount, Some(PType::U64)),
        "size" => (Stat::UncompressedSizeInBytes, Some(PType::U64)),
        _ => (Stat::NaNCount, Some(PType::U64)),
    }
}

/// The type of a column that has the statistic of this name.
pub fn dtype_of(name: &str) -> DType {
    match name {
        "nans" => dtype("f64?"),
        "unsigned_sum" => dtype("u8"),
        _ => dtype("i32"),
    }
}

/// The value of this word, as one of the statistic of this name.
pub fn value(alloc: Global, name: &str, word: &str) -> Result<Option<ScalarValue>, StatsError> {
    if let Some(text) = word.strip_prefix("'") {
        let text = BufferString::copy_from_str(alloc, text.strip_suffix("'").unwrap_or(text))?;
        return Ok(Some(ScalarValue::Utf8(text)));
    }
    if let Some(mut rest) = word.strip_prefix("[") {
        let mut items = Vec::new(alloc);
        while let Some((item, behind)) = rest.split_once(",").or(rest.split_once("]")) {
            items.push(value(alloc, "max", item)?)?;
            rest = behind;
        }
        return Ok(Some(ScalarValue::Tuple(items)));
    }
    if let Some(number) = word.strip_prefix("<") {
        let value = value(alloc, "max", number.strip_suffix(">").unwrap_or(number))?;
        let variant = VariantValue::new(dtype("i32"), value);
        return Ok(Some(ScalarValue::Variant(Box::new(alloc, variant)?)));
    }
    let (_, ptype) = stat_of(name);
    Ok(known(word).into_inner().map(|number| match ptype {
        Some(ptype) => ScalarValue::Primitive(number_of(ptype, number)),
        None => ScalarValue::Bool(number != 0),
    }))
}

/// The statistic of this name with what this word says of it.
pub fn pair(alloc: Global, name: &str, word: &str) -> Result<Pair, StatsError> {
    let (stat, _) = stat_of(name);
    let known = match word.strip_prefix("~") {
        Some(word) => value(alloc, name, word)?.map_or(Absent, Inexact),
        None => value(alloc, name, word)?.map_or(Absent, Exact),
    };
    Ok((stat, known))
}

/// These statistics, each as often as it is written.
pub fn pairs(alloc: Global, text: &str) -> Result<Vec<Pair>, StatsError> {
    let (mut pairs, mut words) = (Vec::new(alloc), text.split_whitespace());
    while let (Some(name), Some(word)) = (words.next(), words.next()) {
        pairs.push(pair(alloc, name, word)?)?;
    }
    Ok(pairs)
}

/// The set of these statistics, which are set in turn.
pub fn set_of(alloc: Global, text: &str) -> Result<StatsSet, StatsError> {
    StatsSet::try_from_iter(alloc, pairs(alloc, text)?.into_iter())
}

/// Whether the same is known, to the last kind of an integer.
pub fn is_known(found: &Precision<ScalarValue>, wanted: &Precision<ScalarValue>) -> bool {
    match (found, wanted) {
        (Exact(a), Exact(b)) => is_same(Some(a), Some(b)),
        (Inexact(a), Inexact(b)) => is_same(Some(a), Some(b)),
        (Absent, Absent) => true,
        _ => false,
    }
}

/// Whether these are the statistics of the set, in this order.
pub fn has(alloc: Global, set: &StatsSet, text: &str) -> Result<bool, StatsError> {
    let wanted = set_of(alloc, text)?;
    let alike = |(a, b): (&Pair, &Pair)| a.0 == b.0 && is_known(&a.1, &b.1);
    Ok(set.len() == wanted.len() && set.iter().zip(wanted.iter()).all(alike))
}

/// Whether the set has these statistics, and none of those of which nothing is said to be known.
pub fn knows(alloc: Global, set: &StatsSet, text: &str) -> Result<bool, StatsError> {
    let wanted = set_of(alloc, text)?;
    let is_there = |it: &Pair| match set.iter().find(|found| found.0 == it.0) {
        Some(found) => !it.1.is_absent() && is_known(&found.1, &it.1),
        None => it.1.is_absent(),
    };
    Ok(wanted.iter().all(is_there))
}
