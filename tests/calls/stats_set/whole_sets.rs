//! `StatsSet`, also beside the type of its column.

use crate::Done;
use crate::checks::Checks;
use crate::sets::{has, is_known, pair, pairs, set_of, value};
use crate::trees::integers;
use crate::values::{is_of, is_same};
use crate::words::{dtype, row};
use std::alloc::Global;
use vortex_stats::Precision::Absent;
use vortex_stats::{Stat, StatsArray, StatsError, StatsSet};

pub fn run(alloc: Global, checks: &mut Checks<'_>) -> Done {
    made(alloc, checks)?;
    changed(alloc, checks)?;
    extended(alloc, checks)?;
    copied(alloc, checks)?;
    typed(alloc, checks)?;
    valid(alloc, checks)?;
    into_scalar(alloc, checks)
}

/// A set of two, which are set in turn.
fn max_and_min(alloc: Global) -> Result<StatsSet, StatsError> {
    let mut set = StatsSet::empty(alloc);
    for (stat, known) in pairs(alloc, "max 1 min ? max ~2")?.into_iter() {
        set.set(stat, known)?;
    }
    Ok(set)
}

fn made(alloc: Global, checks: &mut Checks<'_>) -> Done {
    let none = StatsSet::empty(alloc);
    let is_empty = none.is_empty() && none.len() == 0 && none.get(Stat::Sum)?.is_absent();
    checks.holds("empty", is_empty);
    let (stat, known) = pair(alloc, "sum", "3")?;
    let one = StatsSet::of(alloc, stat, known);
    checks.holds("of", has(alloc, &one, "sum 3")? && !one.is_empty());
    let mut values = StatsArray::new(alloc);
    values.push(pair(alloc, "nans", "?")?)?;
    values.push(pair(alloc, "max", "4")?)?;
    let set = StatsSet::new_unchecked(values);
    checks.holds("new_unchecked", has(alloc, &set, "nans ? max 4")?);
    let twice = StatsSet::try_from_iter(alloc, pairs(alloc, "max 1 min ? max ~2")?.into_iter())?;
    checks.holds("try_from_iter", has(alloc, &twice, "max ~2 min ?")?);
    Ok(())
}

fn changed(alloc: Global, checks: &mut Checks<'_>) -> Done {
    let mut set = max_and_min(alloc)?;
    checks.holds("set", has(alloc, &set, "max ~2 min ?")? && set.len() == 2);
    let (_, most) = pair(alloc, "max", "~2")?;
    checks.holds("get", is_known(&set.get(Stat::Max)?, &most));
    let lent = set.get_ref(Stat::Max).as_inexact();
    checks.holds("get_ref", is_same(lent, most.as_ref().as_inexact()));
    let none = [set.get(Stat::Min)?, set.get(Stat::Sum)?];
    checks.holds("get of absent ones", none.iter().all(|known| known.is_absent()));
    set.clear(Stat::Sum);
    checks.holds("clear of another", set.len() == 2);
    set.clear(Stat::Max);
    checks.holds("clear", has(alloc, &set, "min ?")?);
    set.set(Stat::Max, most)?;
    checks.holds("set after clear", has(alloc, &set, "min ? max ~2")?);
    set.retain_only(&[Stat::Min, Stat::Max, Stat::Sum]);
    checks.holds("retain_only all", set.len() == 2);
    set.retain_only(&[Stat::Min]);
    checks.holds("retain_only", has(alloc, &set, "min ?")?);
    set.retain_only(&[]);
    checks.holds("retain_only none", set.is_empty());
    Ok(())
}

/// Four statistics take no memory. Where there is none for a fifth, the four stay.
fn extended(alloc: Global, checks: &mut Checks<'_>) -> Done {
    let mut set = max_and_min(alloc)?;
    set.extend(set_of(alloc, "sum 6 min 7")?.into_iter())?;
    checks.holds("extend", has(alloc, &set, "max ~2 min 7 sum 6")?);
    let more = pairs(alloc, "max 0 min 1 max 2 sum 3 nulls 4 nans 5")?;
    let mut set = StatsSet::empty(alloc);
    let outcome = set.extend(more.into_iter());
    if outcome.is_err() {
        let stays = has(alloc, &set, "max 2 min 1 sum 3 nulls 4")?;
        checks.stays("what a refused extend leaves", stays);
        return outcome;
    }
    checks.holds("extend past four", has(alloc, &set, "max 2 min 1 sum 3 nulls 4 nans 5")?);
    checks.holds("in its place without memory", set.set(Stat::Max, Absent).is_ok());
    Ok(())
}

/// Pairs by value, and clones.
fn copied(alloc: Global, checks: &mut Checks<'_>) -> Done {
    let mut set = max_and_min(alloc)?;
    let copy = set.clone()?;
    set.clear(Stat::Max);
    let are_apart = has(alloc, &copy, "max ~2 min ?")? && has(alloc, &set, "min ?")?;
    checks.holds("clone", are_apart);
    let mut left = copy.into_iter();
    checks.holds("size_hint", left.size_hint() == (2, Some(2)));
    let (stat, most) = pair(alloc, "max", "~2")?;
    let is_most = left.next().is_some_and(|it| it.0 == stat && is_known(&it.1, &most));
    checks.holds("the first by value", is_most);
    let mut twin = left.clone()?;
    let is_least = left.next().is_some_and(|it| it.0 == Stat::Min && it.1.is_absent());
    checks.holds("the second by value", is_least && left.len() == 0 && left.next().is_none());
    checks.holds("a clone of what is left", twin.len() == 1 && twin.next().is_some());
    Ok(())
}

fn typed(alloc: Global, checks: &mut Checks<'_>) -> Done {
    let (mut set, dtype) = (set_of(alloc, "max 5 min ~3")?, integers());
    let typed = set.as_typed_ref(&dtype);
    let is_lent = has(alloc, typed.values, "max 5 min ~3")? && *typed.dtype == integers();
    checks.holds("as_typed_ref", is_lent);
    let mut typed = set.as_mut_typed_ref(&dtype);
    let is_lent = has(alloc, typed.values, "max 5 min ~3")? && *typed.dtype == integers();
    checks.holds("as_mut_typed_ref", is_lent);
    typed.set(Stat::Max, Absent)?;
    checks.holds("set in its place", has(alloc, typed.values, "max ? min ~3")?);
    typed.clear(Stat::Sum);
    checks.holds("clear of another", has(alloc, typed.values, "max ? min ~3")?);
    typed.clear(Stat::Max);
    checks.holds("clear", has(alloc, typed.values, "min ~3")?);
    checks.holds("the set itself", has(alloc, &set, "min ~3")?);
    let mut none = StatsSet::empty(alloc);
    let (mut typed, (stat, known)) = (none.as_mut_typed_ref(&dtype), pair(alloc, "max", "1")?);
    let outcome = typed.set(stat, known);
    if outcome.is_err() {
        checks.stays("what a refused set leaves", typed.values.is_empty());
        return outcome;
    }
    let (stat, known) = pair(alloc, "sorted", "1")?;
    typed.set(stat, known)?;
    checks.holds("set behind the others", has(alloc, &none, "max 1 sorted 1")?);
    Ok(())
}

/// A statistic, its value as one of another statistic, and whether that is valid for a type.
const VALUES: [&str; 28] = [
    "nans nulls 0 f64? yes", "nans nulls 0 i32 no", "nans sum 0 f64? no",
    "nulls nulls 0 null yes", "nulls sum 0 i32 no", "nulls sorted 1 i32 no",
    "size size 1 utf8? yes", "size max 1 i32 no", "constant sorted 1 null yes",
    "constant nulls 1 i32 no", "sorted sorted 0 utf8? yes", "sorted max 0 i32 no",
    "strict sorted 1 f64? yes", "strict max 'true' utf8? no", "max max 'a' utf8? yes",
    "max max 'a' binary? no", "max sorted 1 bool yes", "max max 1 null no",
    "min max 'a' utf8 yes", "min max 1 u8 no", "min max 1 f64? no", "sum nulls 1 u8 yes",
    "sum sum 1 u8 no", "sum nulls 1 bool yes", "sum max 1 i32 no", "sum nulls 1 i32 no",
    "sum nulls 1 utf8? no", "sum nulls 1 null no",
];

fn valid(alloc: Global, checks: &mut Checks<'_>) -> Done {
    let text = "constant 0 sorted 1 strict ~0 max 5 min ~3 sum 8 nulls 0 size 8 nans ?";
    let (all, none, absent) =
        (set_of(alloc, text)?, set_of(alloc, "")?, set_of(alloc, "max ? sum ?")?);
    for (i, name) in ["i32", "i32?", "i64", "u32", "utf8", "null"].into_iter().enumerate() {
        let of = dtype(name);
        checks.holds(name, all.is_valid_for(&of) == (i < 2));
        checks.holds(name, none.is_valid_for(&of) && absent.is_valid_for(&of));
    }
    for text in VALUES {
        let [stat, other, word, of, answer]: [&str; 5] = row(text);
        let (stat, known) = (pair(alloc, stat, "?")?.0, pair(alloc, other, word)?.1);
        let set = StatsSet::of(alloc, stat, known.into_inexact());
        checks.holds(text, set.is_valid_for(&dtype(of)) == (answer == "yes"));
    }
    Ok(())
}

/// Values as ones of a type: of which statistic, what is known, and types that have it and don't.
const SCALARS: [&str; 7] = [
    "max 3 i32? yes", "max ~'a' utf8 yes", "max ? null yes", "max 3 i64? no", "max ~'a' binary no",
    "sorted 1 null no", "max ~1 f32? no",
];

fn into_scalar(alloc: Global, checks: &mut Checks<'_>) -> Done {
    for text in SCALARS {
        let [name, word, of, answer]: [&str; 4] = row(text);
        let (_, known) = pair(alloc, name, word)?;
        let wanted = value(alloc, name, word.strip_prefix("~").unwrap_or(word))?;
        let is_exact = known.is_exact();
        match known.into_scalar(dtype(of)) {
            Err(StatsError::Memory) => return Err(StatsError::Memory),
            Err(error) => checks.holds(text, answer == "no" && error == StatsError::InvalidStat),
            Ok(found) => {
                let holds = found.is_exact() == is_exact && match found.into_inner() {
                    Some(scalar) => is_of(&scalar, &dtype(of), wanted.as_ref()),
                    None => wanted.is_none(),
                };
                checks.holds(text, answer == "yes" && holds);
            }
        }
    }
    Ok(())
}
