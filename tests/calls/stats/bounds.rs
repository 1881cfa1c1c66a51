//! `Precision`, also as a bound, `LowerBound`, `UpperBound`, `IntersectionResult`, and `BoundOrd`.

use crate::checks::Checks;
use crate::refusing::{refuse_all, took_none};
use crate::values::{WITH, WITHOUT, Done, number, numbers, typed};
use crate::words::{known, row};
use std::alloc::{AllocError, Global};
use std::cmp::Ordering;
use std::cmp::Ordering::{Equal, Greater, Less};
use vortex_dtype::{BufferString, DType};
use vortex_scalar::{Scalar, ScalarError};
use vortex_stats::{BoundOrd, IntersectionResult, LowerBound, Min, Precision, StatBound, UpperBound};
use vortex_stats::IntersectionResult::{Empty, Value};
use vortex_stats::Precision::{Absent, Exact, Inexact};

/// What is known: its exact value, its inexact one, and its value.
const READ: [(Precision<i32>, Option<i32>, Option<i32>, Option<i32>); 3] = [
    (Exact(7), Some(7), None, Some(7)),
    (Inexact(8), None, Some(8), Some(8)),
    (Absent, None, None, None),
];

/// What is known: whether it is above 7, its half where that is whole, and the same inexactly.
const CHANGED: [(Precision<i32>, Precision<bool>, Precision<i32>, Precision<i32>); 5] = [
    (Exact(8), Exact(true), Exact(4), Inexact(8)),
    (Inexact(8), Inexact(true), Inexact(4), Inexact(8)),
    (Exact(7), Exact(false), Absent, Inexact(7)),
    (Inexact(7), Inexact(false), Absent, Inexact(7)),
    (Absent, Absent, Absent, Absent),
];

/// What is known of two values, and of both.
const ZIPPED: [(Precision<i32>, Precision<bool>, Precision<(i32, bool)>); 9] = [
    (Exact(7), Exact(true), Exact((7, true))),
    (Exact(7), Inexact(true), Inexact((7, true))),
    (Inexact(7), Exact(true), Inexact((7, true))),
    (Inexact(7), Inexact(true), Inexact((7, true))),
    (Exact(7), Absent, Absent),
    (Inexact(7), Absent, Absent),
    (Absent, Exact(true), Absent),
    (Absent, Inexact(true), Absent),
    (Absent, Absent, Absent),
];

pub fn precisions(alloc: Global, checks: &mut Checks<'_>) -> Done {
    read(checks);
    refuse_all(alloc, checks);
    changed(checks);
    took_none(alloc, checks, "map and zip take no memory");
    made(alloc, checks)
}

fn read(checks: &mut Checks<'_>) {
    for (i, (known, exact, inexact, value)) in READ.into_iter().enumerate() {
        checks.holds_at("is_exact", i, known.is_exact() == exact.is_some());
        checks.holds_at("is_absent", i, known.is_absent() == value.is_none());
        checks.holds_at("as_exact", i, known.as_exact() == exact);
        checks.holds_at("as_inexact", i, known.as_inexact() == inexact);
        checks.holds_at("into_inner", i, known.into_inner() == value);
        checks.holds_at("eq_value", i, known.eq_value(&7) == exact.is_some());
        checks.holds_at("eq_value of another", i, !known.eq_value(&8) && !known.eq_value(&0));
        checks.holds_at("as_ref", i, known.as_ref().map(|value| *value) == known);
    }
}

fn half(value: i32) -> Option<i32> {
    if value % 2 == 0 { Some(value / 2) } else { None }
}

fn changed(checks: &mut Checks<'_>) {
    for (i, (known, is_above, halved, inexact)) in CHANGED.into_iter().enumerate() {
        checks.holds_at("map", i, known.map(|value| value > 7) == is_above);
        checks.holds_at("and_then", i, known.and_then(half) == halved);
        checks.holds_at("to_inexact", i, known.to_inexact() == inexact);
        checks.holds_at("into_inexact", i, known.into_inexact() == inexact);
    }
    for (i, (left, right, wanted)) in ZIPPED.into_iter().enumerate() {
        checks.holds_at("zip", i, left.zip(right) == wanted);
    }
}

/// Precisions that are made of values and of results, printed and copied.
fn made(alloc: Global, checks: &mut Checks<'_>) -> Done {
    let exact: Precision<i32> = Precision::exact(7i16);
    let inexact: Precision<i32> = Precision::inexact(7i16);
    let absent: Precision<i32> = Precision::default();
    let are_made = exact == Exact(7) && inexact == Inexact(7) && absent == Absent;
    checks.holds("exact, inexact and default", are_made);
    checks.holds("others", exact != inexact && exact != Exact(8));
    let rows: [(Precision<Result<i32, u8>>, Result<Precision<i32>, u8>); 5] = [
        (Exact(Ok(7)), Ok(Exact(7))),
        (Inexact(Ok(7)), Ok(Inexact(7))),
        (Absent, Ok(Absent)),
        (Exact(Err(3)), Err(3)),
        (Inexact(Err(4)), Err(4)),
    ];
    for (i, (known, wanted)) in rows.into_iter().enumerate() {
        checks.holds_at("transpose", i, known.transpose() == wanted);
    }
    let shown = format!(in alloc; "{exact} {inexact} {absent}")?;
    checks.holds("to text", shown.as_str() == "7 ~7 {empty}");
    let shown = format!(in alloc; "{exact:?} {inexact:?} {absent:?}")?;
    checks.holds("for programmers", shown.as_str() == "Exact(7) Inexact(7) Absent");
    let copy = exact;
    checks.holds("copies", copy == exact && inexact.clone()? == inexact);
    Ok(())
}

type Known = Precision<i64>;

/// What two sides know, and then the union and the intersection of both: as values, as lower bounds
/// and as upper bounds. An empty intersection is `{}`, and `-` where there is neither.
const BOTH: [&str; 16] = [
    "10 10      10 10      10 10      10 10",
    "12 12      12 12      12 12      12 12",
    "10 12      10 {}      10 {}      12 {}",
    "12 10      10 {}      10 {}      12 {}",
    "10 ~12     ~10 ~10    10 {}      ~12 10",
    "12 ~10     ~10 12     ~10 12     12 {}",
    "12 ~12     ~12 12     12 12      12 12",
    "~10 12     ~10 12     ~10 12     12 {}",
    "~12 10     ~10 ~10    10 {}      ~12 10",
    "~12 12     ~12 12     12 12      12 12",
    "~12 ~12    ~12 ~12    ~12 ~12    ~12 ~12",
    "~10 ~12    ~10 ~10    ~10 ~12    ~12 ~10",
    "~12 ~10    ~10 ~10    ~10 ~12    ~12 ~10",
    "12 ?       - {}       - -        - -",
    "? ~12      - {}       - -        - -",
    "? ?        - {}       - -        - -",
];

/// What is known and a value: the order to it of a lower and of an upper bound.
const ORDERS: [(Known, i64, Option<Ordering>, Option<Ordering>); 7] = [
    (Exact(5), 4, Some(Greater), Some(Greater)),
    (Exact(5), 5, Some(Equal), Some(Equal)),
    (Exact(5), 6, Some(Less), Some(Less)),
    (Inexact(5), 4, Some(Greater), None),
    (Inexact(5), 5, Some(Equal), Some(Equal)),
    (Inexact(5), 6, None, Some(Less)),
    (Absent, 5, None, None),
];

pub fn bounds(checks: &mut Checks<'_>) {
    for (i, text) in BOTH.into_iter().enumerate() {
        let words: [&str; 8] = row(text);
        let sides = (known(words[0]), known(words[1]));
        of_both::<Known>(checks, i, sides, &words[2..4]);
        of_both::<LowerBound<i64>>(checks, i, sides, &words[4..6]);
        of_both::<UpperBound<i64>>(checks, i, sides, &words[6..]);
    }
    for (i, (known, value, lower, upper)) in ORDERS.into_iter().enumerate() {
        let (low, high) = (LowerBound::lift(known), UpperBound::lift(known));
        checks.holds_at("a lower bound", i, low.partial_cmp_value(&value) == lower);
        checks.holds_at("an upper bound", i, high.partial_cmp_value(&value) == upper);
        let is_equal = known == Exact(value);
        checks.holds_at("eq_value of a lower bound", i, low.eq_value(&value) == is_equal);
        checks.holds_at("eq_value of an upper bound", i, high.eq_value(&value) == is_equal);
        checks.holds_at("is_exact", i, low.is_exact() == known.is_exact());
    }
    for known in [Exact(5), Inexact(5), Absent] {
        lifted_back::<Known>(checks, known);
        lifted_back::<LowerBound<i64>>(checks, known);
        lifted_back::<UpperBound<i64>>(checks, known);
        let low = known.bound::<Min>().map(|low| low.into_value());
        checks.holds("bound", low == if known == Absent { None } else { Some(known) });
    }
    results(checks);
}

/// What is known of both by a bound, and none inside where that is empty.
type Common = Option<Option<Known>>;

fn wanted(word: &str) -> Common {
    match word {
        "-" => None,
        "{}" => Some(None),
        _ => Some(Some(known(word).map(|number| number as i64))),
    }
}

fn of_both<B: StatBound<i64>>(
    checks: &mut Checks<'_>,
    number: usize,
    (left, right): (Precision<i128>, Precision<i128>),
    words: &[&str],
) {
    let lifted = |side: Precision<i128>| B::lift(side.map(|number| number as i64));
    let union: Common = lifted(left).union(lifted(right)).map(|both| Some(both.into_value()));
    checks.holds_at("a union", number, union == wanted(words[0]));
    let common: Common = lifted(left).intersection(lifted(right)).map(|common| match common {
        Value(common) => Some(common.into_value()),
        Empty => None,
    });
    checks.holds_at("an intersection", number, common == wanted(words[1]));
}

fn lifted_back<B: StatBound<i64> + Drop>(checks: &mut Checks<'_>, known: Known) {
    checks.holds("to_exact", B::lift(known).to_exact().copied() == known.as_exact());
    checks.holds("into_value", B::lift(known).into_value() == known);
}

fn results(checks: &mut Checks<'_>) {
    let there: IntersectionResult<i32> = Value(7);
    checks.holds("ok_or_else of a value", there.ok_or_else(|| 3u8) == Ok(7));
    let empty: IntersectionResult<i32> = Empty;
    checks.holds("ok_or_else of none", empty.ok_or_else(|| 3u8) == Err(3));
    let low = |known: Known| LowerBound::lift(known);
    let are_told_apart = low(Exact(5)) == low(Exact(5)) && low(Exact(5)) != low(Inexact(5));
    checks.holds("lower bounds", are_told_apart);
    let high = |known: Known| UpperBound::lift(known);
    let are_told_apart = high(Exact(5)) == high(Exact(5)) && high(Exact(5)) != high(Inexact(5));
    checks.holds("upper bounds", are_told_apart);
    let common = low(Exact(12)).intersection(low(Inexact(10)));
    checks.holds("an intersection as it is", common == Some(Value(low(Exact(12)))));
}

pub fn orders(alloc: Global, checks: &mut Checks<'_>) -> Done {
    native(checks);
    let sides = |wanted: i16| (Scalar::from(4i16), Scalar::from(3i16), Scalar::from(wanted));
    united(checks, "bounds by numbers", sides(3), sides(4));
    let bound = LowerBound::lift(Exact(Scalar::from(Some(4i16))));
    checks.holds("a nullable scalar is equal", bound.eq_value(&Scalar::from(4i16)));
    let order = bound.partial_cmp_value(&Scalar::from(3i16));
    checks.holds("and compares", order == Some(Greater));
    texts(alloc, checks)?;
    compared(alloc, checks)
}

fn native(checks: &mut Checks<'_>) {
    let (bits, bytes) = (false.bound_cmp(&true), 200u8.bound_cmp(&100));
    checks.holds("booleans and u8", bits == Some(Less) && bytes == Some(Greater));
    let (short, long) = (7u16.bound_cmp(&7), 1u32.bound_cmp(&u32::MAX));
    checks.holds("u16 and u32", short == Some(Equal) && long == Some(Less));
    let (most, least) = (u64::MAX.bound_cmp(&0), i64::MIN.bound_cmp(&i64::MAX));
    checks.holds("u64 and i64", most == Some(Greater) && least == Some(Less));
    let (small, short) = ((-1i8).bound_cmp(&1), (-1i16).bound_cmp(&-2));
    checks.holds("i8 and i16", small == Some(Less) && short == Some(Greater));
    checks.holds("i32", i32::MIN.bound_cmp(&i32::MIN) == Some(Equal));
}

/// A greater value, which is exact, a lesser one, which isn't, and that of the union.
type Scalars = (Scalar, Scalar, Scalar);

fn united(checks: &mut Checks<'_>, name: &str, lower: Scalars, upper: Scalars) {
    let (more, less, wanted) = lower;
    let union = LowerBound::lift(Exact(more)).union(LowerBound::lift(Inexact(less)));
    checks.holds_at(name, 0, union == Some(LowerBound::lift(Inexact(wanted))));
    let (more, less, wanted) = upper;
    let union = UpperBound::lift(Exact(more)).union(UpperBound::lift(Inexact(less)));
    checks.holds_at(name, 1, union == Some(UpperBound::lift(Exact(wanted))));
}

/// Bounds, zips and maps of texts that own memory take none.
fn texts(alloc: Global, checks: &mut Checks<'_>) -> Done {
    let text = |text: &str| -> Result<Scalar, AllocError> {
        Ok(Scalar::from(BufferString::copy_from_str(alloc, text)?))
    };
    let lower = (text("b")?, text("a")?, text("a")?);
    let upper = (text("d")?, text("c")?, text("d")?);
    let (e, f, both) = (text("e")?, text("f")?, text("f")?);
    let (g, h, first) = (text("g")?, text("h")?, text("g")?);
    refuse_all(alloc, checks);
    united(checks, "bounds by texts", lower, upper);
    let found = LowerBound::lift(Exact(f)).intersection(LowerBound::lift(Inexact(e)));
    let wanted = IntersectionResult::Value(LowerBound::lift(Exact(both)));
    checks.holds("an intersection by texts", found == Some(wanted));
    let zipped = Exact(g).zip(Inexact(h));
    checks.holds("a zip of texts", zipped.map(|(left, _)| left) == Inexact(first));
    took_none(alloc, checks, "bounds, zips and maps of texts take no memory");
    Ok(())
}

/// Scalars of two types and two variants don't compare, and null is least.
fn compared(alloc: Global, checks: &mut Checks<'_>) -> Done {
    let variant = || -> Result<Scalar, ScalarError> {
        Scalar::try_new(DType::Variant(WITH), typed(alloc, numbers(WITHOUT), number(4))?)
    };
    let (four, wide) = (|| Scalar::from(4i16), || Scalar::from(4i32));
    let rows = [
        (Scalar::from(3i16), four(), Some(Less)),
        (Scalar::null(numbers(WITH)), Scalar::from(-4i16), Some(Less)),
        (four(), wide(), None),
        (variant()?, variant()?, None),
        (Scalar::null(DType::Variant(WITH)), variant()?, Some(Less)),
        (Scalar::null(DType::Variant(WITH)), Scalar::null(DType::Variant(WITH)), Some(Equal)),
    ];
    for (i, (left, right, wanted)) in rows.iter().enumerate() {
        checks.holds_at("bound_cmp of scalars", i, left.bound_cmp(right) == *wanted);
    }
    let union = LowerBound::lift(Exact(four())).union(LowerBound::lift(Exact(wide())));
    checks.holds("a union of other types", union == None);
    let found = UpperBound::lift(Exact(four())).intersection(UpperBound::lift(Exact(wide())));
    checks.holds("an intersection of other types", found == None);
    checks.holds("one of no bounds", Exact(four()).intersection(Exact(wide())) == None);
    let (one, other) = (UpperBound::lift(Exact(variant()?)), UpperBound::lift(Exact(variant()?)));
    checks.holds("a union of variants", one.union(other) == None);
    Ok(())
}
