//! Cases that are written as words: what is known of a statistic, and expressions, whose operators
//! stand before their operands, as `and > a 5 is_null b`.

use std::alloc::{AllocError, Global};
use vortex_dtype::{BufferString, DType, Nullability, PType};
use vortex_scalar::Scalar;
use vortex_stats::Precision::{Absent, Exact, Inexact};
use vortex_stats::{
    AggregateFn, BetweenOptions, BoundExpression, Expression, LikeOptions, Precision, StatsError,
    StrictComparison, all_nan, all_non_nan, all_non_null, all_null, and, between, bind, column,
    column_at, eq, gt, gt_eq, is_nan, is_not_null, is_null, like, lit, lt, lt_eq, min_max,
    nan_count, not, not_eq, null_count, or, root, row_count, stat, sum,
};

/// An expression, where there is memory for it.
type Read = Result<Expression, AllocError>;

/// The words of a row, which has no more than these.
pub fn row<const N: usize>(text: &'static str) -> [&'static str; N] {
    let mut words = [""; N];
    for (place, word) in words.iter_mut().zip(text.split_whitespace()) {
        *place = word;
    }
    words
}

/// What is known: a number that is exact, or inexact behind `~`, and nothing for any other word.
pub fn known(word: &str) -> Precision<i128> {
    match word.strip_prefix("~") {
        Some(digits) => number(digits).map_or(Absent, Inexact),
        None => number(word).map_or(Absent, Exact),
    }
}

fn number(word: &str) -> Option<i128> {
    match (word.parse::<i64>(), word.parse::<u64>()) {
        (Ok(number), _) => Some(number as i128),
        (_, Ok(number)) => Some(number as i128),
        _ => None,
    }
}

/// The type of this name, nullable where `?` is behind it.
pub fn dtype(name: &str) -> DType {
    let (name, nullability) = match name.strip_suffix("?") {
        Some(name) => (name, Nullability::Nullable),
        None => (name, Nullability::NonNullable),
    };
    match name {
        "null" => DType::Null,
        "bool" => DType::Bool(nullability),
        "utf8" => DType::Utf8(nullability),
        "binary" => DType::Binary(nullability),
        "u8" => DType::Primitive(PType::U8, nullability),
        "u32" => DType::Primitive(PType::U32, nullability),
        "u64" => DType::Primitive(PType::U64, nullability),
        "i32" => DType::Primitive(PType::I32, nullability),
        "i64" => DType::Primitive(PType::I64, nullability),
        "f32" => DType::Primitive(PType::F32, nullability),
        "f64" => DType::Primitive(PType::F64, nullability),
        _ => DType::Variant(nullability),
    }
}

/// Records, none of which is null, of these columns, as `a:i32 b:u8?`.
pub fn record_of(alloc: Global, text: &str) -> Result<DType, AllocError> {
    let mut fields = Vec::new(alloc);
    for word in text.split_whitespace() {
        let (name, of) = word.split_once(":").unwrap_or((word, ""));
        fields.push((name, dtype(of)))?;
    }
    DType::struct_(alloc, &fields, Nullability::NonNullable)
}

/// The expression of these words, over rows of the type.
pub fn bound(alloc: Global, text: &str, dtype: &DType) -> Result<BoundExpression, StatsError> {
    bind(alloc, &expression(alloc, text)?, dtype)
}

/// The expression of these words.
pub fn expression(alloc: Global, text: &str) -> Read {
    let mut operands = Vec::new(alloc);
    for word in text.split_whitespace().rev() {
        let made = of_two(alloc, word, &mut operands)?;
        operands.push(made)?;
    }
    next(alloc, &mut operands)
}

/// The operand that comes next. One that is missing is a column that no rows have.
fn next(alloc: Global, operands: &mut Vec<Expression>) -> Read {
    match operands.pop() {
        Some(operand) => Ok(operand),
        None => column(alloc, "a missing operand"),
    }
}

/// The expression of this word with the operands behind it, where it takes two or three.
fn of_two(alloc: Global, word: &str, rest: &mut Vec<Expression>) -> Read {
    match word {
        "=" => eq(alloc, next(alloc, rest)?, next(alloc, rest)?),
        "!=" => not_eq(alloc, next(alloc, rest)?, next(alloc, rest)?),
        ">" => gt(alloc, next(alloc, rest)?, next(alloc, rest)?),
        ">=" => gt_eq(alloc, next(alloc, rest)?, next(alloc, rest)?),
        "<" => lt(alloc, next(alloc, rest)?, next(alloc, rest)?),
        "<=" => lt_eq(alloc, next(alloc, rest)?, next(alloc, rest)?),
        "and" => and(alloc, next(alloc, rest)?, next(alloc, rest)?),
        "or" => or(alloc, next(alloc, rest)?, next(alloc, rest)?),
        "like" | "not_like" | "ilike" => {
            let (negated, case_insensitive) = (word == "not_like", word == "ilike");
            let options = LikeOptions { negated, case_insensitive };
            like(alloc, next(alloc, rest)?, next(alloc, rest)?, options)
        }
        "between[]" | "between[)" | "between(]" | "between()" => {
            let strict = |is_strict: bool| {
                if is_strict { StrictComparison::Strict } else { StrictComparison::NonStrict }
            };
            let options = BetweenOptions {
                lower_strict: strict(word.starts_with("between(")),
                upper_strict: strict(word == "between[)" || word == "between()"),
            };
            let (value, lower) = (next(alloc, rest)?, next(alloc, rest)?);
            between(alloc, value, lower, next(alloc, rest)?, options)
        }
        _ => of_one(alloc, word, rest),
    }
}

/// The expression of this word with the operand behind it, where it takes one.
fn of_one(alloc: Global, word: &str, rest: &mut Vec<Expression>) -> Read {
    match word {
        "not" => not(alloc, next(alloc, rest)?),
        "is_null" => is_null(alloc, next(alloc, rest)?),
        "is_not_null" => is_not_null(alloc, next(alloc, rest)?),
        "is_nan" => is_nan(alloc, next(alloc, rest)?),
        "min" => stat(alloc, AggregateFn::Min, next(alloc, rest)?),
        "max" => stat(alloc, AggregateFn::Max, next(alloc, rest)?),
        "min_max" => min_max(alloc, next(alloc, rest)?),
        "sum" => sum(alloc, next(alloc, rest)?),
        "null_count" => null_count(alloc, next(alloc, rest)?),
        "nan_count" => nan_count(alloc, next(alloc, rest)?),
        "all_null" => all_null(alloc, next(alloc, rest)?),
        "all_non_null" => all_non_null(alloc, next(alloc, rest)?),
        "all_nan" => all_nan(alloc, next(alloc, rest)?),
        "all_non_nan" => all_non_nan(alloc, next(alloc, rest)?),
        _ => of_none(alloc, word),
    }
}

/// A boolean, a number, as `5` or `5u64`, a string in quotes, a null, as `null:i32?`, the number of
/// rows, the rows themselves, or else a column, as `a` or `a.b`.
fn of_none(alloc: Global, word: &str) -> Read {
    if let Some(text) = word.strip_prefix("'") {
        let text = BufferString::copy_from_str(alloc, text.strip_suffix("'").unwrap_or(text))?;
        return Ok(lit(Scalar::from(text)));
    }
    if let Ok(number) = word.parse::<i32>() {
        return Ok(lit(Scalar::from(number)));
    }
    if let Ok(count) = word.strip_suffix("u64").unwrap_or("").parse::<u64>() {
        return Ok(lit(Scalar::from(count)));
    }
    if let Some(name) = word.strip_prefix("null:") {
        return Ok(lit(Scalar::null(dtype(name))));
    }
    match word {
        "true" | "false" => Ok(lit(Scalar::from(word == "true"))),
        "rows" => Ok(row_count()),
        "." => Ok(root(alloc)),
        _ => match word.split_once(".") {
            Some((outer, inner)) => column_at(alloc, &[outer, inner]),
            None => column(alloc, word),
        },
    }
}
