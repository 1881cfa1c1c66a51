//! Types of columns, and how proofs are told: as texts, with each
//! operator in brackets and each number with its kind.

use std::alloc::{AllocError, Global};
use vortex_dtype::{DType, FieldNames, Nullability, PType, StructFields};
use vortex_scalar::{ScalarError, ScalarValue};
use vortex_stats::{AggregateFn, BoundExpression, BoundNode, Comparison, StatsError};

pub const WITH: Nullability = Nullability::Nullable;

pub const WITHOUT: Nullability = Nullability::NonNullable;

pub fn integers() -> DType {
    DType::Primitive(PType::I32, WITHOUT)
}

pub fn floats(nullability: Nullability) -> DType {
    DType::Primitive(PType::F32, nullability)
}

/// Want of memory, and anything else as a value that doesn't fit.
pub fn of_value(error: ScalarError) -> StatsError {
    match error {
        ScalarError::Memory => StatsError::Memory,
        _ => StatsError::InvalidStat,
    }
}

/// A record, nowhere null, of these fields.
pub fn record<const N: usize>(
    alloc: Global,
    names: [&str; N],
    dtypes: [DType; N],
) -> Result<DType, AllocError> {
    let names = FieldNames::from_names(alloc, &names)?;
    let fields = StructFields::new(names, Vec::from_array(alloc, dtypes)?)?;
    Ok(DType::Struct(fields, WITHOUT))
}

/// Whether the proof is told so, where nothing is told of none.
pub fn is_told(
    alloc: Global,
    proof: &Option<BoundExpression>,
    wanted: &str,
) -> Result<bool, StatsError> {
    let mut told = String::new(alloc);
    if let Some(proof) = proof {
        tell(&mut told, proof)?;
    }
    Ok(told.as_str() == wanted)
}

fn tell(out: &mut String, e: &BoundExpression) -> Result<(), AllocError> {
    match &e.node {
        BoundNode::Literal(value) => tell_value(out, value.value()),
        BoundNode::Column(column) => tell_path(out, &column.names),
        BoundNode::Compare(comparison, x, y) => tell_both(out, sign_of(*comparison), x, y),
        BoundNode::And(x, y) => tell_both(out, "AND", x, y),
        BoundNode::Or(x, y) => tell_both(out, "OR", x, y),
        BoundNode::Not(x) => tell_one(out, "not", x),
        BoundNode::IsNull(x) => tell_one(out, "is_null", x),
        BoundNode::IsNotNull(x) => tell_one(out, "is_not_null", x),
        BoundNode::IsNan(x) => tell_one(out, "is_nan", x),
        BoundNode::Between(_, _, _, _) => out.push_str("a BETWEEN"),
        BoundNode::Like(_, _, _) => out.push_str("a LIKE"),
        BoundNode::RowCount => out.push_str("rows"),
        BoundNode::Stat(aggregate, x, _) => tell_one(out, name_of(*aggregate), x),
    }
}

fn tell_both(
    out: &mut String,
    operator: &str,
    x: &BoundExpression,
    y: &BoundExpression,
) -> Result<(), AllocError> {
    out.push_str("(")?;
    tell(out, x)?;
    write!(out, " {operator} ")?;
    tell(out, y)?;
    out.push_str(")")
}

fn tell_one(out: &mut String, function: &str, x: &BoundExpression) -> Result<(), AllocError> {
    write!(out, "{function} ")?;
    tell(out, x)
}

fn tell_value(out: &mut String, value: Option<&ScalarValue>) -> Result<(), AllocError> {
    match value {
        None => out.push_str("null"),
        Some(ScalarValue::Bool(value)) => write!(out, "{value}"),
        Some(ScalarValue::Primitive(number)) => write!(out, "{}{}", number.get(), number.ptype()),
        Some(ScalarValue::Utf8(text)) => write!(out, "'{}'", text.as_str()),
        Some(_) => out.push_str("another value"),
    }
}

fn tell_path(out: &mut String, path: &FieldNames) -> Result<(), AllocError> {
    for (i, name) in path.iter().enumerate() {
        if i > 0 {
            out.push_str(".")?;
        }
        write!(out, "{name}")?;
    }
    Ok(())
}

fn sign_of(comparison: Comparison) -> &'static str {
    match comparison {
        Comparison::Eq => "=",
        Comparison::NotEq => "!=",
        Comparison::Gt => ">",
        Comparison::Gte => ">=",
        Comparison::Lt => "<",
        Comparison::Lte => "<=",
    }
}

fn name_of(aggregate: AggregateFn) -> &'static str {
    match aggregate {
        AggregateFn::Min => "min",
        AggregateFn::Max => "max",
        AggregateFn::Sum => "sum",
        AggregateFn::NullCount => "null_count",
        AggregateFn::NanCount => "nan_count",
        AggregateFn::UncompressedSizeInBytes => "size",
        AggregateFn::MinMax => "min_max",
        AggregateFn::AllNull => "all_null",
        AggregateFn::AllNonNull => "all_non_null",
        AggregateFn::AllNan => "all_nan",
        AggregateFn::AllNonNan => "all_non_nan",
    }
}
