//! The columns of a table of zones as a source of statistics.

use crate::checks::Checks;
use crate::trees::{WITH, integers};
use example_reader::columns::{ZoneColumns, row_counts};
use std::alloc::Global;
use vortex_dtype::{DType, FieldNames, PType};
use vortex_stats::{AggregateFn, BoundColumn, BoundExpression, BoundNode, StatBinder, StatsError};

/// Aggregates, and the columns that have them of the column at 1, 4.
const AGGREGATES: [(AggregateFn, Option<[usize; 3]>); 5] = [
    (AggregateFn::Min, Some([1, 1, 4])),
    (AggregateFn::Max, Some([2, 1, 4])),
    (AggregateFn::NullCount, Some([3, 1, 4])),
    (AggregateFn::Sum, None),
    (AggregateFn::AllNull, None),
];

pub fn run(alloc: Global, checks: &mut Checks<'_>) -> Result<(), StatsError> {
    let counts = row_counts(alloc)?;
    checks.holds("row_counts", counts.as_column() == Some(&[0]));
    let (mut positions, source) = (Vec::new(alloc), ZoneColumns {});
    positions.extend_from_slice(&[1, 4])?;
    let column = BoundColumn { names: FieldNames::empty(alloc), positions, dtype: integers() };
    let input = BoundExpression { node: BoundNode::Column(column) };
    for (i, (aggregate, wanted)) in AGGREGATES.iter().enumerate() {
        let found = source.bind_aggregate(alloc, &input, *aggregate, &integers())?;
        let found = found.as_ref().and_then(|it| it.as_column());
        let is_so = found == wanted.as_ref().map(|it| it.as_slice());
        checks.holds_at("a column of the table", i, is_so);
    }
    let count = DType::Primitive(PType::U64, WITH);
    let found = source.bind_aggregate(alloc, &input, AggregateFn::NullCount, &count)?;
    let is_of_counts = match found {
        Some(column) => column.dtype()? == count,
        None => false,
    };
    checks.holds("its type", is_of_counts);
    let rows = BoundExpression { node: BoundNode::RowCount };
    let found = source.bind_aggregate(alloc, &rows, AggregateFn::Min, &count)?;
    checks.holds("of what is no column", found.is_none());
    let missing = source.missing_stat(alloc, &integers())?;
    let is_null = missing.as_literal().is_some_and(|it| it.value().is_none());
    checks.holds("missing_stat", is_null && missing.dtype()? == integers().as_nullable()?);
    Ok(())
}
