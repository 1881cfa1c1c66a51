//! A binder of placeholders to expressions.

use std::alloc::{AllocError, Global};
use vortex_dtype::DType;
use vortex_stats::{AggregateFn, BoundExpression, StatBinder, null_of};

/// What is known of the first column: of each of these statistics an expression, and of others
/// null.
#[derive(Drop)]
pub struct Binder {
    pub known: Vec<(AggregateFn, BoundExpression)>,
}

// Nothing here is proved, so the ghost member says nothing.
impl StatBinder for Binder {
    ghost use Rattle.std.specs.Prelude.{None};

    ghost answers = { λ _ _ _. None };

    fn bind_aggregate(
        &self,
        _alloc: Global,
        input: &BoundExpression,
        aggregate: AggregateFn,
        _stat_dtype: &DType,
    ) -> Result<Option<BoundExpression>, AllocError> {
        if input.as_column() == Some(&[0]) {
            for (known, expression) in self.known.iter() {
                if *known == aggregate {
                    return Ok(Some(expression.clone()?));
                }
            }
        }
        Ok(None)
    }

    fn missing_stat(&self, alloc: Global, dtype: &DType) -> Result<BoundExpression, AllocError> {
        null_of(alloc, dtype)
    }
}
