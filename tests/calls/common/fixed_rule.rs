//! A rewrite rule that gives one answer.

use crate::words::bound;
use std::alloc::Global;
use vortex_dtype::{DType, Nullability, PType};
use vortex_stats::{BoundExpression, ScalarFnId, StatsError, StatsRewriteRule};

/// What the rule answers: an error, or a proof over rows of which the first column is an i32 `a`.
#[derive(Clone, Copy, Drop)]
pub enum Answer {
    Error(StatsError),
    Number,
    /// A column that stands in no placeholder.
    Column,
    /// A LIKE whose pattern has a backslash.
    Backslash,
    False,
    Null,
    True,
}

impl Answer {
    fn give(self, alloc: Global) -> Result<Option<BoundExpression>, StatsError> {
        let text = match self {
            Answer::Error(error) => return Err(error),
            Answer::Number => "7",
            Answer::Column => "= a 7",
            Answer::Backslash => "like 'a' '\\a'",
            Answer::False => "false",
            Answer::Null => "null:bool?",
            Answer::True => "true",
        };
        let number = DType::Primitive(PType::I32, Nullability::NonNullable);
        let dtype = DType::struct_(alloc, &[("a", number)], Nullability::NonNullable)?;
        Ok(Some(bound(alloc, text, &dtype)?))
    }
}

/// A rule for NOT that keeps no law: it gives the answer to `satisfy` alone, or to both calls.
#[derive(Clone, Copy, Drop)]
pub struct FixedRule {
    pub answer: Answer,
    pub to_satisfy_alone: bool,
}

impl FixedRule {
    /// A rule that gives both calls this answer.
    pub fn new(answer: Answer) -> FixedRule {
        FixedRule { answer, to_satisfy_alone: false }
    }
}

// Nothing here is proved, so the ghost members say nothing.
impl StatsRewriteRule for FixedRule {
    ghost use Rattle.vortex_stats_rules.specs.Not.{never_is_sound};

    ghost meaning = { λ _. never_is_sound };

    fn scalar_fn_id(&self) -> ScalarFnId {
        ScalarFnId::Not
    }

    fn falsify(
        &self,
        alloc: Global,
        _expr: &BoundExpression,
    ) -> Result<Option<BoundExpression>, StatsError> {
        if self.to_satisfy_alone { Ok(None) } else { self.answer.give(alloc) }
    }

    fn satisfy(
        &self,
        alloc: Global,
        _expr: &BoundExpression,
    ) -> Result<Option<BoundExpression>, StatsError> {
        self.answer.give(alloc)
    }
}
