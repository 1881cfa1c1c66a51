//! A reader of files with a table of zones: proofs are bound to its columns, and evaluated at its
//! rows, which are the zones.

use crate::binder::Binder;
use crate::checks::Checks;
use crate::expressions::{are, pairs, refusal, rows_alone, told};
use crate::make_arrays::{Done, array_of, plain, valid_where};
use crate::trees::{integers, record};
use crate::words::{bound, expression};
use std::alloc::Global;
use vortex_arrays::{ArrayRef, Validity};
use vortex_dtype::{DType, DTypeError};
use vortex_stats::laws::{bound_falsifier, bound_satisfier};
use vortex_stats::{AggregateFn, BoundExpression, Expression, Meter, StatsError, evaluate};

/// Three zones of 3, 4 and 2 rows. The first has values from 1 to 4 and no null, the second from 5
/// to 9 and a null, and the third only nulls.
fn table(alloc: Global) -> Result<ArrayRef, DTypeError> {
    let valid = || valid_where(alloc, &[true, true, false]);
    let least = array_of(alloc, &[1i32, 5, 0], valid()?)?;
    let greatest = array_of(alloc, &[4i32, 9, 0], valid()?)?;
    let (nulls, rows) = (plain(alloc, &[0u64, 1, 2])?, plain(alloc, &[3u64, 4, 2])?);
    let bounds = pairs(alloc, ["least", "greatest"], (least, greatest), Validity::NonNullable)?;
    let counts = pairs(alloc, ["nulls", "rows"], (nulls, rows), Validity::NonNullable)?;
    pairs(alloc, ["bounds", "counts"], (bounds, counts), Validity::NonNullable)
}

/// A reader: the type of its rows, and its table of zones.
#[derive(Drop)]
struct Reader {
    rows: DType,
    zones: ArrayRef,
}

impl Reader {
    /// The column at a path of the table.
    fn zone_column(&self, alloc: Global, path: &str) -> Result<BoundExpression, DTypeError> {
        told(bound(alloc, path, self.zones.dtype()))
    }

    /// The falsifier of a predicate and its satisfier, bound to the table's statistics of the
    /// column a, and where they are counted to the counts of rows.
    fn proofs(
        &self,
        alloc: Global,
        e: &Expression,
        are_counted: bool,
    ) -> Result<[Result<Option<BoundExpression>, StatsError>; 2], DTypeError> {
        let mut zones = Binder { known: Vec::new(alloc) };
        for (aggregate, path) in [
            (AggregateFn::Min, "bounds.least"),
            (AggregateFn::Max, "bounds.greatest"),
            (AggregateFn::NullCount, "counts.nulls"),
        ] {
            zones.known.push((aggregate, self.zone_column(alloc, path)?))?;
        }
        let counts = self.zone_column(alloc, "counts.rows")?;
        let (counts, mut meter) = (if are_counted { Some(&counts) } else { None }, Meter::new());
        Ok([
            bound_falsifier(alloc, e, &self.rows, &[], &zones, counts, &mut meter),
            bound_satisfier(alloc, e, &self.rows, &[], &zones, counts, &mut meter),
        ])
    }

    /// Whether these are the truths of the bound proof at the zones, or there is none, for `-`.
    fn are_at_zones(
        &self,
        alloc: Global,
        proof: Option<BoundExpression>,
        wanted: &str,
    ) -> Result<bool, DTypeError> {
        let Some(proof) = proof else {
            return Ok(wanted == "-");
        };
        let scope = rows_alone(alloc, &self.zones)?;
        let found = told(evaluate(alloc, &proof, &scope, &mut Meter::new()))?;
        Ok(are(found.as_slice(), wanted))
    }
}

/// Predicates, and the truths of their falsifiers and satisfiers at the zones. There are no zones
/// of the column b.
const PROOFS: [(&str, [&str; 2]); 5] = [
    ("> a 4", ["10?", "-"]),
    ("is_null a", ["1??", "??1"]),
    ("is_not_null a", ["??1", "1??"]),
    ("and > a 4 is_not_null a", ["1?1", "-"]),
    ("> b 4", ["???", "-"]),
];

pub fn run(alloc: Global, checks: &mut Checks<'_>) -> Done {
    let rows = record(alloc, ["a", "b"], [integers().as_nullable()?, integers().as_nullable()?])?;
    let reader = Reader { rows, zones: table(alloc)? };
    for (text, wanted) in PROOFS {
        let proofs = reader.proofs(alloc, &expression(alloc, text)?, true)?;
        for (proof, wanted) in proofs.into_iter().zip(wanted) {
            checks.holds(text, reader.are_at_zones(alloc, told(proof)?, wanted)?);
        }
    }
    // A predicate without a truth has no proof.
    let e = expression(alloc, "like 'a' 'a\\%'")?;
    for proof in reader.proofs(alloc, &e, false)? {
        checks.holds("no proof", refusal(proof)? == Some(StatsError::NotEvaluable));
    }
    Ok(())
}
