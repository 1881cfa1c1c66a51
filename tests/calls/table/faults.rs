//! The refusals of a table, types that it can't hold, and predicates that a scan refuses.

use crate::checks::Checks;
use crate::make::{Done, filled, predicate, scan, TWO_COLUMNS};
use crate::trees::{WITH, WITHOUT, floats};
use crate::words::{dtype, record_of};
use std::alloc::{AllocError, Global};
use vortex_dtype::DType;
use vortex_scalar::{Scalar, row};
use vortex_table::expr::lit;
use vortex_table::table::{Table, TableError};

/// Each refusal, its number, its name, and the index of what is at fault.
const REFUSALS: [(TableError, u8, &str, Option<usize>); 19] = [
    (TableError::Memory, 1, "Memory", None),
    (TableError::NotARecord, 2, "NotARecord", None),
    (TableError::UnkeptType, 3, "UnkeptType", None),
    (TableError::RepeatedName, 4, "RepeatedName", None),
    (TableError::InvalidValue(0), 5, "InvalidValue", Some(0)),
    (TableError::NotConvertible(7), 6, "NotConvertible", Some(7)),
    (TableError::Total, 7, "Total", None),
    (TableError::NoSuchGroup, 8, "NoSuchGroup", None),
    (TableError::UnknownPath(2), 9, "UnknownPath", Some(2)),
    (TableError::ElementStep(3), 10, "ElementStep", Some(3)),
    (TableError::Placeholder, 11, "Placeholder", None),
    (TableError::UnknownColumn, 12, "UnknownColumn", None),
    (TableError::NotALeaf, 13, "NotALeaf", None),
    (TableError::UnequalTypes, 14, "UnequalTypes", None),
    (TableError::NotBoolean, 15, "NotBoolean", None),
    (TableError::UnsupportedLike, 16, "UnsupportedLike", None),
    (TableError::RuleFault, 17, "RuleFault", None),
    (TableError::UnsupportedPredicate, 20, "UnsupportedPredicate", None),
    (TableError::RepeatedPath(usize::MAX), 21, "RepeatedPath", Some(usize::MAX)),
];

pub fn run(alloc: Global, checks: &mut Checks<'_>) -> Done {
    for (error, number, name, index) in REFUSALS {
        let is_told = error.number() == number && error.name() == name && error.index() == index;
        checks.holds(name, is_told);
    }
    checks.holds("from AllocError", TableError::from(AllocError) == TableError::Memory);
    types(alloc, checks)?;
    let table = filled(alloc)?;
    for (text, fault) in [
        ("= min a 1", TableError::Placeholder),
        ("and true 1", TableError::NotBoolean),
        ("> b 3", TableError::UnequalTypes),
    ] {
        let answer = scan(alloc, &table, &predicate(alloc, text)?);
        checks.refused(text, answer, fault)?;
    }
    let dtype = record_of(alloc, TWO_COLUMNS)?;
    let record = Scalar::new_unchecked(dtype, Some(row(alloc, (1i32, None::<u8>))?));
    let answer = scan(alloc, &table, &lit(record));
    checks.refused("a record", answer, TableError::UnsupportedPredicate)
}

/// Types of two faults: the one that comes first is told, a record's own names before its parts.
fn types(alloc: Global, checks: &mut Checks<'_>) -> Done {
    let twice = record_of(alloc, "q:i32 q:i32")?;
    let record = |names: [&str; 2], first: DType, second: DType| {
        DType::struct_(alloc, &[(names[0], first), (names[1], second)], WITHOUT)
    };
    let nested = record(["a", "p"], dtype("i32"), record_of(alloc, TWO_COLUMNS)?)?;
    let made = Table::create(alloc, nested, 16, &[])?;
    checks.holds("a record in a record", made.is_empty());
    for (name, made, fault) in [
        (
            "an unkept type, then repeated names",
            record(["a", "p"], floats(WITH), twice.clone()?)?,
            TableError::UnkeptType,
        ),
        (
            "repeated names, then an unkept type",
            record(["p", "a"], twice, floats(WITH))?,
            TableError::RepeatedName,
        ),
        (
            "repeated names around an unkept type",
            record(["a", "a"], floats(WITH), dtype("i32"))?,
            TableError::RepeatedName,
        ),
    ] {
        checks.refused(name, Table::create(alloc, made, 16, &[]), fault)?;
    }
    Ok(())
}
