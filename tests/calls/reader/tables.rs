//! Footers of tables: a zone for each group, and what is read of their lines.

use crate::checks::Checks;
use crate::file::File;
use crate::lines::{of_table, of_text};
use crate::words::{expression, record_of};
use crate::zones::are;
use example_reader::footer::Footer;
use std::alloc::Global;
use vortex_stats::{Meter, StatsError};
use vortex_table::json::TextError;
use vortex_table::table::{Table, TableError};

/// A table with a chunk for each zone of the file.
fn table_of(alloc: Global, file: &File) -> Result<Table, TableError> {
    let dtype = &file.footer.dtype;
    let mut table = Table::create(alloc, dtype.clone()?, 16, &[])?;
    for rows in &file.zones {
        table.append(dtype, rows, &[])?;
    }
    Ok(table)
}

/// Counts the zones that are read for `> a 4`, by the footer of a table and by that of its lines.
fn reads(
    alloc: Global,
    checks: &mut Checks<'_>,
    table: &Table,
    (name, wanted): (&str, &str),
) -> Result<(), StatsError> {
    let first = Footer::of_table(alloc, table).map_err(of_table)?;
    let predicate = expression(alloc, "> a 4")?;
    let lines = first.to_lines(alloc).map_err(of_text)?;
    let again = Footer::read(alloc, &lines).map_err(of_table)?;
    for footer in [&first, &again] {
        checks.holds(name, footer.dtype == *table.dtype());
        let read = footer.zones_to_read(alloc, &predicate, &[], &mut Meter::new())?;
        checks.holds(name, are(&read, wanted));
        let same = footer.to_lines(alloc).map_err(of_text)?;
        checks.holds(name, same.as_slice() == lines.as_slice());
    }
    Ok(())
}

pub fn run(alloc: Global, checks: &mut Checks<'_>) -> Result<(), StatsError> {
    let file = File::new(alloc)?;
    let mut table = table_of(alloc, &file).map_err(of_table)?;
    // The bounds of a column of nulls alone aren't known.
    reads(alloc, checks, &table, ("groups of one chunk", "0111"))?;
    table.join(0).map_err(of_table)?;
    reads(alloc, checks, &table, ("a group of two", "111"))?;
    let none = Table::create(alloc, file.footer.dtype.clone()?, 16, &[]).map_err(of_table)?;
    reads(alloc, checks, &none, ("no rows", ""))
}

/// No lines are written where they couldn't be read: of zones of another type, but not of one that
/// differs in nullability.
pub fn refused_footers(alloc: Global, checks: &mut Checks<'_>) -> Result<(), StatsError> {
    let file = File::new(alloc)?;
    for (columns, is_refused) in [("a:i32 s:utf8?", false), ("s:utf8? a:i32", true)] {
        let dtype = record_of(alloc, columns)?;
        let footer = Footer { dtype, zones: file.footer.zones.clone()? };
        let found = match footer.to_lines(alloc) {
            Ok(_) => false,
            Err(TextError::NoText) => true,
            Err(TextError::Memory) => return Err(StatsError::Memory),
        };
        checks.holds(columns, found == is_refused);
    }
    Ok(())
}
