//! Footers in lines of JSON: what is read, and what is refused.

use crate::checks::Checks;
use crate::file::File;
use crate::words::expression;
use crate::zones::are;
use example_reader::footer::Footer;
use std::alloc::Global;
use vortex_stats::{Meter, StatsError};
use vortex_table::json::TextError;
use vortex_table::table::TableError;

/// The type of the file's rows, and each of its zones.
const LINES: &str = r#"{"kind":"struct","names":["a","s"],"children":[{"kind":"i32","nullable":true},{"kind":"utf8"}]}
[3,[1,"ant"],[4,"bee"],[0,0]]
[4,[5,"cat"],[9,"dog"],[1,0]]
[2,[null,"eel"],[null,"fox"],[2,0]]
[2,[null,"g"],[null,"i"],[null,0]]"#;

/// The lines that are written of the file's footer, which differ in the type message and in the LF
/// of the last.
const WRITTEN: &str = r#"{"children":[{"kind":"i32","nullable":true},{"kind":"utf8","nullable":false}],"kind":"struct","names":["a","s"],"nullable":false}
[3,[1,"ant"],[4,"bee"],[0,0]]
[4,[5,"cat"],[9,"dog"],[1,0]]
[2,[null,"eel"],[null,"fox"],[2,0]]
[2,[null,"g"],[null,"i"],[null,0]]
"#;

/// A type alone, which its LF ends.
const TYPE: &str = r#"{"kind":"struct","names":["a"],"children":[{"kind":"i32"}]}
"#;

const FLOATS: &str = r#"{"kind":"struct","names":["a"],"children":[{"kind":"f64"}]}"#;

const TWICE: &str =
    r#"{"kind":"struct","names":["a","a"],"children":[{"kind":"i32"},{"kind":"i32"}]}"#;

/// The first line of a footer, those of its zones, and the refusal.
const REFUSED: [(&str, &str, TableError); 10] = [
    ("", "", TableError::UnkeptType),
    ("{", "", TableError::UnkeptType),
    ("[1]", "", TableError::UnkeptType),
    (FLOATS, "", TableError::UnkeptType),
    (TWICE, "", TableError::RepeatedName),
    (TYPE, "[3,[1],[4],[0", TableError::InvalidValue(0)),
    (TYPE, "[3,[1],[4]]", TableError::InvalidValue(0)),
    (TYPE, "[null,[1],[4],[0]]", TableError::InvalidValue(0)),
    (TYPE, "[3,[\"x\"],[4],[0]]", TableError::InvalidValue(0)),
    // A negative count in the second zone.
    (TYPE, "[3,[1],[null],[0]]\n[3,[1],[4],[-1]]\n", TableError::InvalidValue(1)),
];

/// Want of memory, and anything else as statistics that don't fit.
pub fn of_table(error: TableError) -> StatsError {
    match error {
        TableError::Memory => StatsError::Memory,
        _ => StatsError::InvalidStat,
    }
}

/// Want of memory, and anything else as statistics that don't fit.
pub fn of_text(error: TextError) -> StatsError {
    match error {
        TextError::Memory => StatsError::Memory,
        TextError::NoText => StatsError::InvalidStat,
    }
}

pub fn read(alloc: Global, checks: &mut Checks<'_>) -> Result<(), StatsError> {
    let (file, footer) =
        (File::new(alloc)?, Footer::read(alloc, LINES.as_bytes()).map_err(of_table)?);
    checks.holds("type", footer.dtype == file.footer.dtype);
    checks.holds("zones", footer.zones.len() == 4);
    let predicate = expression(alloc, "> a 4")?;
    let read = footer.zones_to_read(alloc, &predicate, &[], &mut Meter::new())?;
    checks.holds("> a 4", are(&read, "0111"));
    let written = footer.to_lines(alloc).map_err(of_text)?;
    checks.holds("lines of what was read", written.as_slice() == WRITTEN.as_bytes());
    let written = file.footer.to_lines(alloc).map_err(of_text)?;
    checks.holds("lines of the file's footer", written.as_slice() == WRITTEN.as_bytes());
    let none = Footer::read(alloc, TYPE.as_bytes()).map_err(of_table)?;
    checks.holds("of no zone", none.zones.len() == 0);
    Ok(())
}

pub fn refused_lines(alloc: Global, checks: &mut Checks<'_>) -> Result<(), TableError> {
    for (first, zones, wanted) in REFUSED {
        let text = format!(in alloc; "{first}{zones}")?;
        checks.refused(first, Footer::read(alloc, text.as_bytes()), wanted)?;
    }
    Ok(())
}
