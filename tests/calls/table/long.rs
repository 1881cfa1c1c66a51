//! Texts of ten thousand characters that differ in the last one alone, in each layout.

use crate::checks::Checks;
use crate::make::{Done, Found, append, is_found, predicate, scan, table_of};
use std::alloc::{AllocError, Global};
use vortex_table::table::Layout;

/// How many characters a text has.
const LENGTH: usize = 10_000;

/// The letter a, but for the last place.
fn ending(alloc: Global, last: char) -> Result<String, AllocError> {
    let mut text = String::new(alloc);
    for _ in 1..LENGTH {
        text.push_str("a")?;
    }
    write!(text, "{last}")?;
    Ok(text)
}

/// Whatever the length of bounds, the rows are those that satisfy; bounds tell the texts apart only
/// where they are not shortened.
pub fn run(alloc: Global, checks: &mut Checks<'_>) -> Done {
    let (a, b, c) = (ending(alloc, 'a')?, ending(alloc, 'b')?, ending(alloc, 'c')?);
    let one = format!(in alloc; "[\"{b}\"]")?;
    let two = format!(in alloc; "[\"{a}\"],{one}")?;
    for (length, hint) in [
        (0, Layout::Plain),
        (1, Layout::Dictionary),
        (16, Layout::Constant),
        (LENGTH - 1, Layout::Dictionary),
        (LENGTH, Layout::Plain),
        (LENGTH, Layout::Dictionary),
    ] {
        let mut table = table_of(alloc, "s:utf8", length, &[])?;
        for text in [&a, &b] {
            let row = format!(in alloc; "[\"{text}\"]")?;
            append(alloc, &mut table, row.as_str(), &[hint])?;
        }
        let is_exact = length == LENGTH;
        let (first, all, tested) = if is_exact { ("0", "0,1", [1, 0]) } else { ("", "", [2, 2]) };
        let cases: [(&str, &String, Found<'_>); 4] = [
            ("=", &b, (one.as_str(), first, "", tested[0], 2)),
            ("=", &c, ("", all, "", tested[1], 2)),
            (">", &a, (one.as_str(), first, "", tested[0], 2)),
            (">=", &a, (two.as_str(), "", "", 2, 2)),
        ];
        for (sign, text, found) in cases {
            let by = format!(in alloc; "{sign} s '{text}'")?;
            let answer = scan(alloc, &table, &predicate(alloc, by.as_str())?)?;
            checks.holds(sign, is_found(alloc, &answer, found)?);
        }
    }
    Ok(())
}
