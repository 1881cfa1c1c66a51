//! LIKE by itself, ends of ranges, and comparisons of columns that lie in slices.

use crate::checks::Checks;
use crate::values::{Done, Value, number, text};
use bytes::Bytes;
use std::alloc::Global;
use std::cmp::Ordering;
use vortex_arrays::{BinaryView, BitBuffer};
use vortex_dtype::ByteBuffer;
use vortex_scalar::{PValue, ScalarError, ScalarValue};
use vortex_stats::{
    Buffers, Column, Comparison, Items, Numbers, StrictComparison, Strings, ValidRows,
    compare_columns, compare_literal, has_backslash, is_like,
};

/// Patterns, texts that match, and texts that don't.
const MATCHES: [(&str, &[&str], &[&str]); 10] = [
    ("", &[""], &["a"]),
    ("%", &["", "any text"], &[]),
    ("_", &["é"], &["", "ab"]),
    ("a", &[], &["A"]),
    ("a%", &["a"], &["ba"]),
    ("%a", &["bba"], &["bab"]),
    ("%ab%", &["xaabx"], &["xaxbx"]),
    ("a%b%c", &["a-bb-bc"], &["acb"]),
    ("_%_", &["é🪩"], &["a"]),
    ("a\\%", &["a\\b"], &["a%"]),
];

/// Each comparison, and the orders that it holds of.
const ALL: [(Comparison, &str); 6] = [
    (Comparison::Eq, "="),
    (Comparison::NotEq, "<>"),
    (Comparison::Gt, ">"),
    (Comparison::Gte, ">="),
    (Comparison::Lt, "<"),
    (Comparison::Lte, "<="),
];

pub fn run(alloc: Global, checks: &mut Checks<'_>) -> Done {
    for (i, (pattern, matching, others)) in MATCHES.into_iter().enumerate() {
        checks.holds_at("is_like", i, matching.iter().all(|it| is_like(pattern, *it)));
        checks.holds_at("is_like of none", i, !others.iter().any(|it| is_like(pattern, *it)));
    }
    checks.holds("has_backslash", has_backslash("a\\b") && has_backslash("\\"));
    checks.holds("has_backslash of none", !has_backslash("a/b") && !has_backslash(""));
    let (inside, outside) = (StrictComparison::NonStrict, StrictComparison::Strict);
    checks.holds("to_comparison", inside.to_comparison() == Comparison::Lte);
    checks.holds("to_comparison, strict", outside.to_comparison() == Comparison::Lt);
    for (i, (comparison, orders)) in ALL.into_iter().enumerate() {
        let all = [(Ordering::Less, b'<'), (Ordering::Equal, b'='), (Ordering::Greater, b'>')];
        let are_held = all.iter().all(|(order, letter)| {
            comparison.holds(*order) == orders.as_bytes().iter().any(|it| *it == *letter)
        });
        checks.holds_at("holds of comparison", i, are_held);
    }
    numbers(alloc, checks)?;
    strings(alloc, checks)
}

/// What a column is compared with.
#[derive(Drop)]
enum Side<'a> {
    Literal(Value),
    Rows(Column<'a>),
}

/// Counts each comparison of the column with the other side, to which its rows stand in these
/// orders: `.` where one of both is null, or of another form.
fn compared(
    alloc: Global,
    checks: &mut Checks<'_>,
    name: &str,
    (left, right, orders): (Column<'_>, Side<'_>, &str),
) -> Done {
    for (comparison, held) in ALL {
        let mask = match &right {
            Side::Literal(value) => compare_literal(alloc, comparison, &left, value.as_ref())?,
            Side::Rows(right) => compare_columns(alloc, comparison, &left, right)?,
        };
        let mut same = mask.len() == orders.len();
        for (found, order) in mask.iter().zip(orders.as_bytes()) {
            same = same && *found == held.as_bytes().iter().any(|it| *it == *order);
        }
        checks.holds(name, same);
    }
    Ok(())
}

/// The column of these items, whose rows are valid where these bits are true.
fn column<'a>(items: Items<'a>, validity: Option<&'a BitBuffer>) -> Column<'a> {
    let validity = validity.map_or(ValidRows::All, ValidRows::Bits);
    Column { items, validity }
}

fn has_length(strings: Strings<'_>, len: usize) -> bool {
    let are_shared = matches!(strings.buffers, Buffers::Shared(all) if all.len() == len);
    strings.views.len() == len && are_shared
}

/// Booleans that are all valid.
fn all(bits: &[bool]) -> Side<'_> {
    Side::Rows(column(Items::Bools(bits), None))
}

/// Counts what the items are: as booleans, numbers, texts or binaries, and of this length.
fn are(checks: &mut Checks<'_>, name: &str, items: &Items<'_>, forms: [bool; 4], len: usize) {
    let bits = items.as_bools().map(|all| all.len()) == Some(len);
    let numbers = matches!(items.as_numbers(), Some(Numbers::I16(all)) if all.len() == len);
    let texts = items.as_texts().is_some_and(|it| has_length(it, len));
    let binaries = items.as_binaries().is_some_and(|it| has_length(it, len));
    checks.holds(name, [bits, numbers, texts, binaries] == forms && items.len() == len);
}

fn numbers(alloc: Global, checks: &mut Checks<'_>) -> Done {
    let (few, many) = ([true, true, false], [false, true, true, true]);
    let (few, many) = (BitBuffer::from_bools(alloc, &few)?, BitBuffer::from_bools(alloc, &many)?);
    let (bits, short) = (Items::Bools(&[false, true, true]), Numbers::I16(&[3, 5, -7, 5]));
    are(checks, "as_bools", &bits, [true, false, false, false], 3);
    are(checks, "as_numbers", &Items::Numbers(short), [false, true, false, false], 4);
    let bits = column(bits, Some(&few));
    let others = column(Items::Bools(&[true, false, true]), Some(&few));
    let short = column(Items::Numbers(short), None);
    let wide = column(Items::Numbers(Numbers::U64(&[3, 5, 5, u64::MAX])), Some(&many));
    let boolean = |value: bool| Side::Literal(Some(ScalarValue::Bool(value)));
    let long = |n: u64| Side::Literal(Some(ScalarValue::Primitive(PValue::U64(n))));
    for (name, case) in [
        ("booleans with true", (bits, boolean(true), "<=.")),
        ("booleans with false", (bits, boolean(false), "=>.")),
        ("booleans with null", (bits, Side::Literal(None), "...")),
        ("booleans with a text", (bits, Side::Literal(text("true")), "...")),
        ("booleans with booleans", (bits, all(&[true; 3]), "<=.")),
        ("booleans the other way", (others, Side::Rows(bits), "><.")),
        ("numbers with a number", (short, Side::Literal(number(5)), "<=<=")),
        ("numbers of two kinds", (short, long(5), "<=<=")),
        ("numbers below all of another kind", (short, long(u64::MAX), "<<<<")),
        ("numbers with null", (short, Side::Literal(None), "....")),
        ("numbers with a boolean", (short, boolean(true), "....")),
        ("numbers with numbers", (short, Side::Rows(wide), ".=<<")),
        ("numbers the other way", (wide, Side::Rows(short), ".=>>")),
        ("numbers with booleans", (short, all(&[true; 4]), "....")),
    ] {
        compared(alloc, checks, name, case)?;
    }
    Ok(())
}

/// A text that lies in a buffer, and one that differs from it in its last byte alone.
const LONG: &[u8] = b"abcdefghijklmnop";
const LONGER: &[u8] = b"abcdefghijklmnoq";

/// Views of these values, each in a buffer of its own.
fn views(alloc: Global, rows: &[&[u8]]) -> Result<(Vec<BinaryView>, Vec<Bytes>), ScalarError> {
    let (mut views, mut buffers) = (Vec::new(alloc), Vec::new(alloc));
    for row in rows {
        views.push(BinaryView::make_view(row, buffers.len() as u32, 0))?;
        buffers.push(Bytes::copy_from_slice(alloc, row)?)?;
    }
    Ok((views, buffers))
}

/// Views of these values, one after another in one buffer.
fn in_one(alloc: Global, rows: &[&[u8]]) -> Result<(Vec<BinaryView>, Vec<u8>), ScalarError> {
    let (mut views, mut bytes) = (Vec::new(alloc), Vec::new(alloc));
    for row in rows {
        views.push(BinaryView::make_view(row, 0, bytes.len() as u32))?;
        bytes.extend_from_slice(row)?;
    }
    Ok((views, bytes))
}

fn strings(alloc: Global, checks: &mut Checks<'_>) -> Done {
    let (all, lie_in) = views(alloc, &[b"abcdz".as_slice(), LONG, LONGER, b"".as_slice()])?;
    let lent = Strings { views: all.as_slice(), buffers: Buffers::Shared(lie_in.as_slice()) };
    let (texts, binaries) = (Items::Texts(lent), Items::Binaries(lent));
    are(checks, "as_texts", &texts, [false, false, true, false], 4);
    are(checks, "as_binaries", &binaries, [false, false, false, true], 4);
    let valid = BitBuffer::from_bools(alloc, &[true, true, true, false])?;
    let (others, lie_in) = views(alloc, &[b"abcd".as_slice(), LONG, LONG, b"".as_slice()])?;
    let others = Strings { views: others.as_slice(), buffers: Buffers::Shared(lie_in.as_slice()) };
    let other_texts = column(Items::Texts(others), Some(&valid));
    let other_bytes = Side::Rows(column(Items::Binaries(others), Some(&valid)));
    let string = || Side::Literal(text("abcdefghijklmnop"));
    let blob = || Side::Literal(Some(ScalarValue::Binary(ByteBuffer::from_static(LONG))));
    let (texts, binaries) = (column(texts, None), column(binaries, None));
    let (all, bytes) = in_one(alloc, &[LONG, b"abcdz".as_slice(), LONGER])?;
    let lent = Strings { views: all.as_slice(), buffers: Buffers::One(bytes.as_slice()) };
    let together = column(Items::Texts(lent), None);
    for (name, case) in [
        ("texts with a text", (texts, string(), ">=><")),
        ("texts with bytes", (texts, blob(), "....")),
        ("bytes with bytes", (binaries, blob(), ">=><")),
        ("bytes with a text", (binaries, string(), "....")),
        ("texts with null", (texts, Side::Literal(None), "....")),
        ("texts with texts", (texts, Side::Rows(other_texts), ">=>.")),
        ("bytes with texts", (binaries, Side::Rows(other_texts), "....")),
        ("bytes with bytes, row by row", (binaries, other_bytes, ">=>.")),
        ("texts of one buffer", (together, string(), "=>>")),
        ("texts of one buffer with themselves", (together, Side::Rows(together), "===")),
    ] {
        compared(alloc, checks, name, case)?;
    }
    Ok(())
}
