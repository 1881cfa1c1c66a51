//! `ScalarTruncation`, `lower_bound`, `upper_bound` and `StringLike`: worked rows of shortened
//! bounds, texts at the edges of the widths of characters, and bytes that are counted up as one
//! number.

use crate::checks::Checks;
use crate::counted::{done, hold};
use crate::samples::is_twin;
use crate::value_notation::scalar;
use crate::values::{Done, WITH, WITHOUT, is_of};
use std::alloc::Global;
use std::cmp::Ordering;
use vortex_dtype::{BufferString, ByteBuffer, Nullability};
use vortex_scalar::{Scalar, ScalarError, ScalarTruncation, StringLike, lower_bound, upper_bound};

/// A value, a length, the lower bound, the upper bound, and whether the value is longer than the
/// length.
type Row<T> = (T, usize, T, Option<T>, bool);

const TEXTS: [Row<&'static str>; 18] = [
    ("", 0, "", Some(""), false),
    ("a", 0, "", None, true),
    ("é", 1, "", None, true),
    ("é", 2, "é", Some("é"), false),
    ("a\u{d7ff}b", 4, "a\u{d7ff}", Some("a\u{e000}"), true),
    ("a\u{7f}b", 2, "a\u{7f}", Some("b"), true),
    ("ab\u{10ffff}x", 6, "ab\u{10ffff}", Some("ac"), true),
    ("\u{10ffff}\u{7f}z", 5, "\u{10ffff}\u{7f}", None, true),
    ("\u{10ffff}x", 4, "\u{10ffff}", None, true),
    ("char🪩", 5, "char", Some("chas"), true),
    ("char🪩", 8, "char🪩", Some("char🪩"), false),
    ("aaaa", 3, "aaa", Some("aab"), true),
    ("zzzz", 2, "zz", Some("z{"), true),
    ("\u{7f}\u{7ff}z", 3, "\u{7f}\u{7ff}", None, true),
    ("\u{80}\u{ffff}z", 5, "\u{80}\u{ffff}", Some("\u{81}"), true),
    ("\u{800}\u{10000}", 6, "\u{800}", Some("\u{801}"), true),
    ("\u{10000}\u{e000}z", 7, "\u{10000}\u{e000}", Some("\u{10000}\u{e001}"), true),
    ("abcd", usize::MAX, "abcd", Some("abcd"), false),
];

const BYTES: [Row<&'static [u8]>; 9] = [
    (b"", 0, b"", Some(b""), false),
    (b"\x00", 0, b"", None, true),
    (b"\x00\x05\xff\xea\x17", 3, b"\x00\x05\xff", Some(b"\x00\x06\x00"), true),
    (b"\x00\xff\xff", 2, b"\x00\xff", Some(b"\x01\x00"), true),
    (b"\xff\xff", 2, b"\xff\xff", Some(b"\xff\xff"), false),
    (b"\xff\xff\x00", 2, b"\xff\xff", None, true),
    (b"\xff\x00\xff", 2, b"\xff\x00", Some(b"\xff\x01"), true),
    (b"\xff\xff\xff", usize::MAX, b"\xff\xff\xff", Some(b"\xff\xff\xff"), false),
    (b"\x7f\xff\xff\xff\x00", 4, b"\x7f\xff\xff\xff", Some(b"\x80\x00\x00\x00"), true),
];

/// The bounds of texts.
pub fn of_texts(alloc: Global, checks: &mut Checks<'_>) -> Done {
    for row in &TEXTS {
        for nullability in [WITH, WITHOUT] {
            of_row(alloc, checks, row, nullability, |it| Ok(BufferString::from_static(it)))?;
        }
    }
    characters(alloc, checks)?;
    of_places(alloc, checks, &[])?;
    for first in 0..EDGES.len() {
        of_places(alloc, checks, &[first])?;
        for second in 0..EDGES.len() {
            of_places(alloc, checks, &[first, second])?;
        }
    }
    // The first three edges in three places, of which one can't be raised.
    for number in 0..27 {
        of_places(alloc, checks, &[number / 9, number / 3 % 3, number % 3])?;
    }
    Ok(())
}

/// The bounds of bytes.
pub fn of_bytes(alloc: Global, checks: &mut Checks<'_>) -> Done {
    for row in &BYTES {
        for nullability in [WITH, WITHOUT] {
            of_row(alloc, checks, row, nullability, |it| Ok(ByteBuffer::from_static(it)))?;
        }
    }
    // Each string of up to four bytes that are 0 or 255, and of up to two of 127 too.
    for number in 0..81 {
        let (mut bytes, mut rest) = ([0u8; 4], number);
        for byte in &mut bytes {
            *byte = [0, 255, 127][rest % 3];
            rest /= 3;
        }
        for length in 0..5 {
            let given = &bytes[..length];
            if number < 3usize.pow(length as u32) && (length < 3 || !given.contains(&127)) {
                counted_up(alloc, checks, given)?;
            }
        }
    }
    parts(alloc, checks)
}

/// Whether there is such a scalar exactly where there is such a value.
fn is_value<T: ScalarTruncation + Drop>(scalar: Option<&Scalar>, value: Option<T>) -> bool {
    match (scalar, value) {
        (Some(scalar), Some(value)) => {
            let wanted = value.into_scalar(scalar.dtype().nullability());
            is_of(scalar, wanted.dtype(), wanted.value())
        }
        (scalar, value) => scalar.is_none() && value.is_none(),
    }
}

fn of_row<G: Copy + Drop, T: ScalarTruncation + Drop, F: Fn(G) -> Result<T, ScalarError>>(
    alloc: Global,
    checks: &mut Checks<'_>,
    row: &Row<G>,
    nullability: Nullability,
    made: F,
) -> Done {
    let (given, limit, low, high, longer) = *row;
    let whole = made(given)?.into_scalar(nullability);
    let below = lower_bound(made(given)?, limit, nullability)?;
    let above = upper_bound(alloc, made(given)?, limit, nullability)?;
    let wanted = || -> Result<Option<T>, ScalarError> {
        match high {
            Some(high) => Ok(Some(made(high)?)),
            None => Ok(None),
        }
    };
    let order = |it: &Scalar| it.partial_cmp(&whole);
    let shorter = made(given)?.lower_bound(limit).into_scalar(WITH);
    let raised = made(given)?.upper_bound(alloc, limit)?.map(|it| it.into_scalar(WITH));
    hold!(checks;
        is_value(below.as_ref().map(|it| &it.0), Some(made(low)?)),
        below.is_some_and(|it| it.1 == longer && order(&it.0) != Some(Ordering::Greater)),
        is_value(Some(&shorter), Some(made(low)?)) && whole.dtype().nullability() == nullability,
        is_value(above.as_ref().map(|it| &it.0), wanted()?) && is_value(raised.as_ref(), wanted()?),
        above.is_none_or(|it| it.1 == longer && order(&it.0) != Some(Ordering::Less)),
    );
    let back = T::from_scalar(whole).map(|it| it.into_scalar(WITH));
    done!(checks; is_value(back.as_ref(), Some(made(given)?)))
}

/// Characters, how many bytes each has in UTF-8, and the least higher one of as many.
const EDGES: [(char, usize, Option<char>); 11] = [
    ('a', 1, Some('b')),
    ('\u{7f}', 1, None),
    ('\u{80}', 2, Some('\u{81}')),
    ('\u{7ff}', 2, None),
    ('\u{800}', 3, Some('\u{801}')),
    ('\u{d7ff}', 3, Some('\u{e000}')),
    ('\u{e000}', 3, Some('\u{e001}')),
    ('\u{ffff}', 3, None),
    ('\u{10000}', 4, Some('\u{10001}')),
    ('\u{10fffe}', 4, Some('\u{10ffff}')),
    ('\u{10ffff}', 4, None),
];

/// The text of these edges, by their places, and of this character behind them.
fn text_of(
    alloc: Global,
    places: &[usize],
    last: Option<char>,
) -> Result<BufferString, ScalarError> {
    let mut text = String::new(alloc);
    for character in places.iter().map(|place| EDGES[*place].0).chain(last) {
        text.push(character)?;
    }
    Ok(BufferString::from_string(text)?)
}

/// The longest beginning of the text of edges with at most so many bytes.
fn beginning(places: &[usize], limit: usize) -> &[usize] {
    let mut length = 0;
    for (i, place) in places.iter().enumerate() {
        length += EDGES[*place].1;
        if length > limit {
            return &places[..i];
        }
    }
    places
}

/// The text of edges with the latest that can be raised in the place of that one, if there is one.
fn raised(alloc: Global, places: &[usize]) -> Result<Option<BufferString>, ScalarError> {
    for (i, place) in places.iter().enumerate().rev() {
        if let Some(higher) = EDGES[*place].2 {
            return Ok(Some(text_of(alloc, &places[..i], Some(higher))?));
        }
    }
    Ok(None)
}

/// All calls on the text of these edges.
fn of_places(alloc: Global, checks: &mut Checks<'_>, places: &[usize]) -> Done {
    let text = text_of(alloc, places, None)?;
    let (length, up) = (text.len(), raised(alloc, places)?);
    increments(alloc, checks, &text, up.as_ref())?;
    for limit in (0..length + 2).chain([usize::MAX]) {
        if limit <= 3 || length.saturating_sub(1) <= limit {
            let low = text_of(alloc, beginning(places, limit), None)?;
            let up = raised(alloc, beginning(places, limit))?;
            let high = if length <= limit { Some(&text) } else { up.as_ref() };
            let row = (&text, limit, &low, high, limit < length);
            of_row(alloc, checks, &row, WITH, |it: &BufferString| Ok(it.clone()?))?;
        }
    }
    Ok(())
}

/// A text raised, and given back where it can't be.
fn increments(
    alloc: Global,
    checks: &mut Checks<'_>,
    text: &BufferString,
    wanted: Option<&BufferString>,
) -> Done {
    let is_so = match text.clone()?.increment(alloc)? {
        Ok(made) => Some(&made) == wanted,
        Err(back) => back == *text && wanted.is_none(),
    };
    checks.holds("BufferString::increment", is_so);
    let is_so = match String::from_str(alloc, text.as_str())?.increment(alloc)? {
        Ok(made) => wanted.is_some_and(|wanted| made.as_str() == wanted.as_str()),
        Err(back) => back.as_str() == text.as_str() && wanted.is_none(),
    };
    checks.holds("String::increment", is_so);
    Ok(())
}

/// A character is raised to the next one, where that is as wide: characters near edges, and others
/// far between.
fn characters(alloc: Global, checks: &mut Checks<'_>) -> Done {
    let near = EDGES.iter().flat_map(|(edge, _, _)| (*edge as u32 - 3)..(*edge as u32 + 4));
    for code in near.chain((0..110).map(|step| 10_009 * step)) {
        let Some(character) = char::from_u32(code) else {
            continue;
        };
        let next = char::from_u32(if code == 0xd7ff { 0xe000 } else { code + 1 });
        let next = next.filter(|next| next.len_utf8() == character.len_utf8());
        let (text, wanted) = (text_of(alloc, &[], Some(character))?, text_of(alloc, &[], next)?);
        increments(alloc, checks, &text, next.map(|_| &wanted))?;
    }
    Ok(())
}

/// The bounds of the bytes: the upper one is the beginning as a number, whose first byte is the
/// highest, and one more.
fn counted_up(alloc: Global, checks: &mut Checks<'_>, given: &[u8]) -> Done {
    let bytes = ByteBuffer::copy_from_slice(alloc, given)?;
    for limit in (0..given.len() + 2).chain([usize::MAX]) {
        let longer = limit < given.len();
        let low = if longer { &given[..limit] } else { given };
        let next = 1 + low.iter().fold(0u64, |number, byte| 256 * number + u64::from(*byte));
        let next = next.to_be_bytes();
        let high = if longer { &next[8 - limit..] } else { given };
        let is_there = !longer || next[7 - limit] == 0;
        let low = ByteBuffer::copy_from_slice(alloc, low)?;
        let high = ByteBuffer::copy_from_slice(alloc, high)?;
        let row = (&bytes, limit, &low, if is_there { Some(&high) } else { None }, longer);
        of_row(alloc, checks, &row, WITHOUT, |it: &ByteBuffer| Ok(it.clone()?))?;
    }
    checks.holds("the bytes after their bounds", bytes.as_slice() == given);
    Ok(())
}

/// How long the value is, by the bound.
fn length_of<T: ScalarTruncation + Drop>(value: T) -> usize {
    value.len()
}

/// What is made into scalars, and of which scalars nothing is made.
fn parts(alloc: Global, checks: &mut Checks<'_>) -> Done {
    let (text, bytes) = (BufferString::from_static("é"), ByteBuffer::from_static(b"\xff"));
    hold!(checks; length_of(text.clone()?) == 2 && length_of(bytes.clone()?) == 1);
    let (of_text, of_bytes) = (scalar(alloc, "utf8?", "'é'")?, scalar(alloc, "binary", "x'ff'")?);
    done!(checks;
        is_twin(&text.into_scalar(WITH), &of_text), is_twin(&bytes.into_scalar(WITHOUT), &of_bytes),
        ByteBuffer::from_scalar(of_text).is_none() && BufferString::from_scalar(of_bytes).is_none(),
        BufferString::from_scalar(scalar(alloc, "utf8?", "null")?).is_none(),
        ByteBuffer::from_scalar(scalar(alloc, "binary?", "null")?).is_none(),
        BufferString::from_scalar(scalar(alloc, "i16?", "7")?).is_none(),
    )
}
