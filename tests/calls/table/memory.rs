//! Tables behind commands that memory was refused to, and what tells of a table without any.

use crate::arrays::overlapping;
use crate::checks::Checks;
use crate::make::{Array, Done, append, describes, made, predicate, scan, text_of, told};
use crate::make_arrays::{answered, array_of, names, plain};
use crate::refusing::{refuse_all, took_none};
use crate::trees::{WITHOUT, integers};
use crate::words::dtype;
use std::alloc::{AllocError, Global};
use vortex_arrays::{ArrayRef, StructArray, Validity};
use vortex_dtype::{BufferString, DType, FieldPath};
use vortex_scalar::{PValue, Scalar, ScalarValue};
use vortex_table::table::{Layout, Table, TableError};

const HINTS: [Layout; 2] = [Layout::Dictionary, Layout::Constant];

/// The rows of three chunks, and rows that are appended.
const CHUNKS: [&str; 3] = [
    "[1,\"chart\",[0]]\n[2,\"zebra\",[0,1]]",
    "[3,\"charm\",[]]",
    "[4,\"chart\",[0]]",
];

const MORE: &str = "[7,\"chart\",[0]]\n[8,\"zebra\",[0,1]]";

pub fn run(alloc: Global, checks: &mut Checks<'_>) -> Done {
    refused_commands(alloc, checks)?;
    without_memory(alloc, checks)?;
    clones(alloc, checks)
}

/// Records of numbers of this type, texts and lists of integers.
fn columns(alloc: Global, first: &str) -> Result<DType, AllocError> {
    let lists = DType::list(alloc, integers(), WITHOUT)?;
    DType::struct_(alloc, &[("a", dtype(first)), ("s", dtype("utf8")), ("l", lists)], WITHOUT)
}

/// A table of the three chunks, whose bounds have fewer bytes than any text.
fn three_chunks(alloc: Global) -> Result<Table, TableError> {
    let mut table = Table::create(alloc, columns(alloc, "i32")?, 2, &[])?;
    for lines in CHUNKS {
        append(alloc, &mut table, lines, &HINTS)?;
    }
    Ok(table)
}

/// All that can be seen of a table, bounds also by the chunks that a scan skips; and how its chunks
/// lie.
fn seen(alloc: Global, table: &Table) -> Result<(String, String), TableError> {
    let (len, chunks, groups) = (table.len(), table.chunk_count(), table.group_count());
    let mut seen = format!(in alloc; "{len} rows {chunks} chunks {groups} groups ")?;
    for text in ["true", "> s 'ci'"] {
        let answer = scan(alloc, table, &predicate(alloc, text)?)?;
        seen.push_str(text_of(alloc, &answer)?.as_str())?;
    }
    for group in 0..groups {
        for name in ["a", "s"] {
            let told = table.describe(alloc, &FieldPath::from_names(alloc, &[name])?, group)?;
            seen.push_str(text_of(alloc, &told)?.as_str())?;
        }
    }
    let mut layouts = String::new(alloc);
    for number in 0..chunks {
        layouts.push_str(told(alloc, table, number)?.as_str())?;
    }
    Ok((seen, layouts))
}

/// Two records of these numbers, of equal texts and of these lists.
fn two_records(alloc: Global, first: ArrayRef, lists: ArrayRef) -> Array {
    let texts = ArrayRef::of_constant(alloc, Scalar::from(BufferString::from_static("charm")), 2)?;
    let fields = Vec::from_array(alloc, [first, texts, lists])?;
    let names = names(alloc, &["a", "s", "l"])?;
    let records = StructArray::try_new(alloc, names, fields, 2, Validity::NonNullable);
    Ok(answered(records)?.into_array())
}

/// The rows 9 and 10, of another width, with one list.
fn two_rows(alloc: Global) -> Array {
    let list = ScalarValue::tuple(alloc, [Some(ScalarValue::Primitive(PValue::I32(0)))])?;
    let dtype = DType::list(alloc, integers(), WITHOUT)?;
    let lists = ArrayRef::of_constant(alloc, Scalar::new_unchecked(dtype, Some(list)), 2)?;
    two_records(alloc, plain(alloc, &[9i64, 10])?, lists)
}

/// Two records of these numbers, with lists that overlap until they are compacted.
fn with_views(alloc: Global, first: ArrayRef) -> Array {
    two_records(alloc, first, overlapping(alloc)?)
}

/// The commands that change a table, in turn.
const COMMANDS: [&str; 8] = [
    "append",
    "append_array",
    "append_hinted",
    "append_array, kept",
    "join",
    "retype",
    "append_array, retyped",
    "compact",
];

fn command(alloc: Global, table: &mut Table, number: usize) -> Done {
    match number {
        0 => append(alloc, table, MORE, &HINTS),
        1 => table.append_array(made(two_rows(alloc))?),
        2 => {
            let hints = [Layout::Constant, Layout::Dictionary];
            table.append_hinted(made(two_rows(alloc))?, &hints)
        }
        3 => {
            let first = made(plain(alloc, &[11i32, 12]))?;
            table.append_array(made(with_views(alloc, first))?)
        }
        4 => table.join(1),
        5 => table.retype(columns(alloc, "i64?")?),
        6 => {
            let first = made(array_of(alloc, &[13i64, 14], Validity::AllValid))?;
            table.append_array(made(with_views(alloc, first))?)
        }
        _ => table.compact(),
    }
}

/// Each command that changes a table leaves it as it was, where memory is refused to it.
fn refused_commands(alloc: Global, checks: &mut Checks<'_>) -> Done {
    let mut table = three_chunks(alloc)?;
    let mut before = (String::new(alloc), String::new(alloc));
    for (number, name) in COMMANDS.into_iter().enumerate() {
        before = seen(alloc, &table)?;
        let outcome = command(alloc, &mut table, number);
        if outcome.is_err() {
            let after = seen(alloc, &table)?;
            checks.stays(name, before == after);
            return outcome;
        }
    }
    let last = seen(alloc, &table)?;
    let counts = last.0.as_str().starts_with("14 rows 8 chunks 7 groups ");
    checks.holds("what commands leave", counts);
    checks.holds("what compact leaves", before.0 == last.0);
    checks.holds("a layout that compact changes", before.1 != last.1);
    let answer = scan(alloc, &table, &predicate(alloc, "> s 'ci'")?)?;
    let skipped = answer.skipped.as_slice() == [1, 2, 4, 5, 6, 7].as_slice();
    checks.holds("chunks without a text above", skipped);
    describes(alloc, checks, (&table, &["a"], 1), "3 4 0 7 false")?;
    let joined = table.describe(alloc, &FieldPath::from_names(alloc, &["s"])?, 1)?;
    let joined = text_of(alloc, &joined)?;
    for bound in [r#""max":["inexact","ci"]"#, r#""min":["inexact","ch"]"#] {
        checks.holds("shortened bounds of a joined group", joined.as_str().contains(bound));
    }
    Ok(())
}

/// What tells of a table takes no memory.
fn without_memory(alloc: Global, checks: &mut Checks<'_>) -> Done {
    let (table, dtype) = (three_chunks(alloc)?, columns(alloc, "i32")?);
    refuse_all(alloc, checks);
    checks.holds("dtype", *table.dtype() == dtype);
    checks.holds("len", table.len() == 4 && !table.is_empty());
    checks.holds("counts", table.chunk_count() == 3 && table.group_count() == 3);
    for (i, len) in [2usize, 1, 1].into_iter().enumerate() {
        checks.holds_at("chunk", i, table.chunk(i).is_some_and(|chunk| chunk.len() == len));
    }
    checks.holds("no chunk", table.chunk(3).is_none());
    took_none(alloc, checks, "what tells of a table takes no memory");
    Ok(())
}

/// Clones tell the same as what they are of, and go on by themselves.
fn clones(alloc: Global, checks: &mut Checks<'_>) -> Done {
    let mut table = three_chunks(alloc)?;
    table.join(1)?;
    let (before, mut copy) = (seen(alloc, &table)?, table.clone()?);
    append(alloc, &mut table, MORE, &HINTS)?;
    table.compact()?;
    checks.holds("a clone of a table", seen(alloc, &copy)? == before);
    append(alloc, &mut copy, MORE, &HINTS)?;
    copy.compact()?;
    checks.holds("both gone on alike", seen(alloc, &table)?.0 == seen(alloc, &copy)?.0);
    copy.join(0)?;
    checks.holds("one gone on alone", copy.group_count() == 2 && table.group_count() == 3);
    let answer = scan(alloc, &table, &predicate(alloc, "true")?)?;
    let copied = text_of(alloc, &answer.clone()?)?;
    checks.holds("a clone of an answer", copied == text_of(alloc, &answer)?);
    let told = table.describe(alloc, &FieldPath::from_names(alloc, &["s"])?, 1)?;
    let copied = text_of(alloc, &told.clone()?)?;
    checks.holds("a clone of a description", copied == text_of(alloc, &told)?);
    Ok(())
}
