//! Arrays that are appended, compactions, and how the chunks of hinted appends lie.

use crate::checks::Checks;
use crate::make::{
    Array, Done, along, append, describes, dictionary, lies, made, one_chunk, records, scans,
    table_of, told,
};
use crate::make_arrays::{answered, array_of, plain, valid_where};
use crate::trees::WITHOUT;
use std::alloc::{AllocError, Global};
use vortex_arrays::{ArrayRef, ListViewArray, Validity};
use vortex_scalar::{Scalar, ScalarConstructors};
use vortex_table::table::{Layout, TableError};

pub fn run(alloc: Global, checks: &mut Checks<'_>) -> Done {
    compacted(alloc, checks)?;
    under_null(alloc, checks)?;
    converted(alloc, checks)?;
    hinted(alloc, checks)?;
    hinted_arrays(alloc, checks)?;
    codes_are_narrow(alloc, checks)?;
    described(alloc, checks)
}

/// Lists of views of elements.
fn lists(alloc: Global, elements: ArrayRef, offsets: ArrayRef, sizes: ArrayRef) -> Array {
    let views = ListViewArray::try_new(alloc, elements, offsets, sizes, Validity::NonNullable);
    Ok(answered(views)?.into_array())
}

/// The lists of 1, 2, 3 and of 2, 3, which overlap.
pub fn overlapping(alloc: Global) -> Array {
    let (offsets, sizes) = (plain(alloc, &[0u32, 1])?, plain(alloc, &[3u8, 2])?);
    lists(alloc, plain(alloc, &[1i32, 2, 3])?, offsets, sizes)
}

/// Lists that overlap are kept as they lie, and stand end to end once they are compacted.
fn compacted(alloc: Global, checks: &mut Checks<'_>) -> Done {
    let mut table = one_chunk(alloc, along(alloc, made(overlapping(alloc))?))?;
    let all = [("= 1 1", ("[[1,2,3]],[[2,3]]", "", "", 2, 1))];
    scans(alloc, checks, &table, &all)?;
    lies(alloc, checks, (&table, 0), "views ( 1 2 3 ) ( 0 1 ) ( 3 2 )")?;
    if table.compact().is_err() {
        let stays = told(alloc, &table, 0)?.as_str().starts_with("views");
        checks.stays("views behind a refused compaction", stays);
        return Err(TableError::Memory);
    }
    scans(alloc, checks, &table, &all)?;
    let wanted = "end to end ( 1 2 3 2 3 ) ( 0 3 ) ( 3 2 )";
    lies(alloc, checks, (&table, 0), wanted)?;
    table.compact()?;
    lies(alloc, checks, (&table, 0), wanted)?;
    checks.holds("chunks", table.chunk(1).is_none() && table.chunk(usize::MAX).is_none());
    Ok(())
}

/// Two lists of 2^63 sevens, which overlap, under null records, and a list of two sevens.
fn long_lists(alloc: Global) -> Array {
    let elements = ArrayRef::of_constant(alloc, Scalar::primitive(7i32, WITHOUT), 1 << 63)?;
    let sizes = plain(alloc, &[1u64 << 63, 1 << 63, 2])?;
    let lists = lists(alloc, elements, plain(alloc, &[0u64, 0, 1])?, sizes)?;
    let valid = valid_where(alloc, &[false, false, true])?;
    along(alloc, records(alloc, "l", lists, valid)?)
}

/// Numbers of which the first stands under a null record.
fn inner_numbers(alloc: Global, valid: &[bool], array: ArrayRef) -> Array {
    along(alloc, records(alloc, "q", array, valid_where(alloc, valid)?)?)
}

/// What stands under a null record is no value; where lists there are too long together, they
/// become empty.
fn under_null(alloc: Global, checks: &mut Checks<'_>) -> Done {
    let mut table = one_chunk(alloc, long_lists(alloc))?;
    table.compact()?;
    lies(alloc, checks, (&table, 0), "end to end ( 7 7 ) ( 0 0 0 ) ( 0 0 2 )")?;
    let numbers = made(plain(alloc, &[1000i32, 7]))?;
    let table = one_chunk(alloc, inner_numbers(alloc, &[false, true], numbers))?;
    scans(alloc, checks, &table, &[
        ("> a.q 100", ("", "0", "", 0, 1)),
        ("> a.q 6", ("[[7]]", "", "", 2, 1)),
    ])
}

/// An array of another width is laid out anew where it fits, and refused by its first row that
/// doesn't; no rows make no chunk.
fn converted(alloc: Global, checks: &mut Checks<'_>) -> Done {
    let mut table = table_of(alloc, "a:i32", 16, &[])?;
    let wide = |items: &[i64]| -> Result<ArrayRef, TableError> {
        made(records(alloc, "x", made(plain(alloc, items))?, Validity::NonNullable))
    };
    table.append_array(wide(&[])?)?;
    checks.holds("no rows", table.chunk_count() == 0 && table.is_empty());
    table.append_array(wide(&[1, 2])?)?;
    lies(alloc, checks, (&table, 0), "( 1 2 )")?;
    let far = table.append_array(wide(&[3, 2_147_483_648])?);
    checks.refused("a number that doesn't fit", far, TableError::NotConvertible(1))?;
    let bare = table.append_array(made(plain(alloc, &[1i32]))?);
    checks.refused("no records", bare, TableError::NotARecord)?;
    scans(alloc, checks, &table, &[("true", ("[1],[2]", "", "0", 0, 2))])
}

/// Hints that fit are taken, and one that doesn't gives a plain column.
fn hinted(alloc: Global, checks: &mut Checks<'_>) -> Done {
    let mut table = table_of(alloc, "a:i32", 16, &[])?;
    append(alloc, &mut table, "[5]\n[5]\n[5]", &[Layout::Constant])?;
    append(alloc, &mut table, "[5]\n[6]", &[Layout::Constant])?;
    append(alloc, &mut table, "[7]\n[8]\n[7]", &[Layout::Dictionary])?;
    for (i, wanted) in LAYOUTS.into_iter().enumerate() {
        lies(alloc, checks, (&table, i), wanted)?;
    }
    scans(alloc, checks, &table, &[(">= a 6", ("[6],[7],[8],[7]", "0", "", 5, 3))])
}

const LAYOUTS: [&str; 3] = ["3 alike", "( 5 6 )", "dictionary u8 ( 0 1 0 ) ( 7 8 )"];

/// Arrays that are appended by hints are laid out by them, of another width too, and a refused one
/// leaves the table as it is.
fn hinted_arrays(alloc: Global, checks: &mut Checks<'_>) -> Done {
    let mut table = table_of(alloc, "a:i32", 16, &[])?;
    let (equal, unequal) = (plain(alloc, &[5i32, 5, 5]), plain(alloc, &[5i32, 6]));
    let (wide, far) = (plain(alloc, &[7i64, 8, 7]), plain(alloc, &[2_147_483_648i64]));
    table.append_hinted(made(along(alloc, made(equal)?))?, &[Layout::Constant])?;
    table.append_hinted(made(along(alloc, made(unequal)?))?, &[Layout::Constant])?;
    table.append_hinted(made(along(alloc, made(wide)?))?, &[Layout::Dictionary])?;
    let far = table.append_hinted(made(along(alloc, made(far)?))?, &[Layout::Dictionary]);
    checks.refused("a hinted number that doesn't fit", far, TableError::NotConvertible(0))?;
    for (i, wanted) in LAYOUTS.into_iter().enumerate() {
        lies(alloc, checks, (&table, i), wanted)?;
    }
    checks.holds("the hinted table stays", table.chunk_count() == 3 && table.len() == 8);
    Ok(())
}

/// The first so many different texts, as lines of JSON.
fn different(alloc: Global, count: usize) -> Result<String, AllocError> {
    let mut lines = String::new(alloc);
    for number in 0..count {
        write!(lines, "[\"{number}\"]\n")?;
    }
    Ok(lines)
}

/// 256 different texts have codes of one byte, 257 of two.
fn codes_are_narrow(alloc: Global, checks: &mut Checks<'_>) -> Done {
    let mut table = table_of(alloc, "s:utf8", 16, &[])?;
    for (chunk, (count, width)) in [(256, "u8"), (257, "u16")].into_iter().enumerate() {
        append(alloc, &mut table, different(alloc, count)?.as_str(), &[Layout::Dictionary])?;
        let mut wanted = format!(in alloc; "dictionary {width} (")?;
        for code in 0..count {
            write!(wanted, " {code}")?;
        }
        write!(wanted, " ) {count} plain")?;
        lies(alloc, checks, (&table, chunk), wanted.as_str())?;
    }
    Ok(())
}

/// What is known of a dictionary comes from the values that its codes name, and nothing else. A
/// constant under a null record is null there.
fn described(alloc: Global, checks: &mut Checks<'_>) -> Done {
    let valid = made(valid_where(alloc, &[true, true, true, false]))?;
    let values = made(array_of(alloc, &[9i32, 1, 5, 0], valid))?;
    let coded = dictionary(alloc, made(plain(alloc, &[1u8, 2, 1, 3]))?, values);
    let table = one_chunk(alloc, along(alloc, made(coded)?))?;
    describes(alloc, checks, (&table, &["a"], 0), "1 5 1 7 false")?;
    scans(alloc, checks, &table, &[
        ("> a 5", ("", "0", "", 0, 1)),
        ("> a 4", ("[5]", "", "", 4, 1)),
        ("< a 5", ("[1],[1]", "", "", 4, 1)),
    ])?;
    let values = made(plain(alloc, &[4i32, 4]))?;
    let equal = dictionary(alloc, made(plain(alloc, &[0u8, 1]))?, values);
    let table = one_chunk(alloc, along(alloc, made(equal)?))?;
    describes(alloc, checks, (&table, &["a"], 0), "4 4 0 8 true")?;
    let six = ArrayRef::of_constant(alloc, Scalar::primitive(6i32, WITHOUT), 3)?;
    let table = one_chunk(alloc, inner_numbers(alloc, &[true, false, true], six))?;
    describes(alloc, checks, (&table, &["a", "q"], 0), "6 6 1 12 false")
}
