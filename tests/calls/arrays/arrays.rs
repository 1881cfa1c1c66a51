//! Arrays of each layout: their types and rows, slices, rows at positions and rows that a mask
//! keeps; and arrays that are built of values, and cast.

use crate::checks::Checks;
use crate::counted::{done, hold};
use crate::make_arrays::{
    Done, WITH, answered, array_of, bools, names, plain, refused, valid_where,
};
use crate::notation::dtype;
use crate::value_notation::values;
use crate::values::Value;
use bytes::Bytes;
use std::alloc::Global;
use std::rc::Rc;
use vortex_arrays::{
    ArrayError, ArrayLayout, ArrayRef, BinaryView, Buffer, Mask, StringKind, Validity,
    build_constant, build_plain, cast_array, fits_constant, fits_dictionary,
};
use vortex_dtype::DTypeError;
use vortex_scalar::{Scalar, ScalarConstructors, ScalarError, ScalarValue, eq_values};

/// An array of these texts, of which long ones lie in a buffer of their own each.
pub fn strings_of(
    alloc: Global,
    kind: StringKind,
    texts: &[&[u8]],
    validity: Validity,
) -> Result<ArrayRef, DTypeError> {
    let (mut views, mut buffers) = (Vec::new(alloc), Vec::new(alloc));
    for text in texts {
        views.push(BinaryView::make_view(text, buffers.len() as u32, 0))?;
        buffers.push(Bytes::copy_from_slice(alloc, text)?)?;
    }
    let (views, buffers) = (Buffer::from_vec(views)?, Rc::new(alloc, buffers)?);
    Ok(ArrayRef::of_strings(alloc, kind, views, buffers, validity)?)
}

/// The values of the text. A refusal that is not for want of memory makes the program wrong.
fn rows(alloc: Global, text: &str) -> Result<Vec<Value>, DTypeError> {
    values(alloc, text).map_err(of_values)
}

fn of_values(error: ScalarError) -> DTypeError {
    match error {
        ScalarError::Memory => DTypeError::Memory,
        _ => DTypeError::Malformed,
    }
}

/// The array's rows, in its type.
fn rows_of(alloc: Global, array: &ArrayRef) -> Result<Vec<Scalar>, DTypeError> {
    let mut rows = Vec::new(alloc);
    for i in 0..array.len() {
        rows.push(answered(array.execute_scalar(alloc, i))?)?;
    }
    Ok(rows)
}

/// Whether the array is of the type and has the rows of these texts.
pub fn has(alloc: Global, array: &ArrayRef, of: &str, text: &str) -> Result<bool, DTypeError> {
    let (found, wanted) = (rows_of(alloc, array)?, rows(alloc, text)?);
    let mut pairs = found.iter().zip(&wanted);
    Ok(*array.dtype() == dtype(alloc, of)?
        && found.len() == wanted.len()
        && pairs.all(|(row, wanted)| eq_values(row.value(), wanted.as_ref())))
}

/// Each value, lent.
fn lent<'a>(alloc: Global, rows: &'a [Value]) -> Result<Vec<Option<&'a ScalarValue>>, DTypeError> {
    let mut all = Vec::with_capacity(alloc, rows.len())?;
    for row in rows {
        all.push(row.as_ref())?;
    }
    Ok(all)
}

/// An array of each layout, most of them with null rows, its type, and its rows.
fn all_layouts(alloc: Global) -> Result<Vec<(ArrayRef, &'static str, &'static str)>, DTypeError> {
    let (none, valid) = (Validity::NonNullable, || valid_where(alloc, &[true, false, true, true]));
    let some = array_of(alloc, &[70i64, 80, 90], valid_where(alloc, &[true, false, true])?)?;
    let codes = array_of(alloc, &[2u8, 1, 0, 2], valid()?)?;
    let elements = || plain(alloc, &[1i32, 2, 3, 4, 5, 6, 7, 8]);
    let numbers = array_of(alloc, &[1i32, -2, 3, i32::MAX], valid()?)?;
    let pairs = ArrayRef::of_fixed_lists(alloc, elements()?, 2, 4, valid()?)?;
    let (offsets, sizes) = (plain(alloc, &[0u32, 1, 8, 3])?, plain(alloc, &[3i16, 2, 0, 5])?);
    let lists = ArrayRef::of_list_views(alloc, elements()?, offsets, sizes, false, valid()?)?;
    let texts: [&[u8]; 4] = [b"ab", b"abcdefghijklm", b"", b"twelve bytes"];
    let utf8 = strings_of(alloc, StringKind::Utf8, &texts, valid()?)?;
    let binary = strings_of(alloc, StringKind::Binary, &texts[1..3], Validity::AllValid)?;
    let fields = vec![in alloc; numbers.clone()?, pairs.clone()?]?;
    let records = ArrayRef::of_records(alloc, names(alloc, &["a", "b"])?, fields, 4, valid()?)?;
    let empty = ArrayRef::of_records(alloc, names(alloc, &[])?, Vec::new(alloc), 2, none)?;
    let nine = bools(alloc, &[true, false, true, true, false, false, true, false, true])?;
    let whole =
        ArrayRef::of_dict(alloc, plain(alloc, &[1u8, 0])?, plain(alloc, &[7i64, 8])?, true)?;
    Ok(vec![in alloc;
        (nine, "bool", "true; false; true; true; false; false; true; false; true"),
        (numbers, "i32?", "1; null; 3; 2147483647i32"),
        (utf8, "utf8?", "'ab'; null; ''; 'twelve bytes'"),
        (binary, "binary?", "x'6162636465666768696a6b6c6d'; x''"),
        (ArrayRef::of_constant(alloc, Scalar::primitive(7u8, WITH), 3)?, "u8?", "7; 7; 7"),
        (ArrayRef::of_dict(alloc, codes, some, false)?, "i64?", "90; null; 70; 90"),
        (whole, "i64", "8; 7"),
        (pairs, "fixed(i32, 2)?", "[1, 2]; null; [5, 6]; [7, 8]"),
        // Lists overlap.
        (lists, "list(i32)?", "[1, 2, 3]; null; []; [4, 5, 6, 7, 8]"),
        (
            records,
            "{a=i32?, b=fixed(i32, 2)?}?",
            "[1, [1, 2]]; null; [3, [5, 6]]; [2147483647i32, [7, 8]]",
        ),
        (empty, "{}", "[]; []"),
        (array_of(alloc, &[0u64; 0], Validity::AllInvalid)?, "u64?", ""),
        (array_of(alloc, &[1u8], Validity::AllInvalid.clone()?)?, "u8?", "null"),
    ]?)
}

pub fn run(alloc: Global, checks: &mut Checks<'_>) -> Done {
    for (number, (array, of, text)) in all_layouts(alloc)?.iter().enumerate() {
        let (wanted, found) = (rows(alloc, text)?, rows_of(alloc, array)?);
        hold!(checks, number; has(alloc, array, of, text)?);
        hold!(checks, number; has(alloc, &array.clone()?, of, text)?);
        hold!(checks, number; array.is_empty() == text.is_empty() && array.len() == wanted.len());
        hold!(checks, number; found.iter().all(|row| row.dtype() == array.dtype()));
        let is_so = match array.layout() {
            ArrayLayout::Primitive(all, _) => all.len() == array.len(),
            ArrayLayout::VarBinView(_, views, buffers, _) => {
                views.get(0).bytes(buffers).len() == if *of == "utf8?" { 2 } else { 13 }
            }
            _ => true,
        };
        checks.holds_at("layout", number, is_so);
        past_the_end(alloc, checks, array)?;
        slices(alloc, checks, array, &found)?;
        takes(alloc, checks, array, &found)?;
        filters(alloc, checks, array, &found)?;
    }
    for (error, number, name) in [
        (ArrayError::Memory, 1, "Memory"),
        (ArrayError::OutOfRange, 2, "OutOfRange"),
        (ArrayError::WrongType, 13, "WrongType"),
    ] {
        checks.holds(name, error.number() == number && error.name() == name);
    }
    done!(checks; ArrayError::NotUtf8.name() == "NotUtf8")
}

fn past_the_end(alloc: Global, checks: &mut Checks<'_>, array: &ArrayRef) -> Done {
    let (len, fault) = (array.len(), ArrayError::OutOfRange);
    refused(checks, "a row past the end", array.execute_scalar(alloc, len), fault)?;
    refused(checks, "a slice past the end", array.slice(alloc, 0..len + 1), fault)?;
    refused(checks, "a slice that ends before it begins", array.slice(alloc, 1..0), fault)
}

/// Each slice has its rows, and so has each slice of it.
fn slices(alloc: Global, checks: &mut Checks<'_>, array: &ArrayRef, rows: &[Scalar]) -> Done {
    for start in 0..=array.len() {
        for end in start..=array.len() {
            let (part, half) = (answered(array.slice(alloc, start..end))?, (end - start) / 2);
            let rest = answered(part.slice(alloc, half..end - start))?;
            hold!(checks; part.dtype() == array.dtype());
            hold!(checks; rows_of(alloc, &part)?.as_slice() == &rows[start..end]);
            hold!(checks; rows_of(alloc, &rest)?.as_slice() == &rows[start + half..end]);
        }
    }
    Ok(())
}

/// The rows backwards, with a null one where the position is null.
fn takes(alloc: Global, checks: &mut Checks<'_>, array: &ArrayRef, rows: &[Scalar]) -> Done {
    let len = array.len();
    let (mut places, mut there) = (Vec::new(alloc), Vec::new(alloc));
    for i in 0..len {
        places.push((len - 1 - i) as u16)?;
        there.push(i != 1)?;
    }
    let indices = array_of(alloc, &places, valid_where(alloc, &there)?)?;
    let taken = rows_of(alloc, &answered(array.take(alloc, &indices))?)?;
    hold!(checks; taken.len() == len);
    for i in 0..len {
        let wanted = if i == 1 { None } else { rows[len - 1 - i].value() };
        hold!(checks; eq_values(taken[i].value(), wanted));
    }
    let signed = array.take(alloc, &plain(alloc, &[0i8])?);
    refused(checks, "take at signed positions", signed, ArrayError::WrongType)?;
    let past = array.take(alloc, &plain(alloc, &[len as u32])?);
    refused(checks, "take past the end", past, ArrayError::OutOfRange)?;
    // A null position may lie there.
    let null = array_of(alloc, &[len as u32], Validity::AllInvalid)?;
    let taken = rows_of(alloc, &answered(array.take(alloc, &null))?)?;
    done!(checks; taken.len() == 1 && taken[0].is_null())
}

/// The rows that stand at even places, and none.
fn filters(alloc: Global, checks: &mut Checks<'_>, array: &ArrayRef, rows: &[Scalar]) -> Done {
    let mut places = Vec::new(alloc);
    for i in (0..array.len()).filter(|i| *i % 2 == 0) {
        places.push(i)?;
    }
    let mask = Mask::from_indices(alloc, array.len(), &places)?;
    let (kept, no_rows) =
        (answered(array.filter(alloc, &mask))?, Mask::new_false(alloc, array.len())?);
    let (found, none) = (rows_of(alloc, &kept)?, answered(array.filter(alloc, &no_rows))?);
    hold!(checks; mask.true_count() == places.len() && mask.len() == array.len());
    hold!(checks; found.len() == places.len() && kept.dtype() == array.dtype());
    hold!(checks; found.iter().zip(places.iter()).all(|(row, place)| row == &rows[*place]));
    hold!(checks; none.is_empty() && none.dtype() == array.dtype());
    let longer = array.filter(alloc, &Mask::new_true(alloc, array.len() + 1)?);
    refused(checks, "a mask of another length", longer, ArrayError::LengthMismatch)
}

/// A long text, and bytes of which some are no text.
const LONG: &str = "'a text that stands in a buffer'; ''";

/// Types, and values of which plain arrays are built.
const BUILT: [(&str, &str); 10] = [
    ("bool?", "true; null; false"),
    ("i32", "-7i32; 0i32; 2147483647i32"),
    ("i32?", "-7i32; 0i32; 2147483647i32"),
    ("i32?", ""),
    ("utf8?", "'twelve bytes'; 'thirteen byte'; null; ''; 'a text that stands in a buffer'"),
    ("binary", "x'00ff20616e642074656e206d6f7265'; x'ff'"),
    ("list(i32?)?", "[1i32, null]; null; []; [2i32, 3i32]"),
    ("fixed(i32, 2)?", "[1i32, 2i32]; null; [3i32, 4i32]"),
    ("{a=i32, b=list(utf8)?}?", "[1i32, ['one', 'another, which is long']]; null; [2i32, null]"),
    ("utf8?", LONG),
];

/// Types, values, other types, and whether the arrays of the values are cast to them: integers
/// where they have a place, and records by position.
const CASTS: [(&str, &str, &str, bool); 7] = [
    ("i32?", "-7i32; null; 200i32", "i64?", true),
    ("i32?", "-7i32; null; 200i32", "i8?", false),
    ("i32?", "-7i32; null; 200i32", "i32", false),
    ("utf8?", LONG, "utf8", true),
    ("utf8?", LONG, "binary?", false),
    ("list(i32?)?", "[1i32, null]; null; []", "list(i64?)?", true),
    ("{a=i32?, b=list(i32?)?}?", "[1i32, [2i32]]; null", "{b=i64?, a=list(i64?)?}?", true),
];

pub fn built(alloc: Global, checks: &mut Checks<'_>) -> Done {
    for (of, text) in BUILT {
        let (dtype, rows) = (dtype(alloc, of)?, rows(alloc, text)?);
        let array = answered(build_plain(alloc, &dtype, &lent(alloc, &rows)?))?;
        checks.holds(of, has(alloc, &array, of, text)?);
    }
    for (of, text, to, is_done) in CASTS {
        let (from, target, rows) = (dtype(alloc, of)?, dtype(alloc, to)?, rows(alloc, text)?);
        let array = answered(build_plain(alloc, &from, &lent(alloc, &rows)?))?;
        let cast = cast_array(alloc, &array, &target)?;
        checks.holds(to, cast.is_some() == is_done);
        if let Some(cast) = cast {
            checks.holds(to, has(alloc, &cast, to, text)?);
        }
    }
    let truths = dtype(alloc, "bool?")?;
    let (of_truths, seven) = (rows(alloc, BUILT[0].1)?, rows(alloc, "7i32; 7i32; 7i32")?);
    let others = rows(alloc, "7i32; null")?;
    let array = build_constant(alloc, &dtype(alloc, "i32?")?, seven[0].as_ref(), 3)?;
    hold!(checks; fits_dictionary(&truths, &lent(alloc, &of_truths)?));
    hold!(checks; !fits_dictionary(&truths, &[None, None]), has(alloc, &array, "i32?", "7; 7; 7")?);
    done!(checks; fits_constant(&lent(alloc, &seven)?) && !fits_constant(&lent(alloc, &others)?))
}
