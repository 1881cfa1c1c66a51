//! Rows that are chosen: by a range, by positions, by a mask, and hidden by nulls; and columns in
//! other layouts and types: cast, built of their rows, narrowed, and texts read.

use crate::column::{Column, Made, Play, copies, has_rows, is_refused, rows_at};
use crate::grow::{codes, validity};
use crate::make_arrays::{WITH, WITHOUT, answered};
use crate::values::{KINDS, Value, is_within};
use vortex_arrays::{
    ArrayError, ArrayRefExt, BitBuffer, Mask, PrimitiveArray, PrimitiveArrayExt, ValidityExt,
    VarBinViewArray, VarBinViewArrayExt, build_constant, build_dictionary, build_plain, cast_array,
    dict_encode, fits_constant, fits_dictionary, is_constant, mask,
};
use vortex_dtype::{DType, PType};
use vortex_scalar::{ScalarValue, eq_values};

pub fn slice(play: &mut Play<'_, '_>, column: Column) -> Made {
    let (alloc, count) = (play.alloc, column.rows.len());
    let past = column.array.slice(alloc, 0..count + 1);
    play.holds("slice past the end", is_refused(past, ArrayError::OutOfRange));
    let start = play.dice.below(count + 1);
    let end = start + play.dice.below(count - start + 1);
    let array = answered(column.array.slice(alloc, start..end))?;
    play.done("slice", array, rows_at(alloc, &column.rows, (start..end).map(|i| Some(i)))?)
}

pub fn take(play: &mut Play<'_, '_>, column: Column) -> Made {
    let (alloc, count) = (play.alloc, play.dice.below(9));
    let (indices, named) = codes(alloc, &mut play.dice, column.rows.len(), count)?;
    let array = answered(column.array.take(alloc, &indices))?;
    if named.iter().any(|it| it.is_some()) {
        let none = answered(column.array.slice(alloc, 0..0))?;
        let outside = none.take(alloc, &indices);
        play.holds("take outside", is_refused(outside, ArrayError::OutOfRange));
    }
    play.done("take", array, rows_at(alloc, &column.rows, named.iter().map(|it| *it))?)
}

pub fn filter(play: &mut Play<'_, '_>, column: Column) -> Made {
    let alloc = play.alloc;
    let (mut bits, mut places) = (Vec::new(alloc), Vec::new(alloc));
    for i in 0..column.rows.len() {
        bits.push(!play.dice.one_in(3))?;
        if bits[i] {
            places.push(Some(i))?;
        }
    }
    let kept = Mask::from_buffer(BitBuffer::from_bools(alloc, &bits)?);
    let array = answered(column.array.filter(alloc, &kept))?;
    bits.push(true)?;
    let longer = Mask::from_buffer(BitBuffer::from_bools(alloc, &bits)?);
    let refused = is_refused(column.array.filter(alloc, &longer), ArrayError::LengthMismatch);
    play.holds("filter by a longer mask", refused);
    play.done("filter", array, rows_at(alloc, &column.rows, places.iter().map(|it| *it))?)
}

pub fn mask_rows(play: &mut Play<'_, '_>, column: Column) -> Made {
    let (alloc, count) = (play.alloc, column.rows.len());
    let (nulls, valid) = validity(alloc, &mut play.dice, count)?;
    let array = mask(alloc, &nulls, &column.array)?;
    let places = (0..count).map(|i| if valid[i] { Some(i) } else { None });
    let rows = rows_at(alloc, &column.rows, places)?;
    let told = array.validity(alloc)?.to_mask(alloc, count)?;
    let is_told = told.len() == count && (0..count).all(|i| told.value(i) == rows[i].is_some());
    play.holds("validity", is_told);
    play.done("mask", array, rows)
}

/// The column as one of another integer type, or with null, where that can be.
pub fn cast(play: &mut Play<'_, '_>, column: Column) -> Made {
    let Column { array, rows } = column;
    let (ptype, _, _) = KINDS[play.dice.below(8)];
    let nullability = if play.dice.one_in(3) { WITHOUT } else { WITH };
    let target = match array.dtype() {
        DType::Primitive(_, _) => DType::Primitive(ptype, nullability),
        other => other.as_nullable()?,
    };
    let is_possible = rows.iter().all(|row| converts(row, &target));
    let Some(cast) = cast_array(play.alloc, &array, &target)? else {
        return Ok(Column { array, rows });
    };
    play.holds("cast, its type", *cast.dtype() == target && is_possible);
    play.done("cast", cast, rows)
}

/// Whether the row is one of the type, of which another integer type or null is asked at most.
fn converts(row: &Value, target: &DType) -> bool {
    match (row, target) {
        (None, _) => target.is_nullable(),
        (Some(ScalarValue::Primitive(item)), DType::Primitive(ptype, _)) => {
            is_within(*ptype, item.get())
        }
        _ => true,
    }
}

/// The column built of its rows, where the type has a layout for them.
pub fn build(play: &mut Play<'_, '_>, column: Column) -> Made {
    let (alloc, Column { array, rows }) = (play.alloc, column);
    // A row that was widened keeps the kind that it had, so rows are read again.
    let (mut read, mut lent) = (Vec::new(alloc), Vec::new(alloc));
    for i in 0..array.len() {
        read.push(answered(array.execute_scalar(alloc, i))?.into_parts().1)?;
    }
    for row in &read {
        lent.push(row.as_ref())?;
    }
    let (dtype, values) = (array.dtype(), lent.as_slice());
    let built = match play.dice.below(3) {
        0 if fits_dictionary(dtype, values) => answered(build_dictionary(alloc, dtype, values))?,
        1 if fits_constant(values) => build_constant(alloc, dtype, values[0], values.len())?,
        _ => answered(build_plain(alloc, dtype, values))?,
    };
    let are_equal =
        !rows.is_empty() && rows.iter().all(|row| eq_values(row.as_ref(), rows[0].as_ref()));
    play.holds("build, its type", *built.dtype() == *dtype);
    play.holds("fits_constant", are_equal == fits_constant(values));
    if let Some(equal) = is_constant(alloc, &array)? {
        play.holds("is_constant", equal == are_equal);
    }
    if let Some(array) = dict_encode(alloc, &built)? {
        play.done("dict_encode", array, copies(alloc, &rows)?)?;
    }
    play.done("build", built, rows)
}

/// The column in the narrowest kind of its signedness, where it is one of plain integers.
pub fn narrow(play: &mut Play<'_, '_>, column: Column) -> Made {
    let Column { array, rows } = column;
    let numbers = match PrimitiveArray::of_array(array) {
        Ok(numbers) => numbers,
        Err(array) => return Ok(Column { array, rows }),
    };
    let narrow = numbers.narrow(play.alloc)?;
    let wanted = narrowest(numbers.ptype().is_unsigned_int(), &rows);
    play.holds("narrow, its kind", narrow.ptype() == wanted);
    play.done("narrow", narrow.into_array(), rows)
}

/// The first kind of this signedness that has all rows.
fn narrowest(is_natural: bool, rows: &[Value]) -> PType {
    let mut found = PType::I64;
    for (ptype, _, _) in KINDS.iter().rev() {
        let dtype = DType::Primitive(*ptype, WITH);
        if ptype.is_unsigned_int() == is_natural && rows.iter().all(|row| converts(row, &dtype)) {
            found = *ptype;
        }
    }
    found
}

/// The column from its own views and buffers, where it is one of texts or bytes.
pub fn read_texts(play: &mut Play<'_, '_>, column: Column) -> Made {
    let (alloc, Column { array, rows }) = (play.alloc, column);
    let strings = match VarBinViewArray::of_array(array) {
        Ok(strings) => strings,
        Err(array) => return Ok(Column { array, rows }),
    };
    let same = (0..rows.len()).all(|i| match &rows[i] {
        Some(ScalarValue::Utf8(text)) => strings.bytes_at(i) == text.as_bytes().as_slice(),
        Some(ScalarValue::Binary(bytes)) => strings.bytes_at(i) == bytes.as_slice(),
        _ => true,
    });
    play.holds("bytes_at", same);
    let (dtype, parts) = (strings.dtype().clone()?, strings.into_data_parts()?);
    let (views, buffers) = (parts.views, parts.buffers);
    let again = VarBinViewArray::try_new(alloc, views, buffers, parts.dtype, parts.validity);
    let again = answered(again)?;
    let same = has_rows(alloc, again.as_array(), &rows)? && *again.dtype() == dtype;
    play.holds("texts of their parts", same);
    Ok(Column { array: again.into_array(), rows })
}
