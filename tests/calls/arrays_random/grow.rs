//! Columns that nobody chose: a layout is drawn, then its parts.

use crate::column::{Column, Dice, Made, rows_at};
use crate::make_arrays::{WITHOUT, answered, bools, buffer, plain};
use crate::values::{KINDS, Value, copied, number_of};
use bytes::Bytes;
use std::alloc::Global;
use std::rc::Rc;
use vortex_arrays::{
    ArrayRef, BinaryView, BitBuffer, BoolArray, Buffer, DictArray, Element, FixedSizeListArray,
    ListViewArray, PrimitiveArray, PrimitiveBuffer, StructArray, Validity, VarBinViewArray,
};
use vortex_dtype::{
    BufferString, DType, DTypeError, FieldName, FieldNames, PType, match_each_integer_ptype,
};
use vortex_scalar::{Scalar, ScalarConstructors, ScalarValue};

/// A column of so many rows, of layouts up to this depth.
pub fn grow(alloc: Global, dice: &mut Dice, depth: usize, count: usize) -> Made {
    let drawn = if depth == 0 { 0 } else { dice.below(7) };
    match drawn {
        0 => leaf(alloc, dice, count),
        1 => constant(alloc, dice, depth, count),
        2 => dictionary(alloc, dice, depth, count),
        3 => fixed_lists(alloc, dice, depth, count),
        4 | 5 => list_views(alloc, dice, depth, count),
        _ => records(alloc, dice, depth, count),
    }
}

fn constant(alloc: Global, dice: &mut Dice, depth: usize, count: usize) -> Made {
    let one = grow(alloc, dice, depth - 1, 1)?;
    let value = answered(one.array.execute_scalar(alloc, 0))?;
    let rows = rows_at(alloc, &one.rows, (0..count).map(|_| Some(0)))?;
    Ok(Column { array: ArrayRef::of_constant(alloc, value, count)?, rows })
}

fn dictionary(alloc: Global, dice: &mut Dice, depth: usize, count: usize) -> Made {
    let distinct = dice.below(4);
    let values = grow(alloc, dice, depth - 1, distinct)?;
    let (codes, named) = codes(alloc, dice, values.rows.len(), count)?;
    let rows = rows_at(alloc, &values.rows, named.iter().map(|it| *it))?;
    let array = answered(DictArray::try_new(alloc, codes, values.array))?.into_array();
    Ok(Column { array, rows })
}

fn fixed_lists(alloc: Global, dice: &mut Dice, depth: usize, count: usize) -> Made {
    let size = dice.below(4);
    let elements = grow(alloc, dice, depth - 1, count * size)?;
    let (nulls, valid) = validity(alloc, dice, count)?;
    let mut rows = Vec::new(alloc);
    for i in 0..count {
        rows.push(list_row(alloc, &elements.rows, valid[i], i * size, size)?)?;
    }
    let lists = FixedSizeListArray::try_new(alloc, elements.array, size as u32, nulls, count);
    Ok(Column { array: answered(lists)?.into_array(), rows })
}

/// The row of a list, or null.
fn list_row(
    alloc: Global,
    elements: &[Value],
    is_valid: bool,
    offset: usize,
    size: usize,
) -> Result<Value, DTypeError> {
    if !is_valid {
        return Ok(None);
    }
    let items = rows_at(alloc, elements, (offset..offset + size).map(|i| Some(i)))?;
    Ok(Some(ScalarValue::Tuple(items)))
}

/// Lists in any order, of which some overlap, some leave gaps and some are empty.
fn list_views(alloc: Global, dice: &mut Dice, depth: usize, count: usize) -> Made {
    let drawn = dice.below(12);
    let elements = grow(alloc, dice, depth - 1, drawn)?;
    let total = elements.rows.len();
    let (nulls, valid) = validity(alloc, dice, count)?;
    let (mut offsets, mut sizes, mut rows) = (Vec::new(alloc), Vec::new(alloc), Vec::new(alloc));
    let mut next = 0;
    for i in 0..count {
        let offset = if dice.one_in(2) { next } else { dice.below(total + 1) };
        let size = dice.below(4).min(total - offset);
        next = offset + size;
        offsets.push(offset as i128)?;
        sizes.push(size as i128)?;
        rows.push(list_row(alloc, &elements.rows, valid[i], offset, size)?)?;
    }
    let (offsets, sizes) = (integers(alloc, dice, &offsets)?, integers(alloc, dice, &sizes)?);
    let lists = ListViewArray::try_new(alloc, elements.array, offsets, sizes, nulls);
    Ok(Column { array: answered(lists)?.into_array(), rows })
}

fn records(alloc: Global, dice: &mut Dice, depth: usize, count: usize) -> Made {
    let (mut names, mut fields, mut columns) = (Vec::new(alloc), Vec::new(alloc), Vec::new(alloc));
    for name in ["a", "b", "c"] {
        if dice.one_in(3) {
            continue;
        }
        let column = grow(alloc, dice, depth - 1, count)?;
        names.push(FieldName::new(alloc, name)?)?;
        fields.push(column.array)?;
        columns.push(column.rows)?;
    }
    let ((nulls, valid), mut rows) = (validity(alloc, dice, count)?, Vec::new(alloc));
    for i in 0..count {
        let mut parts = Vec::new(alloc);
        for column in &columns {
            parts.push(copied(column[i].as_ref())?)?;
        }
        rows.push(if valid[i] { Some(ScalarValue::Tuple(parts)) } else { None })?;
    }
    let names = Rc::new(alloc, FieldNames::new(names))?;
    let array = answered(StructArray::try_new(alloc, names, fields, count, nulls))?.into_array();
    Ok(Column { array, rows })
}

/// A column of booleans, integers, texts or bytes.
pub fn leaf(alloc: Global, dice: &mut Dice, count: usize) -> Made {
    let (nulls, valid) = validity(alloc, dice, count)?;
    let mut column = match dice.below(4) {
        0 => truths(alloc, dice, nulls, count)?,
        1 => strings(alloc, dice, nulls, &valid)?,
        _ => numbers(alloc, dice, nulls, count)?,
    };
    for i in 0..count {
        if !valid[i] {
            column.rows[i] = None;
        }
    }
    Ok(column)
}

fn truths(alloc: Global, dice: &mut Dice, nulls: Validity, count: usize) -> Made {
    let (mut bits, mut rows) = (Vec::new(alloc), Vec::new(alloc));
    for _row in 0..count {
        let bit = dice.one_in(2);
        bits.push(bit)?;
        rows.push(Some(ScalarValue::Bool(bit)))?;
    }
    let bits = BitBuffer::from_bools(alloc, &bits)?;
    Ok(Column { array: answered(BoolArray::try_new(alloc, bits, nulls))?.into_array(), rows })
}

fn numbers(alloc: Global, dice: &mut Dice, nulls: Validity, count: usize) -> Made {
    let (ptype, least, greatest) = KINDS[dice.below(8)];
    let (mut items, mut rows) = (Vec::new(alloc), Vec::new(alloc));
    for _row in 0..count {
        let item = dice.integer(least, greatest);
        items.push(item)?;
        rows.push(Some(ScalarValue::Primitive(number_of(ptype, item))))?;
    }
    let items = buffer_of(alloc, ptype, &items)?;
    let array = answered(PrimitiveArray::try_new(alloc, items, nulls))?.into_array();
    Ok(Column { array, rows })
}

/// Integers of a kind.
fn buffer_of(alloc: Global, ptype: PType, items: &[i128]) -> Result<PrimitiveBuffer, DTypeError> {
    match_each_integer_ptype!(ptype, typed(alloc, items))
}

fn typed<T: Element>(alloc: Global, items: &[i128]) -> Result<PrimitiveBuffer, DTypeError> {
    let mut list = Vec::new(alloc);
    for item in items {
        list.push(T::of(*item).ok_or(DTypeError::Malformed)?)?;
    }
    Ok(PrimitiveBuffer::from_buffer(buffer(alloc, &list)?))
}

/// Texts that stand in views and in buffers.
const TEXTS: [&str; 7] = [
    "",
    "a",
    "µ ½",
    "twelve bytes",
    "thirteen byte",
    "a text that stands in a buffer",
    "another text, which is longer than most of them",
];

/// Texts or bytes by views over two buffers. The views of null rows name no buffer.
fn strings(alloc: Global, dice: &mut Dice, nulls: Validity, valid: &[bool]) -> Made {
    let is_text = dice.one_in(2);
    let (mut views, mut rows) = (Vec::new(alloc), Vec::new(alloc));
    let mut buffers = [Vec::new(alloc), Vec::new(alloc)];
    for is_valid in valid {
        let value = TEXTS[dice.below(7)];
        if *is_valid {
            let index = dice.below(2);
            let offset = buffers[index].len() as u32;
            buffers[index].extend_from_slice(value.as_bytes())?;
            views.push(BinaryView::make_view(value.as_bytes(), index as u32, offset))?;
        } else {
            views.push(BinaryView::new_ref(99, [0; 4], 7, u32::MAX))?;
        }
        rows.push(Some(if is_text {
            ScalarValue::Utf8(BufferString::copy_from_str(alloc, value)?)
        } else {
            ScalarValue::Binary(Bytes::copy_from_slice(alloc, value.as_bytes())?)
        }))?;
    }
    let [first, second] = buffers;
    let shared = vec![in alloc; Bytes::from_vec(first)?, Bytes::from_vec(second)?]?;
    let (views, nullability) = (Buffer::from_vec(views)?, nulls.nullability());
    let dtype = if is_text { DType::Utf8(nullability) } else { DType::Binary(nullability) };
    let array = VarBinViewArray::try_new(alloc, views, Rc::new(alloc, shared)?, dtype, nulls);
    Ok(Column { array: answered(array)?.into_array(), rows })
}

/// A validity of so many rows, and which of them are not null.
pub fn validity(
    alloc: Global,
    dice: &mut Dice,
    count: usize,
) -> Result<(Validity, Vec<bool>), DTypeError> {
    let mut valid = Vec::new(alloc);
    let form = dice.below(8);
    for _row in 0..count {
        valid.push(form != 7 && (form < 4 || !dice.one_in(3)))?;
    }
    let validity = match form {
        0 | 1 | 2 => Validity::NonNullable,
        3 => Validity::AllValid,
        7 => Validity::AllInvalid,
        _ => Validity::Array(flags(alloc, dice, &valid)?),
    };
    Ok((validity, valid))
}

/// An array of these booleans without null, as bits, as a dictionary or, of one value, as a
/// constant.
fn flags(alloc: Global, dice: &mut Dice, valid: &[bool]) -> Result<ArrayRef, DTypeError> {
    if valid.is_empty() || dice.one_in(2) {
        return bools(alloc, valid);
    }
    if valid.iter().all(|it| *it) {
        return Ok(ArrayRef::of_constant(alloc, Scalar::bool(true, WITHOUT), valid.len())?);
    }
    let mut codes = Vec::new(alloc);
    for it in valid {
        codes.push(if *it { 0u8 } else { 1 })?;
    }
    let (codes, values) = (plain(alloc, &codes)?, bools(alloc, &[true, false])?);
    Ok(answered(DictArray::try_new(alloc, codes, values))?.into_array())
}

/// An array without null of these integers, which each kind has, as a plain one or as a dictionary.
fn integers(alloc: Global, dice: &mut Dice, items: &[i128]) -> Result<ArrayRef, DTypeError> {
    let values = buffer_of(alloc, KINDS[dice.below(8)].0, items)?;
    let values = ArrayRef::of_numbers(alloc, values, Validity::NonNullable)?;
    if dice.below(4) > 0 {
        return Ok(values);
    }
    let mut codes = Vec::new(alloc);
    for i in 0..items.len() {
        codes.push(i as u16)?;
    }
    Ok(answered(DictArray::try_new(alloc, plain(alloc, &codes)?, values))?.into_array())
}

/// Codes for so many rows into so many values, and which value each names.
pub fn codes(
    alloc: Global,
    dice: &mut Dice,
    values: usize,
    count: usize,
) -> Result<(ArrayRef, Vec<Option<usize>>), DTypeError> {
    let (mut nulls, valid) = validity(alloc, dice, count)?;
    if values == 0 {
        nulls = Validity::AllInvalid;
    }
    let (mut items, mut named) = (Vec::new(alloc), Vec::new(alloc));
    for i in 0..count {
        let code = if values > 0 && valid[i] { Some(dice.below(values)) } else { None };
        items.push(code.map_or(100, |code| code as i128))?;
        named.push(code)?;
    }
    let items = buffer_of(alloc, KINDS[dice.below(4)].0, &items)?;
    let codes = answered(PrimitiveArray::try_new(alloc, items, nulls))?.into_array();
    Ok((codes, named))
}
