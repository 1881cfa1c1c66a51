//! Arrays of each layout, masks and positions.

use crate::clock::Failed;
use bytes::Bytes;
use std::alloc::Global;
use std::rc::Rc;
use vortex_arrays::{
    ArrayRef, BinaryView, BitBuffer, Buffer, Element, Mask, PrimitiveBuffer, StringKind, Validity,
};
use vortex_dtype::{FieldNames, Nullability};
use vortex_scalar::{Scalar, ScalarConstructors};

#[derive(Clone, Copy)]
pub enum Layout {
    Truths,
    Integers,
    SomeIntegers,
    ShortTexts,
    LongTexts,
    Constant,
    Dictionary,
    FixedLists,
    Lists,
    Records,
}

/// All of them.
pub const LAYOUTS: [Layout; 10] = [
    Layout::Truths,
    Layout::Integers,
    Layout::SomeIntegers,
    Layout::ShortTexts,
    Layout::LongTexts,
    Layout::Constant,
    Layout::Dictionary,
    Layout::FixedLists,
    Layout::Lists,
    Layout::Records,
];

impl Layout {
    pub fn name(self) -> &'static str {
        match self {
            Layout::Truths => "truth values",
            Layout::Integers => "integers",
            Layout::SomeIntegers => "integers, a tenth null",
            Layout::ShortTexts => "texts of 8 bytes",
            Layout::LongTexts => "texts of 24 bytes",
            Layout::Constant => "a constant",
            Layout::Dictionary => "a dictionary of 1,000",
            Layout::FixedLists => "lists of size 3",
            Layout::Lists => "lists",
            Layout::Records => "records of two",
        }
    }

    pub fn is_leaf(self) -> bool {
        !matches!(&self, Layout::FixedLists | Layout::Lists | Layout::Records)
    }

    pub fn is_list(self) -> bool {
        matches!(&self, Layout::Lists)
    }

    pub fn is_number(self) -> bool {
        matches!(&self, Layout::Integers)
    }
}

/// An array of so many rows.
pub fn array_of(alloc: Global, layout: Layout, rows: usize) -> Result<ArrayRef, Failed> {
    match layout {
        Layout::Truths => truths(alloc, rows),
        Layout::Integers => integers(alloc, rows, Validity::NonNullable),
        Layout::SomeIntegers => {
            let bits = BitBuffer::collect_bool(alloc, rows, |i| i % 10 != 0)?;
            let valid = ArrayRef::of_bools(alloc, bits, Validity::NonNullable)?;
            integers(alloc, rows, Validity::Array(valid))
        }
        Layout::ShortTexts => texts(alloc, rows, 8),
        Layout::LongTexts => texts(alloc, rows, 24),
        Layout::Constant => {
            let seven = Scalar::primitive(7i64, Nullability::NonNullable);
            Ok(ArrayRef::of_constant(alloc, seven, rows)?)
        }
        Layout::Dictionary => {
            let codes = numbers(alloc, rows, |i| (mixed(i) % 1000) as u16, Validity::NonNullable)?;
            let values = integers(alloc, 1000, Validity::NonNullable)?;
            Ok(ArrayRef::of_dict(alloc, codes, values, false)?)
        }
        Layout::FixedLists => {
            let elements = numbers(alloc, 3 * rows, |i| i as i32, Validity::NonNullable)?;
            Ok(ArrayRef::of_fixed_lists(alloc, elements, 3, rows, Validity::NonNullable)?)
        }
        Layout::Lists => lists(alloc, rows),
        Layout::Records => records(alloc, rows),
    }
}

/// A number that looks random.
fn mixed(i: usize) -> u64 {
    let mut x = (i as u64).wrapping_mul(0x9E37_79B9_7F4A_7C15);
    x = (x ^ (x >> 29)).wrapping_mul(0xBF58_476D_1CE4_E5B9);
    x ^ (x >> 32)
}

fn numbers<T: Element, F: Fn(usize) -> T>(
    alloc: Global,
    rows: usize,
    item: F,
    validity: Validity,
) -> Result<ArrayRef, Failed> {
    let mut items = Vec::with_capacity(alloc, rows)?;
    for i in 0..rows {
        items.push(item(i))?;
    }
    let items = PrimitiveBuffer::from_buffer(Buffer::from_vec(items)?);
    Ok(ArrayRef::of_numbers(alloc, items, validity)?)
}

fn integers(alloc: Global, rows: usize, validity: Validity) -> Result<ArrayRef, Failed> {
    numbers(alloc, rows, |i| (mixed(i) % 2_000_000) as i64 - 1_000_000, validity)
}

fn truths(alloc: Global, rows: usize) -> Result<ArrayRef, Failed> {
    let bits = BitBuffer::collect_bool(alloc, rows, |i| mixed(i) % 2 == 0)?;
    Ok(ArrayRef::of_bools(alloc, bits, Validity::NonNullable)?)
}

/// Texts of so many bytes each, which stand end to end in one buffer if they are long.
fn texts(alloc: Global, rows: usize, length: usize) -> Result<ArrayRef, Failed> {
    let mut bytes = Vec::with_capacity(alloc, rows * length)?;
    for i in 0..rows * length {
        bytes.push(b'a' + (mixed(i) % 26) as u8)?;
    }
    let mut views = Vec::with_capacity(alloc, rows)?;
    for i in 0..rows {
        let value = &bytes[i * length..(i + 1) * length];
        views.push(BinaryView::make_view(value, 0, (i * length) as u32))?;
    }
    let mut buffers = Vec::new(alloc);
    buffers.push(Bytes::from_vec(bytes)?)?;
    let (views, buffers) = (Buffer::from_vec(views)?, Rc::new(alloc, buffers)?);
    let kind = StringKind::Utf8;
    Ok(ArrayRef::of_strings(alloc, kind, views, buffers, Validity::NonNullable)?)
}

/// Lists of three elements, each pair of neighbours swapped, so that no two follow one another.
fn lists(alloc: Global, rows: usize) -> Result<ArrayRef, Failed> {
    let elements = numbers(alloc, 3 * rows, |i| i as i32, Validity::NonNullable)?;
    let offsets = numbers(alloc, rows, |i| 3 * (i ^ 1) as u64, Validity::NonNullable)?;
    let sizes = numbers(alloc, rows, |_i| 3u64, Validity::NonNullable)?;
    let valid = Validity::NonNullable;
    Ok(ArrayRef::of_list_views(alloc, elements, offsets, sizes, false, valid)?)
}

fn records(alloc: Global, rows: usize) -> Result<ArrayRef, Failed> {
    let names = Rc::new(alloc, FieldNames::from_names(alloc, &["a", "b"])?)?;
    let mut fields = Vec::new(alloc);
    fields.push(integers(alloc, rows, Validity::NonNullable)?)?;
    fields.push(numbers(alloc, rows, |i| i as i32, Validity::NonNullable)?)?;
    Ok(ArrayRef::of_records(alloc, names, fields, rows, Validity::NonNullable)?)
}

/// A mask that keeps half of the rows.
pub fn half(alloc: Global, rows: usize) -> Result<Mask, Failed> {
    let bits = BitBuffer::collect_bool(alloc, rows, |i| mixed(i + 1) % 2 == 0)?;
    Ok(Mask::from_buffer(bits))
}

/// All positions of so many rows, out of order. Each comes up once where the number of rows has no
/// divisor in common with the step.
pub fn shuffled(alloc: Global, rows: usize) -> Result<ArrayRef, Failed> {
    numbers(alloc, rows, |i| (i * 7_368_787 % rows) as u64, Validity::NonNullable)
}
