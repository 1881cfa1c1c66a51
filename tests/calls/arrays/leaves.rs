//! Booleans, integers, texts and constants: the tests of their parts, their parts and what is made
//! of them; integers in the narrowest kind, as buffers, from bytes and as places, and texts and
//! bytes from iterators.

use crate::arrays::strings_of;
use crate::checks::Checks;
use crate::counted::{done, hold};
use crate::make_arrays::{
    Done, WITH, WITHOUT, answered, array_of, bools, holds, numbers, plain, refused, valid_where,
};
use crate::notation::dtype;
use bytes::Bytes;
use std::alloc::Global;
use std::rc::Rc;
use vortex_arrays::{
    ArrayError, ArrayRef, BinaryView, BitBuffer, BoolArray, BoolArrayExt, BoolArraySlotsExt,
    BoolData, Buffer, ConstantArray, ConstantArrayExt, ConstantArraySlotsExt, DictArray,
    PrimitiveArray, PrimitiveArrayBytes, PrimitiveArrayExt, PrimitiveArraySlotsExt, StringKind,
    Validity, VarBinViewArray, VarBinViewArrayExt, VarBinViewArrayIter, VarBinViewArraySlotsExt,
};
use vortex_dtype::{DType, DTypeError, PType};
use vortex_scalar::{Scalar, ScalarConstructors};

pub fn run(alloc: Global, checks: &mut Checks<'_>) -> Done {
    truths(alloc, checks)?;
    integers(alloc, checks)?;
    texts(alloc, checks)?;
    ill_formed(alloc, checks)?;
    constants(alloc, checks)
}

fn truths(alloc: Global, checks: &mut Checks<'_>) -> Done {
    let bits = || BitBuffer::from_bools(alloc, &[true, false, true]);
    let (short, valid) =
        (valid_where(alloc, &[true, false])?, valid_where(alloc, &[true, true, false])?);
    hold!(checks; BoolArray::validate(&bits()?, &short) == Err(ArrayError::LengthMismatch));
    hold!(checks; BoolArray::validate(&bits()?, &valid).is_ok());
    let array: BoolData = answered(BoolArray::try_new(alloc, bits()?, valid))?;
    let parts = array.clone()?.into_data_parts()?.clone()?;
    let indices = BoolArray::from_indices(alloc, 4, &[3, 1], Validity::NonNullable)?;
    hold!(checks; array.to_bit_buffer()?.value(2));
    hold!(checks; array.slots().validity.nullability().is_nullable(), parts.bits.len() == 3);
    hold!(checks; parts.validity.is_null(2, 3) && array.into_bit_buffer()?.value(0));
    hold!(checks; indices.to_bit_buffer()?.set_indices(alloc)?.as_slice() == [1, 3].as_slice());
    for (number, validity, wanted) in [
        (0, Validity::NonNullable, [true, false, true]),
        (1, Validity::AllValid, [true, false, true]),
        (2, Validity::AllInvalid, [false; 3]),
        (3, valid_where(alloc, &[false, true, true])?, [false, false, true]),
    ] {
        let mask = BoolArray::new(alloc, bits()?, validity)?.to_mask_fill_null_false(alloc)?;
        hold!(checks, number; mask.len() == 3 && (0..3).all(|i| mask.value(i) == wanted[i]));
    }
    Ok(())
}

fn integers(alloc: Global, checks: &mut Checks<'_>) -> Done {
    let array = numbers(alloc, &[7u32, 8], valid_where(alloc, &[true, false])?)?;
    let (items, long) = (array.to_numbers()?, valid_where(alloc, &[true, false, true])?);
    let other = Validity::Array(array_of(alloc, &[1u8, 1], Validity::NonNullable)?);
    hold!(checks; items.get(1) == 8 && array.slots().validity.is_null(1, 2));
    hold!(checks; PrimitiveArray::validate(&items, &long) == Err(ArrayError::LengthMismatch));
    hold!(checks; PrimitiveArray::validate(&items, &other) == Err(ArrayError::WrongType));
    hold!(checks; array.into_data_parts()?.clone()?.numbers.ptype() == PType::U32);
    let none = PrimitiveArray::empty::<i8>(alloc, WITH)?;
    let some = [Some(-1i8), None, Some(i8::MAX)];
    let wanted = [Some(-1), None, Some(127)];
    hold!(checks; none.is_empty() && none.nullability().is_nullable());
    hold!(checks; holds(PrimitiveArray::from_options(alloc, &some)?.as_array(), &wanted));
    done!(checks; holds(PrimitiveArray::from_option_iter(alloc, some)?.as_array(), &wanted))
}

/// 13 bytes that are no text.
const NO_TEXT: &[u8] = b"\xffthirteen byt";

fn texts(alloc: Global, checks: &mut Checks<'_>) -> Done {
    let views = [BinaryView::new_inlined(b"short"), BinaryView::make_view(NO_TEXT, 0, 0)];
    let views = Buffer::from_vec(Vec::from_array(alloc, views)?)?;
    let buffers = Rc::new(alloc, vec![in alloc; Bytes::from_static(NO_TEXT)]?)?;
    let first = valid_where(alloc, &[true, false])?;
    let (with, without) = (DType::Utf8(WITH), DType::Binary(WITHOUT));
    let (valid, none) = (Validity::AllValid, Validity::NonNullable);
    for (name, buffers, dtype, validity, wanted) in [
        ("a null that is no text", buffers.as_slice(), &with, &first, Ok(())),
        ("what is no text", buffers.as_slice(), &with, &valid, Err(ArrayError::NotUtf8)),
        ("without buffers", &[], &without, &none, Err(ArrayError::BadView)),
        ("another nullability", buffers.as_slice(), &without, &valid, Err(ArrayError::WrongType)),
    ] {
        checks.holds(name, VarBinViewArray::validate(&views, buffers, dtype, validity) == wanted);
    }
    let array = answered(VarBinViewArray::try_new(alloc, views, buffers, without, none))?;
    hold!(checks; array.dtype_parts() == (false, WITHOUT));
    hold!(checks; !array.varbinview_validity()?.is_null(1, 2));
    hold!(checks; array.slots().validity.nullability() == WITHOUT);
    let parts = array.into_data_parts()?.clone()?;
    let (views, buffers) = (parts.views, parts.buffers);
    let again = VarBinViewArray::new(alloc, views, buffers, parts.dtype, parts.validity)?;
    done!(checks; again.bytes_at(1) == NO_TEXT && *again.buffer(0) == Bytes::from_static(NO_TEXT))
}

/// Views of 13 bytes that lie past their buffer's end, have another prefix or name no buffer, and
/// one that lies there. Of null rows all may stand.
fn ill_formed(alloc: Global, checks: &mut Checks<'_>) -> Done {
    let bytes = b"17 bytes in all..";
    let (with, without) = (DType::Utf8(WITH), DType::Utf8(WITHOUT));
    let bad = Err(ArrayError::BadView);
    for (name, view, wanted) in [
        ("a view past its buffer", BinaryView::make_view(&bytes[4..], 0, 5), bad),
        ("a view of another prefix", BinaryView::new_ref(13, *b"else", 0, 4), bad),
        ("a view of no buffer", BinaryView::make_view(&bytes[4..], 1, 4), bad),
        ("a view that lies there", BinaryView::make_view(&bytes[4..], 0, 4), Ok(())),
    ] {
        let views = Buffer::from_vec(vec![in alloc; view]?)?;
        let buffers = vec![in alloc; Bytes::from_static(bytes)]?;
        let found = VarBinViewArray::validate(&views, &buffers, &without, &Validity::NonNullable);
        checks.holds(name, found == wanted);
        let found = VarBinViewArray::validate(&views, &buffers, &with, &Validity::AllInvalid);
        checks.holds(name, found.is_ok());
    }
    Ok(())
}

fn constants(alloc: Global, checks: &mut Checks<'_>) -> Done {
    let seven = || Scalar::primitive(7u8, WITH);
    let array = answered(ConstantArray::try_new(alloc, seven(), 4))?;
    let null = ConstantArray::new_unchecked(alloc, Scalar::null(DType::Bool(WITH)), 2)?;
    let _slots = array.slots();
    hold!(checks; ConstantArray::validate(&seven(), 4).is_ok() && *array.scalar() == seven());
    hold!(checks; !array.validity(alloc)?.is_null(3, 4) && null.validity(alloc)?.is_null(0, 2));
    let parts = array.into_data_parts()?.clone()?;
    done!(checks; parts.len == 4 && !parts.scalar.is_null())
}

pub fn integers_made(alloc: Global, checks: &mut Checks<'_>) -> Done {
    narrowed(alloc, checks)?;
    buffers(alloc, checks)?;
    from_bytes(alloc, checks)?;
    places(alloc, checks)?;
    kinds(alloc, checks)
}

fn narrowed(alloc: Global, checks: &mut Checks<'_>) -> Done {
    let (valid, none) = (valid_where(alloc, &[true, true, false])?, || Validity::NonNullable);
    for (array, ptype, rows) in [
        (
            numbers(alloc, &[1i64, -128, 1000], valid)?,
            PType::I8,
            [Some(1), Some(-128), None].as_slice(),
        ),
        (numbers(alloc, &[0u32, 300], none())?, PType::U16, &[Some(0), Some(300)]),
        (numbers(alloc, &[70_000i32], Validity::AllInvalid)?, PType::I8, &[None]),
        (numbers(alloc, &[0u64; 0], Validity::AllValid)?, PType::U8, &[]),
        (numbers(alloc, &[-129i64], none())?, PType::I16, &[Some(-129)]),
        (numbers(alloc, &[128i64], none())?, PType::I16, &[Some(128)]),
        (numbers(alloc, &[255u64], none())?, PType::U8, &[Some(255)]),
        (numbers(alloc, &[-2_147_483_649i64], none())?, PType::I64, &[Some(-2_147_483_649)]),
        (numbers(alloc, &[-1i8], none())?, PType::I8, &[Some(-1)]),
    ] {
        let narrow = array.narrow(alloc)?;
        checks.holds(ptype.as_str(), narrow.ptype() == ptype && holds(narrow.as_array(), rows));
    }
    Ok(())
}

fn buffers(alloc: Global, checks: &mut Checks<'_>) -> Done {
    let array = numbers(alloc, &[-1i16, 7], Validity::AllValid)?;
    let lent: Buffer<i16> = array.to_buffer()?;
    let taken: Buffer<i16> = array.into_buffer()?;
    let array = numbers(alloc, &[-1i16, 7, 8], valid_where(alloc, &[true, false, true])?)?;
    let natural = array.reinterpret_cast(alloc, PType::U16)?;
    let again = natural.reinterpret_cast(alloc, PType::I16)?;
    done!(checks;
        lent.as_slice() == [-1, 7].as_slice() && taken.as_slice() == [-1, 7].as_slice(),
        holds(natural.as_array(), &[Some(65_535), None, Some(8)]) && natural.ptype() == PType::U16,
        holds(again.as_array(), &[Some(-1), None, Some(8)]),
    )
}

fn from_bytes(alloc: Global, checks: &mut Checks<'_>) -> Done {
    let (bytes, none) = (Bytes::from_static(b"\x01\x00\xff\xff\x00\x80"), || Validity::NonNullable);
    let array = PrimitiveArray::from_byte_buffer(alloc, bytes.clone()?, PType::I16, none());
    hold!(checks; holds(answered(array)?.as_array(), &[Some(1), Some(-1), Some(-32_768)]));
    let valid = valid_where(alloc, &[true, false, true, false, true])?;
    let array = PrimitiveArray::from_values_byte_buffer(alloc, bytes, PType::U16, valid, 5);
    let wanted = [Some(1), None, Some(65_535), None, Some(32_768)];
    hold!(checks; holds(answered(array)?.as_array(), &wanted));
    let bytes = || Bytes::from_static(b"\x01\x00\xff");
    let floats = PrimitiveArray::from_byte_buffer(alloc, bytes(), PType::F32, none());
    refused(checks, "from_byte_buffer of floats", floats, ArrayError::WrongType)?;
    let rest = PrimitiveArray::from_byte_buffer(alloc, bytes(), PType::U16, none());
    refused(checks, "from_byte_buffer with a rest", rest, ArrayError::LengthMismatch)?;
    let valid = valid_where(alloc, &[true, false])?;
    let few = PrimitiveArray::from_values_byte_buffer(alloc, bytes(), PType::U8, valid, 2);
    refused(checks, "from_values_byte_buffer of many", few, ArrayError::LengthMismatch)
}

/// Arrays, and the least count of places that all of their rows are. Null is no place that could be
/// wrong.
fn places(alloc: Global, checks: &mut Checks<'_>) -> Done {
    let beside = valid_where(alloc, &[true, false, false])?;
    let named =
        ArrayRef::of_dict(alloc, plain(alloc, &[1u8, 1])?, plain(alloc, &[9i32, 3])?, false)?;
    for (array, least) in [
        (plain(alloc, &[1i32, 7, 0])?, 8),
        (array_of(alloc, &[1i32, 7, -3], beside)?, 2),
        (array_of(alloc, &[1i32, 7, -3], Validity::AllInvalid)?, 0),
        (ArrayRef::of_constant(alloc, Scalar::primitive(4u8, WITHOUT), 2)?, 5),
        (named.clone()?, 4),
    ] {
        hold!(checks, least; array.are_within(least));
        hold!(checks, least; least == 0 || !array.are_within(least - 1));
    }
    let is_so = DictArray::of_array(named).is_ok_and(|array| {
        holds(array.codes(), &[Some(1), Some(1)]) && holds(array.values(), &[Some(9), Some(3)])
    });
    done!(checks; is_so)
}

/// Whether arrays are of booleans without null, of integers, and of those without sign.
fn kinds(alloc: Global, checks: &mut Checks<'_>) -> Done {
    let bits = BitBuffer::from_bools(alloc, &[true])?;
    let texts = strings_of(alloc, StringKind::Utf8, &[b"a".as_slice()], Validity::NonNullable)?;
    for (number, array, is_so) in [
        (0, bools(alloc, &[true])?, (true, false, false)),
        (1, ArrayRef::of_bools(alloc, bits, Validity::AllValid)?, (false, false, false)),
        (2, array_of(alloc, &[1u16], Validity::AllValid)?, (false, true, true)),
        (3, plain(alloc, &[1i16])?, (false, true, false)),
        (4, texts, (false, false, false)),
    ] {
        let found = (array.is_non_nullable_bool(), array.is_integer(), array.is_unsigned());
        hold!(checks, number; found == is_so);
    }
    Ok(())
}

/// Whether the array is of the type and its views stand for these values, `None` for null.
fn has_values(
    alloc: Global,
    array: &VarBinViewArray,
    dtype: &DType,
    values: &[Option<&[u8]>],
) -> Result<bool, DTypeError> {
    let found = array.resolved_views(alloc)?;
    let mut same = *array.dtype() == *dtype && found.as_slice() == values;
    for i in 0..found.len().min(values.len()) {
        same = same && array.as_array().is_valid(i) == values[i].is_some();
    }
    Ok(same)
}

/// The array has these values, and so has one made of its views, of which it keeps long ones.
fn are_texts(
    alloc: Global,
    checks: &mut Checks<'_>,
    of: &str,
    array: &VarBinViewArray,
    wanted: &[Option<&[u8]>],
) -> Done {
    let of_type = dtype(alloc, of)?;
    let again = VarBinViewArray::from_iter(alloc, array.resolved_views(alloc)?, of_type.clone()?);
    checks.holds(of, has_values(alloc, array, &of_type, wanted)?);
    checks.holds(of, has_values(alloc, &answered(again)?, &of_type, wanted)?);
    let (mut lengths, mut kept) = (0, 0);
    for (view, value) in array.views().iter().zip(wanted) {
        let length = value.map_or(0, |value| value.len());
        checks.holds(of, view.is_inlined() == (length <= 12));
        lengths += if length <= 12 { 0 } else { length };
    }
    for buffer in array.data_buffers() {
        kept += buffer.len();
    }
    checks.holds(of, kept == lengths);
    Ok(())
}

/// Texts of twelve bytes and of more.
const LONG: [&str; 3] = ["twelve bytes", "thirteen byte", "a text that stands in a buffer"];

pub fn from_iterators(alloc: Global, checks: &mut Checks<'_>) -> Done {
    let long = LONG.map(|it| Some(it.as_bytes()));
    let none: [&str; 0] = [];
    let bytes = [b"\xff".as_slice(), b"\x00 and more than twelve".as_slice()];
    let (utf8, binary) = (DType::Utf8(WITH), DType::Binary(WITH));
    let (first, last) = ([Some(bytes[0]), None], [Some(bytes[1]), None]);
    let mixed = [Some("µ"), None, Some(LONG[2])];
    for (of, array, wanted) in [
        ("utf8", VarBinViewArray::from_iter_str(alloc, LONG), long.as_slice()),
        ("utf8", VarBinViewArray::from_iter_str(alloc, none), &[]),
        (
            "utf8?",
            VarBinViewArray::from_iter_nullable_str(alloc, [Some("a"), None, Some("")]),
            &[Some(b"a".as_slice()), None, Some(b"".as_slice())],
        ),
        ("binary", VarBinViewArray::from_iter_bin(alloc, bytes), &[Some(bytes[0]), Some(bytes[1])]),
        ("binary?", VarBinViewArray::from_iter_nullable_bin(alloc, last), &last),
        ("binary?", VarBinViewArray::from_iter_nullable_bin(alloc, [first[0]]), &first[..1]),
        (
            "utf8?",
            VarBinViewArray::from_iter(alloc, mixed, utf8),
            &[Some("µ".as_bytes()), None, Some(LONG[2].as_bytes())],
        ),
        ("binary?", VarBinViewArray::from_iter(alloc, first, binary), &first),
    ] {
        are_texts(alloc, checks, of, &answered(array)?, wanted)?;
    }
    refusals(alloc, checks)
}

fn refusals(alloc: Global, checks: &mut Checks<'_>) -> Done {
    for (of, fault) in [
        ("u8", ArrayError::WrongType),
        ("utf8", ArrayError::NullInNonNullable),
        ("utf8?", ArrayError::NotUtf8),
        ("binary", ArrayError::NullInNonNullable),
    ] {
        let bad = [Some(b"\xff".as_slice()), None];
        let answer = VarBinViewArray::from_iter(alloc, bad, dtype(alloc, of)?);
        refused(checks, of, answer, fault)?;
    }
    Ok(())
}
