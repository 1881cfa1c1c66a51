//! `Buffer`, `BitBuffer`, `PrimitiveBuffer` and `Mask`: their items, parts and picks, numbers that
//! are places, and bytes cut into buffers with views.

use crate::checks::Checks;
use crate::counted::{done, hold};
use crate::make_arrays::{Done, answered, buffer, buffer_of, refused};
use bytes::Bytes;
use std::alloc::Global;
use vortex_arrays::{
    ArrayError, BinaryView, BitBuffer, Buffer, Element, MAX_BUFFER_LEN, Mask, NativeBuffer,
    PrimitiveBuffer, build_views, build_views_from_offsets, offsets_to_lengths,
};
use vortex_dtype::PType;

pub fn run(alloc: Global, checks: &mut Checks<'_>) -> Done {
    items(alloc, checks)?;
    bits(alloc, checks)?;
    masks(alloc, checks)?;
    places(alloc, checks)?;
    joined(alloc, checks)?;
    of_kind(alloc, checks, [0u8, 7, u8::MAX], PType::U8)?;
    of_kind(alloc, checks, [0u16, 7, u16::MAX], PType::U16)?;
    of_kind(alloc, checks, [0u32, 7, u32::MAX], PType::U32)?;
    of_kind(alloc, checks, [0u64, 7, u64::MAX], PType::U64)?;
    of_kind(alloc, checks, [i8::MIN, -7, i8::MAX], PType::I8)?;
    of_kind(alloc, checks, [i16::MIN, -7, i16::MAX], PType::I16)?;
    of_kind(alloc, checks, [i32::MIN, -7, i32::MAX], PType::I32)?;
    of_kind(alloc, checks, [i64::MIN, -7, i64::MAX], PType::I64)
}

fn items(alloc: Global, checks: &mut Checks<'_>) -> Done {
    let all = buffer(alloc, &[0u32, 1, 2, 3, 4, 5, 6, 7, 8, 9])?;
    let part = all.slice(2..7)?;
    let less = part.slice(1..3)?;
    hold!(checks; all.len() == 10 && !all.is_empty() && all.get(9) == 9);
    for (name, found, wanted) in [
        ("slice", part.clone()?, [2, 3, 4, 5, 6].as_slice()),
        ("slice of a slice", less.clone()?, &[3, 4]),
        ("slice of none", less.slice(2..2)?, &[]),
        ("empty", Buffer::empty(alloc)?, &[]),
        ("gather", part.gather(alloc, &[2, 2, 0])?, &[4, 4, 2]),
    ] {
        let is_so = found.as_slice() == wanted && found.is_empty() == wanted.is_empty();
        checks.holds(name, is_so && found.len() == wanted.len());
    }
    Ok(())
}

fn are(buffer: &BitBuffer, wanted: &[bool]) -> bool {
    buffer.len() == wanted.len()
        && buffer.is_empty() == wanted.is_empty()
        && (0..wanted.len()).all(|i| buffer.value(i) == wanted[i])
}

fn bits(alloc: Global, checks: &mut Checks<'_>) -> Done {
    let (mut wanted, set) = ([false; 21], [0, 3, 7, 8, 15, 16, 20]);
    for i in set {
        wanted[i] = true;
    }
    let all = BitBuffer::from_bools(alloc, &wanted)?;
    let part = all.slice(3..18)?;
    let less = part.slice(4..9)?;
    hold!(checks; all.set_indices(alloc)?.as_slice() == set.as_slice());
    for (name, found, wanted) in [
        ("slice of bits", part, &wanted[3..18]),
        ("slice of a slice of bits", less.clone()?, &wanted[7..12]),
        ("gather of bits", all.gather(alloc, &[20, 1, 8, 8])?, &[true, false, true, true]),
        ("from_bools", all, &wanted),
        (
            "from_indices",
            BitBuffer::from_indices(alloc, 21, &[20, 3, 7, 8, 16, 15, 0, 3])?,
            &wanted,
        ),
        ("collect_bool", BitBuffer::collect_bool(alloc, 21, |i| wanted[i])?, &wanted),
        ("new_set", BitBuffer::new_set(alloc, 9)?, &[true; 9]),
        ("new_unset", BitBuffer::new_unset(alloc, 9)?, &[false; 9]),
        ("no bits", BitBuffer::new_set(alloc, 0)?, &[]),
    ] {
        checks.holds(name, are(&found, wanted) && found.to_bools(alloc)?.as_slice() == wanted);
    }
    Ok(())
}

fn masks(alloc: Global, checks: &mut Checks<'_>) -> Done {
    let bits = BitBuffer::collect_bool(alloc, 11, |i| i % 3 == 0)?;
    for (mask, places) in [
        (Mask::from_buffer(bits), [0, 3, 6, 9].as_slice()),
        (Mask::from_indices(alloc, 11, &[9, 1, 3])?, &[1, 3, 9]),
        (Mask::new_true(alloc, 3)?, &[0, 1, 2]),
        (Mask::new_false(alloc, 3)?, &[]),
    ] {
        hold!(checks, mask.len();
            mask.indices(alloc)?.as_slice() == places && mask.true_count() == places.len(),
            mask.all_true() == (places.len() == mask.len()), mask.all_false() == places.is_empty(),
        );
        for i in 0..mask.len() {
            let is_true = places.contains(&i);
            hold!(checks, i; mask.value(i) == is_true && mask.bit_buffer().value(i) == is_true);
        }
    }
    Ok(())
}

/// Bits at places that numbers name, and whether those of some numbers, or all, are places.
fn places(alloc: Global, checks: &mut Checks<'_>) -> Done {
    let numbers = buffer_of(alloc, &[2i32, 0, 9, -1, 1])?;
    let found = numbers.bits_at(alloc, &BitBuffer::from_bools(alloc, &[true, false, true])?)?;
    hold!(checks; are(&found, &[true, true, false, false, false]));
    for (there, count, wanted) in [
        ([true, true, false, false, true], 3, true),
        ([true, true, false, false, true], 2, false),
        ([false, false, true, false, false], 9, false),
        ([false, false, false, true, false], 9, false),
    ] {
        let there = BitBuffer::from_bools(alloc, &there)?;
        hold!(checks, count; numbers.are_within_where(&there, count) == wanted);
    }
    let places = buffer_of(alloc, &[2i64, 0, 5])?;
    hold!(checks; places.are_within(6) && places.are_within(usize::MAX));
    hold!(checks; !places.are_within(5) && !places.are_within(0));
    hold!(checks; !buffer_of(alloc, &[2i8, -1])?.are_within(9));
    hold!(checks; !buffer_of(alloc, &[u64::MAX])?.are_within(usize::MAX));
    done!(checks; PrimitiveBuffer::from_buffer(Buffer::<u16>::empty(alloc)?).are_within(0))
}

/// How many places the bits are that are joined, more than a byte has.
const LENGTH: usize = 21;

fn joined(alloc: Global, checks: &mut Checks<'_>) -> Done {
    let mine = BitBuffer::collect_bool(alloc, LENGTH, |i| i % 2 == 0)?;
    let theirs = BitBuffer::collect_bool(alloc, LENGTH, |i| i % 3 == 0)?;
    // At last bits that begin within a byte, at another place each.
    for (my_start, their_start, length) in [(0, 0, LENGTH), (1, 6, 11)] {
        let mine = mine.slice(my_start..my_start + length)?;
        let theirs = theirs.slice(their_start..their_start + length)?;
        let (both, either) = (mine.and(alloc, &theirs)?, mine.or(alloc, &theirs)?);
        hold!(checks; both.len() == length && either.len() == length);
        for i in 0..length {
            let (my, their) = ((i + my_start) % 2 == 0, (i + their_start) % 3 == 0);
            hold!(checks, i; both.value(i) == (my && their) && either.value(i) == (my || their));
        }
    }
    Ok(())
}

fn of_kind<T: NativeBuffer>(
    alloc: Global,
    checks: &mut Checks<'_>,
    items: [T; 3],
    ptype: PType,
) -> Done {
    let (numbers, taken) = (buffer_of(alloc, &items)?, T::into_numbers(buffer(alloc, &items)?));
    let (part, picked) = (numbers.slice(1..3)?.clone()?, numbers.gather(alloc, &[2, 0])?);
    let lent: Option<&Buffer<T>> = T::buffer_of(&taken);
    for i in 0..3 {
        let wanted = items[i].get();
        hold!(checks, i;
            numbers.get(i) == wanted && numbers.value(i).get() == wanted,
            i == 0 || part.get(i - 1) == wanted, i == 1 || picked.get(1 - i / 2) == wanted,
            T::items_of(&taken).is_some_and(|all| all.len() == 3 && all[i].get() == wanted),
        );
    }
    checks.holds(ptype.as_str(), numbers.ptype() == ptype && taken.ptype() == ptype);
    done!(checks;
        numbers.len() == 3 && !numbers.is_empty() && part.len() == 2 && picked.len() == 2,
        numbers.as_slice::<T>().is_some_and(|all| all.len() == 3),
        numbers.as_slice::<u8>().is_some() == (ptype == PType::U8),
        lent.is_some_and(|it| it.len() == 3),
        u16::items_of(&taken).is_some() == (ptype == PType::U16),
        u16::buffer_of(&taken).is_some() == (ptype == PType::U16),
    )
}

/// 40 bytes.
const BYTES: &[u8] = b"0123456789abcdefghijklmnopqrstuvwxyzABCD";

/// Whether the buffers are cut at these ends and each view has its value.
fn are_cut(
    cut: &(Vec<Bytes>, Vec<BinaryView>),
    first: usize,
    ends: &[usize],
    lengths: &[usize],
) -> bool {
    let (buffers, views, mut start, mut at) = (&cut.0, &cut.1, 0, 0);
    let mut same = buffers.len() == ends.len() && views.len() == lengths.len();
    for (buffer, end) in buffers.iter().zip(ends) {
        same = same && buffer.as_slice() == &BYTES[start..*end];
        start = *end;
    }
    for (view, length) in views.iter().zip(lengths) {
        let value = &BYTES[at..at + *length];
        at += *length;
        same = same && view.len() as usize == value.len();
        if view.is_inlined() {
            same = same && view.as_inlined().value() == value;
        } else {
            let lies = view.as_view();
            let index = lies.buffer_index as usize - first;
            same = same && &buffers[index].as_slice()[lies.as_range()] == value;
        }
    }
    same
}

pub fn cuts(alloc: Global, checks: &mut Checks<'_>) -> Done {
    let lengths = answered(offsets_to_lengths(alloc, &[0u32, 3, 3, 40]))?;
    hold!(checks; MAX_BUFFER_LEN == 2_147_483_647 && lengths.as_slice() == [3, 0, 37].as_slice());
    let long = offsets_to_lengths(alloc, &[-100i8, 100]);
    refused(checks, "a length past an i8", long, ArrayError::Total)?;
    let bytes = || Bytes::from_static(BYTES);
    let (wide, lengths) = ([13i32, 13, 0, 14], [13u8, 13, 0, 14]);
    let offsets = [0i64, 13, 26, 26, 40];
    for (made, first, ends) in [
        (build_views(alloc, 0, MAX_BUFFER_LEN, bytes(), &wide), 0, [40].as_slice()),
        (build_views(alloc, 5, 26, bytes(), &lengths), 5, &[26, 40]),
        (build_views(alloc, 0, 25, bytes(), &lengths), 0, &[13, 26, 40]),
        (build_views_from_offsets(alloc, 1, 27, bytes(), &offsets), 1, &[26, 40]),
    ] {
        hold!(checks, ends.len(); are_cut(&answered(made)?, first, ends, &[13, 13, 0, 14]));
    }
    let empty = answered(build_views(alloc, 0, 1, Bytes::new(), &[0u8, 0]))?;
    hold!(checks; are_cut(&empty, 0, &[], &[0, 0]));
    let mismatch = ArrayError::LengthMismatch;
    for (name, made, fault) in [
        ("a length of -1", build_views(alloc, 0, 40, bytes(), &[41i8, -1]), mismatch),
        ("too few bytes", build_views(alloc, 0, 40, bytes(), &[39u8]), mismatch),
        ("too great lengths", build_views(alloc, 0, 40, bytes(), &[u64::MAX, 41]), mismatch),
        ("a value above", build_views(alloc, 0, 20, bytes(), &[21u8, 19]), ArrayError::Total),
        ("an index", build_views(alloc, u32::MAX, 20, bytes(), &[20u8, 20]), ArrayError::Total),
        ("falling", build_views_from_offsets(alloc, 0, 40, bytes(), &[0i8, 41, 40]), mismatch),
    ] {
        refused(checks, name, made, fault)?;
    }
    Ok(())
}
