//! `BinaryView`, `Inlined`, `Ref`, of which no call takes memory.

use crate::checks::Checks;
use crate::counted::hold;
use crate::refusing::{refuse_all, took_none};
use bytes::Bytes;
use std::alloc::Global;
use vortex_arrays::laws::limits;
use vortex_arrays::{BinaryView, MAX_BUFFER_LEN, MAX_INLINED_SIZE, Ref};
use vortex_dtype::DTypeError;

const LONG: &[u8] = b"abcdefghijklm";

/// Values in the order of their bytes, some of them at the edges of what stands in a view.
const ORDERED: [&[u8]; 9] = [
    b"",
    b"\x00",
    b"\x00\x00\x00\x00\x01",
    b"a",
    b"ab",
    b"ab\x00",
    b"abcd",
    b"abcdefghijkl",
    b"\xff\xff\xff\xff",
];

pub fn run(alloc: Global, checks: &mut Checks<'_>) -> Result<(), DTypeError> {
    let mut room = Vec::new(alloc);
    room.push(Bytes::copy_from_slice(alloc, b"12345abcdefghijklm67")?)?;
    refuse_all(alloc, checks);
    short(checks);
    long(&room, checks);
    parts(checks);
    order(checks);
    took_none(alloc, checks, "views take no memory");
    Ok(())
}

fn short(checks: &mut Checks<'_>) {
    let (view, empty) = (BinaryView::make_view(b"ab", 7, 9), BinaryView::empty_view());
    let full = BinaryView::new_inlined(&LONG[..MAX_INLINED_SIZE]);
    hold!(checks; limits() == (MAX_BUFFER_LEN, MAX_INLINED_SIZE));
    hold!(checks; view.as_u128() == 0x6261_0000_0002, view.len() == 2 && !view.is_empty());
    hold!(checks; view.is_inlined(), view.as_inlined().value() == b"ab".as_slice());
    hold!(checks; view.bytes(&[]) == b"ab".as_slice(), view.has_value(&[]) && empty.is_empty());
    hold!(checks; empty.as_u128() == 0, full.is_inlined() && full.bytes(&[]) == &LONG[..12]);
    hold!(checks; full == BinaryView::make_view(&LONG[..12], 1, 1) && full != empty);
}

fn long(room: &[Bytes], checks: &mut Checks<'_>) {
    let view = BinaryView::make_view(LONG, 0, 5);
    hold!(checks; view.as_u128() == 0x0000_0005_0000_0000_6463_6261_0000_000d);
    hold!(checks; view.len() == 13 && !view.is_inlined() && view.bytes(room) == LONG);
    hold!(checks; view.has_value(room) && !view.has_value(&[]));
    // Past the end, and of another prefix.
    hold!(checks; !BinaryView::make_view(LONG, 0, 8).has_value(room));
    hold!(checks; !BinaryView::make_view(LONG, 0, 4).has_value(room));
}

fn parts(checks: &mut Checks<'_>) {
    let (view, mut set) = (BinaryView::new_ref(13, *b"abcd", 3, 5), BinaryView::empty_view());
    let reference = view.as_view();
    let moved = reference.with_buffer_and_offset(4, 6);
    set.set_ref(Ref { size: 13, prefix: *b"abcd", buffer_index: 3, offset: 5 });
    hold!(checks; reference.size == 13 && reference.prefix == *b"abcd");
    hold!(checks; reference.as_range() == (5..18), reference.buffer_index == 3);
    hold!(checks; reference.offset == 5, moved.as_range() == (6..19) && moved.buffer_index == 4);
    hold!(checks; BinaryView::from(moved) == BinaryView::new_ref(13, *b"abcd", 4, 6));
    hold!(checks; set == view, BinaryView::from(view.as_u128()) == view, view.prefix() == *b"abcd");
    hold!(checks; BinaryView::prefix_of(LONG) == *b"abcd");
    hold!(checks; BinaryView::prefix_of(b"a") == [97, 0, 0, 0]);
    hold!(checks; view.head() == 0x6463_6261_0000_000d && BinaryView::head_of(LONG) == view.head());
}

fn order(checks: &mut Checks<'_>) {
    for (i, value) in ORDERED.iter().enumerate() {
        let left = BinaryView::new_inlined(value);
        let words = (left.order_prefix(), left.order_tail(), left.len());
        for (j, other) in ORDERED.iter().enumerate() {
            let right = BinaryView::new_inlined(other);
            let others = (right.order_prefix(), right.order_tail(), right.len());
            hold!(checks, 10 * i + j; words.cmp(&others) == i.cmp(&j));
            hold!(checks, 10 * i + j; (left == right) == (i == j));
        }
        hold!(checks, i; left.order_prefix() == BinaryView::order_prefix_of(value));
        hold!(checks, i; left.order_tail() == BinaryView::order_tail_of(value));
    }
}
