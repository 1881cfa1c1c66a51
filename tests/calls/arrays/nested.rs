//! Dictionaries, lists of one size and of any: the tests of their parts, and the parts; which
//! values and elements are named; and list views rebuilt and trimmed.

use crate::arrays::has;
use crate::checks::Checks;
use crate::counted::{done, hold};
use crate::make_arrays::{
    Done, WITHOUT, answered, array_of, holds, holds_all, numbers, plain, refused, valid_where,
};
use std::alloc::Global;
use vortex_arrays::laws::rebuild_twice;
use vortex_arrays::{
    ArrayError, ArrayRef, DictArray, DictArrayExt, DictArraySlotsExt, DictOwnedExt, Element,
    FixedSizeListArray, FixedSizeListArrayExt, ListViewArray, ListViewArrayExt, ListViewRebuild,
    ListViewRebuildMode, Validity,
};
use vortex_dtype::{DType, DTypeError, PType};
use vortex_scalar::{Scalar, ScalarConstructors};

pub fn dictionaries(alloc: Global, checks: &mut Checks<'_>) -> Done {
    let some = array_of(alloc, &[2u8, 9, 0], valid_where(alloc, &[true, false, true])?)?;
    let values = plain(alloc, &[10i32, 20, 30])?;
    let other = ArrayRef::of_constant(alloc, Scalar::bool(true, WITHOUT), 3)?;
    for (name, codes, wanted) in [
        ("validate of codes", &some, Ok(())),
        ("validate of a code", &plain(alloc, &[2u8, 3, 0])?, Err(ArrayError::CodeOutOfRange)),
        ("validate of truth values", &other, Err(ArrayError::WrongType)),
    ] {
        checks.holds(name, DictArray::validate(codes, &values) == wanted);
    }
    // Of three values the second is named by none.
    let array = answered(DictArray::try_new(alloc, some, values))?;
    for (is_named, wanted) in [(true, [0, 2].as_slice()), (false, &[1])] {
        let mask = array.compute_referenced_values_mask(alloc, is_named)?;
        hold!(checks; mask.set_indices(alloc)?.as_slice() == wanted);
    }
    let answer = array.validate_all_values_referenced(alloc);
    refused(checks, "validate_all_values_referenced", answer, ArrayError::OutOfRange)?;
    let slots = array.slots();
    hold!(checks; !array.are_all_values_referenced(alloc)? && array.validity(alloc)?.is_null(1, 3));
    hold!(checks; slots.codes.len() == 3 && slots.values.len() == 3);
    // Each value is named, said and unsaid.
    let parts = array.into_data_parts()?;
    let codes = numbers(alloc, &[2u8, 1, 0], valid_where(alloc, &[true; 3])?)?.into_array();
    let array = answered(DictArray::try_new(alloc, codes, parts.values))?;
    answered(array.validate_all_values_referenced(alloc))?;
    hold!(checks; !array.has_all_values_referenced());
    let array = array.set_all_values_referenced(alloc, true)?;
    hold!(checks; array.has_all_values_referenced());
    let parts = array.into_parts()?;
    done!(checks; parts.codes.len() == 3 && parts.values.integer(2) == Some(30))
}

pub fn fixed(alloc: Global, checks: &mut Checks<'_>) -> Done {
    let items = plain(alloc, &[1i32, 2, 3, 4, 5, 6])?;
    let valid = valid_where(alloc, &[true, false, true])?;
    for (name, size, validity, len, wanted) in [
        ("validate", 2, &valid, 3, Ok(())),
        ("validate of elements", 2, &Validity::AllValid, 4, Err(ArrayError::ElementCount)),
        ("validate of a validity", 3, &valid, 2, Err(ArrayError::LengthMismatch)),
    ] {
        checks.holds(name, FixedSizeListArray::validate(&items, size, validity, len) == wanted);
    }
    let array = answered(FixedSizeListArray::try_new(alloc, items, 2, valid, 3))?;
    let null = answered(array.fixed_size_list_elements_at(alloc, 1))?;
    let (element, size, nullability) = array.dtype_parts();
    let slots = array.slots();
    hold!(checks; array.list_size() == 2 && holds(&null, &[Some(3), Some(4)]));
    hold!(checks; array.fixed_size_list_validity()?.is_null(1, 3) && nullability.is_nullable());
    hold!(checks; size == 2, *element == DType::Primitive(PType::I32, WITHOUT));
    hold!(checks; slots.elements.len() == 6 && slots.list_size == 2);
    let parts = array.into_data_parts()?.clone()?;
    done!(checks; parts.len == 3 && parts.elements.len() == 6)
}

pub fn views(alloc: Global, checks: &mut Checks<'_>) -> Done {
    let items = plain(alloc, &[1i32, 2, 3, 4, 5, 6])?;
    let (offsets, sizes) = (plain(alloc, &[0u8, 2, 5])?, plain(alloc, &[2i64, 3, 1])?);
    let (two, one) = (plain(alloc, &[0u8, 5])?, plain(alloc, &[2u8])?);
    let null = array_of(alloc, &[0u8, 1], Validity::AllValid)?;
    let (valid, none) = (valid_where(alloc, &[true, false, true])?, Validity::NonNullable);
    for (name, offsets, sizes, validity, wanted) in [
        ("validate of list views", &offsets, &sizes, &valid, Ok(())),
        ("of unequal lengths", &two, &one, &none, Err(ArrayError::LengthMismatch)),
        ("of offsets with null", &null, &two, &none, Err(ArrayError::WrongType)),
        ("of a list past the end", &two, &two, &none, Err(ArrayError::ViewOutOfRange)),
    ] {
        checks.holds(name, ListViewArray::validate(&items, offsets, sizes, validity) == wanted);
    }
    let apart = plain(alloc, &[1u8, 0])?;
    let apart = ListViewArray::try_new(alloc, items.clone()?, apart, two, Validity::AllInvalid);
    let array = answered(ListViewArray::try_new(alloc, items, offsets, sizes, valid))?;
    let second = answered(array.list_elements_at(alloc, 1))?;
    hold!(checks; !answered(apart)?.lists_follow() && array.lists_follow());
    hold!(checks; holds(&second, &[Some(3), Some(4), Some(5)]));
    hold!(checks; array.listview_validity()?.is_null(1, 3), !array.is_zero_copy_to_list());
    let array = array.with_zero_copy_to_list(alloc, true)?;
    let slots = array.slots();
    hold!(checks; array.is_zero_copy_to_list() && slots.is_zero_copy_to_list);
    hold!(checks; slots.offsets.len() == 3 && slots.validity.is_null(1, 3));
    let parts = array.into_data_parts()?.clone()?;
    done!(checks; parts.elements.len() == 6 && parts.sizes.integer(1) == Some(3))
}

/// Lists of 32-bit elements by 64-bit offsets and 8-bit sizes.
fn lists(
    alloc: Global,
    (elements, offsets, sizes): (&[i32], &[i64], &[u8]),
    validity: Validity,
) -> Result<ListViewArray, DTypeError> {
    let (elements, offsets) = (plain(alloc, elements)?, plain(alloc, offsets)?);
    answered(ListViewArray::try_new(alloc, elements, offsets, plain(alloc, sizes)?, validity))
}

/// Elements, offsets and sizes.
type Parts<'a> = (&'a [i128], &'a [i128], &'a [i128]);

/// Whether these are the parts.
fn are(lists: &ListViewArray, (elements, offsets, sizes): Parts<'_>) -> bool {
    holds_all(lists.elements(), elements)
        && holds_all(lists.offsets(), offsets)
        && holds_all(lists.sizes(), sizes)
}

const TO_LIST: ListViewRebuildMode = ListViewRebuildMode::MakeZeroCopyToList;
const EXACT: ListViewRebuildMode = ListViewRebuildMode::MakeExact;
const TRIM: ListViewRebuildMode = ListViewRebuildMode::TrimElements;
const COMPRESS: ListViewRebuildMode = ListViewRebuildMode::OverlapCompression;

pub fn rebuilt(alloc: Global, checks: &mut Checks<'_>) -> Done {
    let (none, valid) = (|| Validity::NonNullable, |bits: &[bool]| valid_where(alloc, bits));
    let one = lists(alloc, (&[1, 2, 3, 4], &[0, 1, 2], &[1, 2, 2]), valid(&[true, false, true])?)?;
    let around: (&[i32], &[i64], &[u8]) = (&[1, 2, 3, 4, 5, 6], &[0, 2, 4, 1], &[2, 2, 2, 2]);
    let runs = lists(alloc, around, Validity::AllValid)?;
    let around = lists(alloc, around, valid(&[true, false, true, true])?)?;
    let loose = lists(alloc, (&[9, 1, 2, 3, 9], &[1, 2], &[2, 2]), none())?;
    let empty = lists(alloc, (&[7, 8], &[], &[]), none())?;
    let plain = lists(alloc, (&[5, 6, 7], &[1], &[1]), none())?;
    let flagged = plain.clone()?.with_zero_copy_to_list(alloc, true)?;
    let again = answered(one.rebuild(alloc, TO_LIST))?;
    hold!(checks; again.is_zero_copy_to_list());
    let rows: [(&str, &ListViewArray, ListViewRebuildMode, Parts<'_>); 9] = [
        (
            "rebuild in two runs",
            &runs,
            EXACT,
            (&[1, 2, 3, 4, 5, 6, 2, 3], &[0, 2, 4, 6], &[2, 2, 2, 2]),
        ),
        ("rebuild with a null", &one, TO_LIST, (&[1, 3, 4], &[0, 1, 1], &[1, 0, 2])),
        ("rebuild again", &again, TO_LIST, (&[1, 3, 4], &[0, 1, 1], &[1, 0, 2])),
        ("around a null", &around, TO_LIST, (&[1, 2, 5, 6, 2, 3], &[0, 2, 2, 4], &[2, 0, 2, 2])),
        ("trim to the lists", &loose, TRIM, (&[1, 2, 3], &[0, 1], &[2, 2])),
        ("trim without rows", &empty, TRIM, (&[], &[], &[])),
        ("MakeExact of a flagged view", &flagged, EXACT, (&[6], &[0], &[1])),
        ("a flagged view stays", &flagged, TO_LIST, (&[5, 6, 7], &[1], &[1])),
        ("OverlapCompression without rows", &empty, COMPRESS, (&[7, 8], &[], &[])),
    ];
    for (name, view, mode, parts) in rows {
        checks.holds(name, are(&answered(view.rebuild(alloc, mode))?, parts));
    }
    let wider = answered(loose.trim_elements(alloc, 1, 5))?;
    hold!(checks; are(&wider, (&[1, 2, 3, 9], &[0, 1], &[2, 2])));
    let answer = plain.rebuild(alloc, COMPRESS);
    refused(checks, "OverlapCompression", answer, ArrayError::NotImplemented)
}

pub fn measured(alloc: Global, checks: &mut Checks<'_>) -> Done {
    let view = lists(alloc, (&[9, 1, 2, 3, 9], &[2, 1], &[2, 2]), Validity::NonNullable)?;
    let laid_out: Parts<'_> = (&[2, 3, 1, 2], &[0, 2], &[2, 2]);
    for (mode, parts) in
        [(TO_LIST, laid_out), (TRIM, (&[1, 2, 3], &[1, 0], &[2, 2])), (EXACT, laid_out)]
    {
        let (once, again) = answered(rebuild_twice(alloc, &view, mode))?;
        hold!(checks; are(&once, parts) && are(&again, parts));
    }
    // Which elements the lists from 0 to 2, from 1 to 4, and that from 5 to 6 have.
    let all = [true, true, true, true, false, true];
    let each = valid_where(alloc, &[true, false, true])?;
    for (name, validity, wanted) in [
        ("lists that overlap", Validity::AllValid, all),
        ("a null list has none", each, [true, true, false, false, false, true]),
        ("null lists have none", Validity::AllInvalid, [false; 6]),
        ("lists that can't be null", Validity::NonNullable, all),
    ] {
        let lists = lists(alloc, (&[1, 2, 3, 4, 5, 6], &[0, 1, 5], &[2, 3, 1]), validity)?;
        let mask = lists.compute_referenced_elements_mask(alloc)?;
        let count = wanted.iter().filter(|it| **it).count();
        checks.holds(name, mask.len() == 6 && (0..6).all(|i| mask.value(i) == wanted[i]));
        checks.holds(name, lists.compute_density(alloc)? == (count, 6));
    }
    Ok(())
}

/// Lists at the ends of what numbers hold: each is refused as it should be, or has its rows.
pub fn edges(alloc: Global, checks: &mut Checks<'_>) -> Done {
    out_of_order(alloc, checks)?;
    outside(alloc, checks)?;
    of_none(alloc, checks)?;
    codes_outside(alloc, checks)
}

/// Lists out of order, overlapping, empty at any place, and their rebuildings.
fn out_of_order(alloc: Global, checks: &mut Checks<'_>) -> Done {
    let parts: (&[i32], &[i64], &[u8]) = (&[1, 20, 300, 4000], &[3, 0, 4, 1, 0], &[1, 3, 0, 2, 0]);
    let (view, text) =
        (lists(alloc, parts, Validity::NonNullable)?, "[4000]; [1, 20, 300]; []; [20, 300]; []");
    hold!(checks; has(alloc, view.as_array(), "list(i32)", text)?);
    for mode in [TO_LIST, TRIM, EXACT] {
        let rebuilt = answered(view.rebuild(alloc, mode))?;
        hold!(checks; has(alloc, rebuilt.as_array(), "list(i32)", text)?);
    }
    let back = answered(view.rebuild(alloc, TO_LIST))?;
    hold!(checks; (0..5).all(|i| back.offset_at(i) == [0, 1, 4, 4, 6][i]));
    done!(checks; back.elements().len() == 6)
}

/// Lists of these offsets and sizes over three elements, their second row null or not.
fn lists_of<T: Element, U: Element>(
    alloc: Global,
    offsets: [T; 2],
    sizes: [U; 2],
    second: bool,
) -> Result<Result<ListViewArray, ArrayError>, DTypeError> {
    let (offsets, sizes) = (plain(alloc, &offsets)?, plain(alloc, &sizes)?);
    let (elements, nulls) = (plain(alloc, &[1i32, 2, 3])?, valid_where(alloc, &[true, second])?);
    Ok(ListViewArray::try_new(alloc, elements, offsets, sizes, nulls))
}

/// Lists that lie outside the elements are refused, also in a null row.
fn outside(alloc: Global, checks: &mut Checks<'_>) -> Done {
    for second in [true, false] {
        for (name, made) in [
            ("an offset of 2^64 - 1", lists_of(alloc, [0u64, u64::MAX], [3u8, 2], second)?),
            ("an empty list at 2^64 - 1", lists_of(alloc, [0u64, u64::MAX], [3u8, 0], second)?),
            ("an end past all", lists_of(alloc, [0u64, u64::MAX], [3u64, u64::MAX], second)?),
            ("an offset of -1", lists_of(alloc, [0i32, -1], [3u8, 0], second)?),
            ("a size of -1", lists_of(alloc, [0u8, 2], [3i8, -1], second)?),
            ("the least i64", lists_of(alloc, [0i64, i64::MIN], [1i64, i64::MIN], second)?),
            ("the greatest u8", lists_of(alloc, [0u8, u8::MAX], [1u8, u8::MAX], second)?),
            ("a list past the end", lists_of(alloc, [0u8, 2], [3u8, 2], second)?),
        ] {
            refused(checks, name, made, ArrayError::ViewOutOfRange)?;
        }
        hold!(checks; answered(lists_of(alloc, [0u8, 3], [3u8, 0], second)?)?.len() == 2);
    }
    Ok(())
}

/// Lists of no element, and no lists.
fn of_none(alloc: Global, checks: &mut Checks<'_>) -> Done {
    let none = plain(alloc, &[0i32; 0])?;
    let fixed = FixedSizeListArray::try_new(alloc, none.clone()?, 0, Validity::AllValid, 3);
    let fixed = answered(fixed)?.into_array();
    hold!(checks; has(alloc, &fixed, "fixed(i32, 0)?", "[]; []; []")?);
    let part = answered(fixed.slice(alloc, 1..3))?;
    hold!(checks; has(alloc, &part, "fixed(i32, 0)?", "[]; []")?);
    let some = plain(alloc, &[1i32, 2, 3, 4, 5])?;
    let fixed = FixedSizeListArray::try_new(alloc, some, 2, Validity::NonNullable, 3);
    refused(checks, "5 elements for 3 of 2", fixed, ArrayError::ElementCount)?;
    let one = plain(alloc, &[7i32])?;
    let fixed = FixedSizeListArray::try_new(alloc, one, u32::MAX, Validity::AllInvalid, 1);
    refused(checks, "a size of 4294967295", fixed, ArrayError::ElementCount)?;
    let (offsets, sizes) = (plain(alloc, &[0u8; 0])?, plain(alloc, &[0u8; 0])?);
    let lists = ListViewArray::try_new(alloc, none, offsets, sizes, Validity::NonNullable);
    let lists = answered(lists)?;
    let compressed = lists.rebuild(alloc, COMPRESS);
    done!(checks; compressed.is_ok() && lists.referenced_element_bounds().is_none())
}

/// Codes outside the values are refused where they are valid.
fn codes_outside(alloc: Global, checks: &mut Checks<'_>) -> Done {
    let values = plain(alloc, &[10i32, 20, 30])?;
    for codes in [plain(alloc, &[0u64, u64::MAX])?, plain(alloc, &[0i8, -1])?] {
        let answer = DictArray::try_new(alloc, codes, values.clone()?);
        refused(checks, "a code outside", answer, ArrayError::CodeOutOfRange)?;
    }
    let null = array_of(alloc, &[2u64, u64::MAX], valid_where(alloc, &[true, false])?)?;
    let array = answered(DictArray::try_new(alloc, null, values))?.into_array();
    done!(checks; array.integer(0) == Some(30) && array.is_invalid(1))
}
