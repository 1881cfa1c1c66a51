//! Records: their parts, of stated types, with other columns, and end to end.

use crate::checks::Checks;
use crate::counted::{done, hold};
use crate::make_arrays::{
    Done, WITHOUT, answered, array_of, holds, names, plain, refused, valid_where,
};
use crate::notation::fields;
use crate::validities::HALF;
use std::alloc::Global;
use vortex_arrays::laws::{slice_of_all, slice_of_slice};
use vortex_arrays::{
    ArrayError, ArrayLayout, ArrayRef, ListViewArray, StructArray, StructArrayConcat,
    StructArrayExt, StructArraySlotsExt, Validity, column_at,
};
use vortex_dtype::{DTypeError, FieldName};
use vortex_scalar::{Scalar, ScalarConstructors};

pub fn run(alloc: Global, checks: &mut Checks<'_>) -> Done {
    parts(alloc, checks)?;
    of_names(alloc, checks)?;
    paired(alloc, checks)?;
    columns(alloc, checks)?;
    pushed(alloc, checks)?;
    flags(alloc, checks)?;
    too_many(alloc, checks)
}

/// Two columns of two integers, the second of which can be null.
fn two(alloc: Global) -> Result<Vec<ArrayRef>, DTypeError> {
    let second = array_of(alloc, &[3u8, 4], Validity::AllValid)?;
    Ok(vec![in alloc; plain(alloc, &[1i32, 2])?, second]?)
}

/// Records of the columns a and b.
fn pairs(alloc: Global, validity: Validity) -> Result<StructArray, DTypeError> {
    answered(StructArray::try_new(alloc, names(alloc, &["a", "b"])?, two(alloc)?, 2, validity))
}

fn parts(alloc: Global, checks: &mut Checks<'_>) -> Done {
    let (names, fields) = (names(alloc, &["a", "b"])?, two(alloc)?);
    let layout = fields[0].layout().clone()?;
    hold!(checks; matches!(&layout, ArrayLayout::Primitive(_, _)));
    for (many, len, wanted) in [
        (2, 2, Ok(())),
        (1, 2, Err(ArrayError::LengthMismatch)),
        (2, 3, Err(ArrayError::LengthMismatch)),
    ] {
        let found = StructArray::validate(&names, &fields[..many], len, &Validity::AllValid);
        hold!(checks, many; found == wanted);
    }
    let array = pairs(alloc, valid_where(alloc, &[true, false])?)?;
    let (fields, nullability) = array.dtype_parts();
    let (slots, none) = (array.slots()?.clone()?, StructArray::new_fieldless_with_len(alloc, 5)?);
    hold!(checks; array.struct_validity()?.is_null(1, 2) && array.struct_fields().nfields() == 2);
    hold!(checks; fields.nfields() == 2 && nullability.is_nullable());
    hold!(checks; slots.fields.len() == 2 && slots.validity.is_null(1, 2));
    hold!(checks; none.len() == 5 && none.names().is_empty());
    let parts = array.into_data_parts(alloc)?;
    for parts in [parts.clone()?, parts] {
        hold!(checks; parts.names.len() == 2 && parts.fields.len() == 2);
    }
    Ok(())
}

fn of_names(alloc: Global, checks: &mut Checks<'_>) -> Done {
    let array = pairs(alloc, Validity::NonNullable)?;
    let mut rest = array.iter_unmasked_fields();
    for (i, (name, wanted)) in
        [("a", [Some(1), Some(2)]), ("b", [Some(3), Some(4)])].iter().enumerate()
    {
        hold!(checks, i;
            holds(array.unmasked_field(i), wanted) && rest.len() == 2 - i,
            array.unmasked_field_opt(i).is_some_and(|it| holds(it, wanted)),
            array.unmasked_field_by_name(name).is_ok_and(|it| holds(it, wanted)),
            array.unmasked_field_by_name_opt(name).is_some_and(|it| holds(it, wanted)),
            rest.next().is_some_and(|it| holds(it, wanted)),
        );
    }
    let none = array.unmasked_field_by_name("c");
    hold!(checks; none.is_err_and(|error| error == ArrayError::NoSuchField));
    hold!(checks; array.unmasked_field_opt(2).is_none());
    hold!(checks; array.unmasked_field_by_name_opt("c").is_none());
    let columns = || -> Result<Vec<ArrayRef>, DTypeError> {
        Ok(vec![in alloc; plain(alloc, &[1i32, 2])?, plain(alloc, &[3u8, 4])?]?)
    };
    let (right, none) = (fields(alloc, "{x=i32, y=u8}")?, Validity::NonNullable);
    let array = StructArray::try_new_with_dtype(alloc, columns()?, &right, 2, none);
    let array = answered(array)?;
    let second = array.unmasked_field_by_name("y");
    hold!(checks; second.is_ok_and(|field| holds(field, &[Some(3), Some(4)])));
    let (other, none) = (fields(alloc, "{x=i32, y=u16}")?, Validity::NonNullable);
    let answer = StructArray::try_new_with_dtype(alloc, columns()?, &other, 4, none);
    refused(checks, "try_new_with_dtype of another type", answer, ArrayError::WrongType)
}

/// A name and an array of these numbers.
fn pair(alloc: Global, name: &str, items: &[i32]) -> Result<(FieldName, ArrayRef), DTypeError> {
    Ok((FieldName::new(alloc, name)?, plain(alloc, items)?))
}

fn paired(alloc: Global, checks: &mut Checks<'_>) -> Done {
    let (first, mismatch) = (|| pair(alloc, "a", &[1, 2]), ArrayError::LengthMismatch);
    let nothing = StructArray::from_fields(alloc, &[]);
    refused(checks, "from_fields of nothing", nothing, mismatch)?;
    let pairs = vec![in alloc; first()?, pair(alloc, "b", &[3, 4])?]?;
    let array = answered(StructArray::from_fields(alloc, &pairs))?;
    hold!(checks; holds(array.unmasked_field(1), &[Some(3), Some(4)]));
    let valid = valid_where(alloc, &[true, false])?;
    let array = answered(StructArray::try_from_iter_with_validity(alloc, pairs, valid))?;
    hold!(checks; array.len() == 2 && array.as_array().is_invalid(1));
    let short = || pair(alloc, "b", &[3]);
    let answer = StructArray::try_from_iter(alloc, vec![in alloc; first()?, short()?]?);
    refused(checks, "try_from_iter of unequal lengths", answer, mismatch)?;
    let (untyped, pairs) = (Validity::Array(first()?.1), vec![in alloc; first()?, short()?]?);
    let answer = StructArray::try_from_iter_with_validity(alloc, pairs, untyped);
    refused(checks, "try_from_iter_with_validity of no truths", answer, ArrayError::WrongType)
}

fn columns(alloc: Global, checks: &mut Checks<'_>) -> Done {
    let array = pairs(alloc, Validity::AllInvalid)?;
    let chosen = answered(array.project(alloc, names(alloc, &["b", "a", "b"])?.as_slice()))?;
    hold!(checks; chosen.len() == 2 && chosen.names().len() == 3);
    hold!(checks; chosen.nullability().is_nullable());
    hold!(checks; holds(chosen.unmasked_field(2), &[Some(3), Some(4)]));
    let answer = array.project(alloc, names(alloc, &["b", "c"])?.as_slice());
    refused(checks, "project of none", answer, ArrayError::NoSuchField)?;
    let (array, c) = (pairs(alloc, Validity::AllValid)?, FieldName::new(alloc, "c")?);
    let mut wide = answered(array.with_column(alloc, c.clone()?, plain(alloc, &[5i64, 6])?))?;
    let short = array.with_column(alloc, c, plain(alloc, &[5i64])?);
    refused(checks, "with_column of another length", short, ArrayError::LengthMismatch)?;
    let without = wide.remove_column_owned(alloc, "a")?;
    done!(checks;
        holds(wide.unmasked_field(2), &[Some(5), Some(6)]),
        without.is_some_and(|it| it.0.names().len() == 2 && holds(&it.1, &[Some(1), Some(2)])),
        wide.remove_column(alloc, "c")?.is_some_and(|it| holds(&it, &[Some(5), Some(6)])),
        wide.remove_column(alloc, "c")?.is_none() && wide.names().len() == 2,
    )
}

fn pushed(alloc: Global, checks: &mut Checks<'_>) -> Done {
    let array = pairs(alloc, valid_where(alloc, &[false, true])?)?;
    for is_removed in [false, true] {
        let pushed = array.push_validity_into_children(alloc, is_removed)?;
        hold!(checks; holds(pushed.unmasked_field(0), &[None, Some(2)]));
        hold!(checks; holds(pushed.unmasked_field(1), &[None, Some(4)]));
        hold!(checks; pushed.as_array().is_invalid(0) == !is_removed);
        hold!(checks; pushed.nullability().is_nullable());
    }
    let array = plain(alloc, &[1u16, 2, 3, 4, 5])?;
    let (_outer, inner, direct) = answered(slice_of_slice(&array, alloc, 1..5, 1..3))?;
    hold!(checks; holds(&inner, &[Some(3), Some(4)]) && holds(&direct, &[Some(3), Some(4)]));
    done!(checks; answered(slice_of_all(&array, alloc))?.len() == 5)
}

/// Whether the array's lists are known to follow one another.
fn follow(array: ArrayRef) -> bool {
    ListViewArray::of_array(array).is_ok_and(|lists| lists.is_zero_copy_to_list())
}

/// Three lists of three integers, known to follow one another.
fn flagged_lists(alloc: Global) -> Result<ArrayRef, DTypeError> {
    let (items, none) = (plain(alloc, &[1u8, 2, 3])?, Validity::NonNullable);
    let (offsets, sizes) = (plain(alloc, &[0u8, 1, 1])?, plain(alloc, &[1u8, 0, 2])?);
    let lists = answered(ListViewArray::try_new(alloc, items, offsets, sizes, none))?;
    Ok(lists.with_zero_copy_to_list(alloc, true)?.into_array())
}

/// A slice and a column keep a flag, and so do elements.
fn flags(alloc: Global, checks: &mut Checks<'_>) -> Done {
    let fields = vec![in alloc; flagged_lists(alloc)?, flagged_lists(alloc)?]?;
    let (valid, names) = (valid_where(alloc, &[true, false, true])?, names(alloc, &["a", "b"])?);
    let array = answered(StructArray::try_new(alloc, names, fields, 3, valid))?;
    let part = answered(array.as_array().slice(alloc, 1..3))?;
    let column = answered(column_at(alloc, &part, &[FieldName::new(alloc, "b")?]))?;
    let (offsets, sizes) = (plain(alloc, &[1u8])?, plain(alloc, &[2u8])?);
    let lists = flagged_lists(alloc)?;
    let outer = ListViewArray::try_new(alloc, lists, offsets, sizes, Validity::AllValid);
    let inner = answered(answered(outer)?.list_elements_at(alloc, 0))?;
    done!(checks; follow(column) && follow(inner))
}

/// Unequal types are told before too many rows.
fn too_many(alloc: Global, checks: &mut Checks<'_>) -> Done {
    let mut parts = Vec::new(alloc);
    for (name, len, fault) in [
        ("", 0, ArrayError::WrongType),
        ("a", HALF, ArrayError::WrongType),
        ("a", HALF, ArrayError::Total),
        ("b", 1, ArrayError::WrongType),
    ] {
        if len > 0 {
            let column = ArrayRef::of_constant(alloc, Scalar::primitive(5i32, WITHOUT), len)?;
            let (names, none) = (names(alloc, &[name])?, Validity::NonNullable);
            let made = StructArray::try_new(alloc, names, vec![in alloc; column]?, len, none);
            parts.push(answered(made)?)?;
        }
        if parts.len() != 1 {
            refused(checks, name, StructArray::try_concat(alloc, &parts), fault)?;
        }
    }
    Ok(())
}
