//! Which rows are null.

use crate::checks::Checks;
use crate::counted::{done, hold};
use crate::make_arrays::{
    Done, WITH, WITHOUT, answered, array_of, bools, plain, refused, valid_where,
};
use std::alloc::Global;
use vortex_arrays::{
    ArrayError, ArrayLayout, ArrayRef, BitBuffer, Mask, Validity, ValidityConcat, ValidityExt,
};
use vortex_dtype::{DType, DTypeError};
use vortex_scalar::{Scalar, ScalarConstructors};

pub fn run(alloc: Global, checks: &mut Checks<'_>) -> Done {
    for (number, (it, there, form)) in forms(alloc)?.iter().enumerate() {
        each(alloc, checks, number, it, *there, *form)?;
        rows(alloc, checks, number, it, *there)?;
    }
    made(alloc, checks)?;
    patched(alloc, checks)?;
    fitting(alloc, checks)?;
    joined(alloc, checks)?;
    too_many(alloc, checks)
}

/// How a validity is made.
#[derive(Clone, Copy, PartialEq, Eq)]
enum Form {
    NonNullable,
    AllValid,
    AllInvalid,
    Array,
}

/// Validities of two rows, which of those are there, and how each is made.
fn forms(alloc: Global) -> Result<Vec<(Validity, [bool; 2], Form)>, DTypeError> {
    Ok(vec![in alloc;
        (Validity::NonNullable, [true, true], Form::NonNullable),
        (Validity::AllValid, [true, true], Form::AllValid),
        (Validity::AllInvalid, [false, false], Form::AllInvalid),
        (valid_where(alloc, &[true, true])?, [true, true], Form::Array),
        (valid_where(alloc, &[true, false])?, [true, false], Form::Array),
    ]?)
}

/// What each tells, and what is made of it.
fn each(
    alloc: Global,
    checks: &mut Checks<'_>,
    number: usize,
    it: &Validity,
    there: [bool; 2],
    form: Form,
) -> Done {
    let (is_array, is_full) = (form == Form::Array, there[0] && there[1]);
    let (or_null, all_null) = (form != Form::NonNullable, form == Form::AllInvalid);
    let nothing_read = is_full && !is_array;
    let copy = || it.clone();
    let trivial = |nullability| -> Result<Option<Validity>, DTypeError> {
        Ok(copy()?.trivially_cast_nullability(nullability))
    };
    hold!(checks, number;
        it.nullability().is_nullable() == or_null,
        it.definitely_no_nulls() == nothing_read && it.definitely_all_null() == all_null,
        it.maybe_len() == if is_array { Some(2) } else { None },
        it.as_array().is_some() == is_array && copy()?.into_array()?.is_some() == is_array,
        it.packed().is_some_and(|bits| bits.len() == 2) == is_array,
        it.execute_no_nulls(2) == is_full && (is_array || it.execute_no_nulls(0)),
        it.mask_eq(&Validity::NonNullable, 2) == is_full,
        it.mask_eq(&Validity::AllInvalid, 2) == all_null,
        copy()?.into_nullable().nullability() == WITH,
        copy()?.union_nullability(WITH).nullability() == WITH,
        copy()?.union_nullability(WITHOUT).nullability() == it.nullability(),
        copy()?.into_non_nullable(2).is_some() == is_full,
        copy()?.trivial_into_non_nullable().is_some() == nothing_read,
        trivial(WITHOUT)?.is_some() == nothing_read,
        trivial(WITH)?.is_some_and(|it| it.nullability() == WITH),
    );
    let cast = copy()?.cast_nullability(WITHOUT, 2);
    if !is_full {
        return refused(checks, "cast_nullability", cast, ArrayError::NullInNonNullable);
    }
    done!(checks, number; answered(cast)?.nullability() == WITHOUT)
}

/// What each tells of its rows, and what is made of them.
fn rows(
    alloc: Global,
    checks: &mut Checks<'_>,
    number: usize,
    it: &Validity,
    there: [bool; 2],
) -> Done {
    let (array, mask, not) = (it.to_array(alloc, 2)?, it.to_mask(alloc, 2)?, it.not(alloc, 2)?);
    let (packed, or_null) = (it.packed(), it.nullability().is_nullable());
    hold!(checks, number; array.len() == 2 && *array.dtype() == DType::Bool(WITHOUT));
    hold!(checks, number; not.nullability().is_nullable() == or_null);
    for i in 0..2 {
        let is_there = there[i];
        hold!(checks, number; it.is_valid(i, 2) == is_there && it.is_null(i, 2) == !is_there);
        hold!(checks, number; it.execute_is_valid(i, 2) == is_there);
        hold!(checks, number; it.execute_is_null(i, 2) == !is_there, array.truth(i) == is_there);
        hold!(checks, number; mask.value(i) == is_there);
        hold!(checks, number; packed.is_none_or(|bits| bits.value(i) == is_there));
        hold!(checks, number; not.is_null(i, 2) == (or_null && is_there));
    }
    Ok(())
}

fn made(alloc: Global, checks: &mut Checks<'_>) -> Done {
    let truths = |count| ArrayRef::of_constant(alloc, Scalar::bool(true, WITHOUT), count);
    let run = Validity::Array(truths(3)?).execute(alloc, 3)?;
    let is_so = match &run {
        Validity::Array(rows) => matches!(rows.layout(), ArrayLayout::Bool(_, _)) && rows.truth(2),
        _ => false,
    };
    let mask = Validity::AllInvalid.execute_mask(alloc, 4)?;
    let bits = BitBuffer::from_bools(alloc, &[false, true])?;
    let some = Validity::from_bit_buffer(alloc, bits, WITH)?;
    let (all, none) = (Mask::new_true(alloc, 3)?, Mask::new_false(alloc, 3)?);
    let nullable = Validity::from_mask(alloc, &all, WITH)?;
    hold!(checks; is_so && run.execute_no_nulls(3) && run.mask_eq(&Validity::NonNullable, 3));
    hold!(checks; mask.len() == 4 && mask.all_false() && some.is_null(0, 2) && some.is_valid(1, 2));
    hold!(checks; Validity::from_mask(alloc, &all, WITHOUT)?.nullability() == WITHOUT);
    hold!(checks; nullable.nullability() == WITH && nullable.definitely_no_nulls());
    done!(checks; Validity::from_mask(alloc, &none, WITH)?.definitely_all_null())
}

fn patched(alloc: Global, checks: &mut Checks<'_>) -> Done {
    let places = plain(alloc, &[2u8, 0, 2])?;
    let patches = valid_where(alloc, &[true, false, false])?;
    let rows = valid_where(alloc, &[true, false, true, false])?;
    let nulls = answered(rows.patch(alloc, 4, &places, &patches))?;
    let some = answered(rows.patch(alloc, 4, &places, &Validity::AllValid))?;
    let none = Validity::NonNullable.patch(alloc, 4, &places, &Validity::NonNullable);
    hold!(checks; (0..3).all(|i| nulls.is_null(i, 4)) && some.is_valid(0, 4) && some.is_null(1, 4));
    hold!(checks; answered(none)?.nullability() == WITHOUT);
    let far = plain(alloc, &[4u8, 0, 1])?;
    let untyped = Validity::Array(plain(alloc, &[1u8, 0])?);
    let short = valid_where(alloc, &[true])?;
    let (signed, few) = (plain(alloc, &[1i8])?, plain(alloc, &[3u8])?);
    for (name, places, patches, fault) in [
        ("patch, signed", &signed, &patches, ArrayError::WrongType),
        ("patch, no row", &far, &patches, ArrayError::OutOfRange),
        ("patch, length", &few, &patches, ArrayError::LengthMismatch),
        ("patch, no row and no truths", &far, &untyped, ArrayError::WrongType),
        ("patch, no row and a length", &far, &short, ArrayError::OutOfRange),
    ] {
        refused(checks, name, rows.patch(alloc, 4, places, patches), fault)?;
    }
    Ok(())
}

/// A validity without an array fits any count; one of another type is refused so, whatever its
/// length.
fn fitting(alloc: Global, checks: &mut Checks<'_>) -> Done {
    let bits = BitBuffer::from_bools(alloc, &[true, true])?;
    let or_null = Validity::Array(ArrayRef::of_bools(alloc, bits, Validity::AllValid)?);
    let untyped = Validity::Array(array_of(alloc, &[1u8, 1], Validity::NonNullable)?);
    let two = Validity::Array(bools(alloc, &[true, false])?);
    for len in [0, 1, 2, 3, usize::MAX] {
        let wanted = if len == 2 { Ok(()) } else { Err(ArrayError::LengthMismatch) };
        hold!(checks, len;
            Validity::NonNullable.check_len(len).is_ok(), Validity::AllValid.check_len(len).is_ok(),
            Validity::AllInvalid.check_len(len).is_ok() && two.check_len(len) == wanted,
            or_null.check_len(len) == Err(ArrayError::WrongType),
            untyped.check_len(len) == Err(ArrayError::WrongType),
        );
    }
    Ok(())
}

/// A row is null where it is in either.
fn joined(alloc: Global, checks: &mut Checks<'_>) -> Done {
    let all = [
        Validity::NonNullable,
        Validity::AllValid,
        Validity::AllInvalid,
        valid_where(alloc, &[true, false, true, false])?,
        valid_where(alloc, &[true, true, false, false])?,
        Validity::Array(ArrayRef::of_constant(alloc, Scalar::bool(true, WITHOUT), 4)?),
    ];
    for mine in &all {
        for theirs in &all {
            let both = mine.and(alloc, theirs, 4)?;
            let may_be_null = |it: &Validity| it.nullability().is_nullable();
            hold!(checks; may_be_null(&both) == (may_be_null(mine) || may_be_null(theirs)));
            for i in 0..4 {
                let is_valid = mine.is_valid(i, 4) && theirs.is_valid(i, 4);
                hold!(checks, i; both.is_valid(i, 4) == is_valid);
            }
        }
    }
    let dtype = <Validity as ValidityConcat>::DTYPE;
    let (none, some) = (Validity::NonNullable, valid_where(alloc, &[false, true])?);
    let all =
        answered(Validity::concat(alloc, &[(none, 2), (some, 2), (Validity::AllInvalid, 1)]))?;
    let wanted = [true, true, false, true, false];
    hold!(checks; dtype == DType::Bool(WITHOUT) && Validity::array_dtype() == dtype);
    hold!(checks; answered(Validity::concat(alloc, &[]))?.is_none());
    done!(checks; all.is_some_and(|all| (0..5).all(|i| all.is_valid(i, 5) == wanted[i])))
}

/// Twice as many rows can't be counted.
pub const HALF: usize = 1 << 63;

/// Parts that are together one row too many, and others that are just few enough. They take no
/// memory to hold.
fn too_many(alloc: Global, checks: &mut Checks<'_>) -> Done {
    let constant = |is_valid| -> Result<Validity, DTypeError> {
        let rows = ArrayRef::of_constant(alloc, Scalar::bool(is_valid, WITHOUT), HALF)?;
        Ok(Validity::Array(rows))
    };
    let (none, valid, invalid) =
        (|| Validity::NonNullable, || Validity::AllValid, || Validity::AllInvalid);
    for (name, parts) in &[
        ("concat of constants", [(constant(true)?, HALF), (constant(true)?, HALF)]),
        ("concat of null constants", [(constant(false)?, HALF), (constant(false)?, HALF)]),
        ("concat without null", [(valid(), HALF), (none(), HALF)]),
        ("concat of nulls", [(invalid(), HALF), (invalid(), HALF)]),
        ("concat of one row more", [(none(), usize::MAX), (none(), 1)]),
        ("concat with a null", [(valid_where(alloc, &[false])?, 1), (valid(), usize::MAX)]),
    ] {
        refused(checks, name, Validity::concat(alloc, parts), ArrayError::Total)?;
    }
    let there = answered(Validity::concat(alloc, &[(valid(), HALF), (none(), HALF - 1)]))?;
    let nulls = answered(Validity::concat(alloc, &[(invalid(), HALF), (invalid(), HALF - 1)]))?;
    hold!(checks; there.is_some_and(|all| all.definitely_no_nulls()));
    hold!(checks; nulls.is_some_and(|all| all.definitely_all_null()));
    done!(checks; answered(Validity::concat(alloc, &[(none(), usize::MAX)]))?.is_some())
}
