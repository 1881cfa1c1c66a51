//! Which kind a `DType` is of, its parts, its conversions, what it is stored by, whether null is
//! among its values, and how many bytes these take.

use crate::checks::Checks;
use crate::counted::{done, hold};
use crate::make::{Done, FLOATS, INTEGERS, WITH, WITHOUT, extension, kinds, number};
use crate::notation::{dtype, dtypes};
use std::alloc::{AllocError, Global};
use vortex_dtype::{DType, DTypeError, DTypeExt, DecimalDType, PType};

pub fn run(alloc: Global, checks: &mut Checks<'_>) -> Done {
    for nullability in [WITH, WITHOUT] {
        for (place, dtype) in kinds(alloc, nullability, WITH)?.iter().enumerate() {
            kind(checks, place, dtype);
            parts(alloc, checks, place, dtype)?;
        }
    }
    of_numbers(checks);
    let (with, without) = (kinds(alloc, WITH, WITH)?, kinds(alloc, WITHOUT, WITH)?);
    for (place, (nullable, plain)) in with.iter().zip(&without).enumerate() {
        asked(checks, place, nullable, plain);
        changed(checks, nullable, plain)?;
    }
    over_null(alloc, checks)?;
    sizes(alloc, checks)
}

/// The type is of the kind at this place, and of no other, and has the parts of that kind alone.
fn kind(checks: &mut Checks<'_>, place: usize, dtype: &DType) {
    let is = |at| place == at;
    hold!(checks, place;
        dtype.is_boolean() == is(1) && dtype.is_utf8() == is(4) && dtype.is_binary() == is(5),
        dtype.is_primitive() == is(2) && dtype.is_int() == is(2) && !dtype.is_float(),
        dtype.is_decimal() == is(3) && dtype.as_decimal_opt().is_some() == is(3),
        dtype.is_list() == is(6) && dtype.as_list_element_opt().is_some() == is(6),
        dtype.is_fixed_size_list() == is(7),
        dtype.as_fixed_size_list_element_opt().is_some() == is(7),
        dtype.is_map() == is(8) && dtype.as_map_opt().is_some() == is(8),
        dtype.is_struct() == is(9) && dtype.as_struct_fields_opt().is_some() == is(9),
        dtype.is_union() == is(10) && dtype.as_union_variants_opt().is_some() == is(10),
        dtype.is_variant() == is(11),
        dtype.is_extension() == is(12) && dtype.as_extension_opt().is_some() == is(12),
        dtype.as_ptype_opt() == if is(2) { Some(PType::I32) } else { None },
        dtype.as_any_size_list_element_opt().is_some() == (is(6) || is(7)),
        // Booleans, integers, strings and bytes are leaves, with null or without.
        dtype.is_leaf() == [1, 2, 4, 5].contains(&place),
        (*dtype.stored_dtype() == *dtype) == !is(12),
    );
    let is_so = match PType::try_from(dtype) {
        Ok(ptype) => is(2) && ptype == PType::I32,
        Err(error) => !is(2) && error == DTypeError::Malformed,
    };
    checks.holds_at("PType try_from", place, is_so);
}

/// What the parts are, lent and taken out. Extensions are stored by what is below all of them.
fn parts(alloc: Global, checks: &mut Checks<'_>, place: usize, it: &DType) -> Done {
    let (byte, float) = (dtype(alloc, "u8?")?, dtype(alloc, "f32?")?);
    hold!(checks, place;
        it.as_decimal_opt().is_none_or(|it| it.precision() == 20 && it.scale() == -3),
        it.as_list_element_opt().is_none_or(|it| **it == byte),
        it.as_fixed_size_list_element_opt().is_none_or(|it| **it == float),
        it.as_any_size_list_element_opt().is_none_or(|it| *it == byte || *it == float),
        it.as_map_opt().is_none_or(|it| it.key_dtype().is_utf8()),
        it.as_struct_fields_opt().is_none_or(|it| it.nfields() == 2),
        place != 9 || it.as_struct_fields().nfields() == 2,
        it.as_union_variants_opt().is_none_or(|it| it.len() == 2),
        it.as_extension_opt().is_none_or(|it| it.id().as_str() == "boxed"),
        place != 12 || it.as_extension().id().as_str() == "boxed",
        it.clone()?.into_struct_fields_opt().is_some() == (place == 9),
        it.clone()?.into_extension_opt().is_some() == (place == 12),
    );
    if place == 9 {
        let fields = it.clone()?.into_struct_fields();
        hold!(checks; fields.field_name(1).is_some_and(|name| name.eq_text("b")));
    } else if place == 12 {
        let extension = it.clone()?.into_extension();
        hold!(checks; extension.serialize_metadata().as_slice() == "é\0".as_bytes());
    }
    let inner = DType::Extension(extension(alloc, "inner", &[1], it.clone()?)?);
    let outer = DType::Extension(extension(alloc, "outer", &[2, 3], inner)?);
    hold!(checks, place; *outer.stored_dtype() == *it.stored_dtype());
    done!(checks, place; outer.as_any_size_list_element_opt().is_none() && !outer.is_leaf())
}

fn of_numbers(checks: &mut Checks<'_>) {
    for (ptype, _, _) in INTEGERS {
        let dtype = number(ptype);
        hold!(checks; dtype.is_int() && !dtype.is_float() && dtype.is_leaf());
        hold!(checks; dtype.as_ptype() == ptype && DType::from(ptype) == dtype);
    }
    for ptype in FLOATS {
        let dtype = DType::Primitive(ptype, WITH);
        hold!(checks; dtype.is_float() && !dtype.is_int() && !dtype.is_leaf());
        hold!(checks; dtype.as_ptype() == ptype);
    }
    let dtype: DType = PType::F64.into();
    hold!(checks; dtype == number(PType::F64) && DType::BYTES == number(PType::U8));
}

/// Null is nullable, whatever is asked for.
fn asked(checks: &mut Checks<'_>, place: usize, nullable: &DType, plain: &DType) {
    let is_null = place == 0;
    hold!(checks, place; nullable.nullability() == WITH && nullable.is_nullable());
    hold!(checks, place; (plain.nullability() == WITHOUT) == !is_null);
    hold!(checks, place; plain.is_nullable() == is_null, nullable.can_be_nonnullable() == !is_null);
    hold!(checks, place; plain.can_be_nonnullable() == !is_null);
}

/// The type with null and the one without, each made from each, which it stays.
fn changed(checks: &mut Checks<'_>, nullable: &DType, plain: &DType) -> Done {
    let narrow = if nullable.can_be_nonnullable() { plain } else { nullable };
    for (of, by_union) in [(nullable, nullable), (plain, narrow)] {
        let twin = of.clone()?;
        for (name, answer, wanted) in [
            ("with_nullability", of.with_nullability(WITH), nullable),
            ("with_nullability of none", of.with_nullability(WITHOUT), narrow),
            ("as_nullable", of.as_nullable(), nullable),
            ("as_nonnullable", of.as_nonnullable(), narrow),
            ("union_nullability", of.union_nullability(WITH), nullable),
            ("union_nullability of none", of.union_nullability(WITHOUT), by_union),
        ] {
            let answer: Result<DType, AllocError> = answer;
            checks.stays("a type after a call on it", *of == twin);
            checks.holds(name, answer? == *wanted);
        }
    }
    Ok(())
}

/// An extension is nullable where its storage is. Elements stay as they are.
fn over_null(alloc: Global, checks: &mut Checks<'_>) -> Done {
    let null = dtype(alloc, "nothing''(null)")?;
    let outer = dtype(alloc, "outer''(inner''(u8))")?;
    done!(checks;
        null.nullability() == WITH && !null.can_be_nonnullable(),
        !outer.is_nullable() && outer.as_nullable()? == dtype(alloc, "outer''(inner''(u8?))")?,
        dtype(alloc, "list(utf8?)?")?.as_nonnullable()? == dtype(alloc, "list(utf8?)")?,
    )
}

/// How many bytes each value takes, where that is one number, and types of this. `max` is 2^32 - 1,
/// whose square is below 2^64, and twice that isn't.
const SIZES: [(Result<Option<usize>, DTypeError>, &str); 9] = [
    (Ok(Some(0)), "null; fixed(i32?, 0); fixed(null, max); {}"),
    (Ok(Some(1)), "bool; bool?"),
    (
        Ok(None),
        "utf8; binary; variant?; list(u8); sorted(u8, u8); <a:0=u8>; fixed(utf8, 2); \
            fixed(utf8, 0); {a=u8, b=utf8}; boxed''(utf8); \
            {a=fixed(fixed(u64, max), max), b=utf8}",
    ),
    (Ok(Some(12)), "fixed(i32, 3)?"),
    (Ok(Some(31)), "{a=fixed(i32, 3), b=bool?, c=decimal(20, 5), d=u16}"),
    (Ok(Some(62)), "boxed'm'(fixed({a=fixed(i32, 3), b=bool?, c=decimal(20, 5), d=u16}, 2))"),
    (Ok(Some(18_446_744_065_119_617_025)), "fixed(fixed(u8, max), max)"),
    (Ok(Some(usize::MAX)), "{a=fixed(fixed(u8, max), max), b=fixed(u16, max), c=null}"),
    (
        Err(DTypeError::Width),
        "{a=fixed(fixed(u8, max), max), b=fixed(u16, max), c=bool}; fixed(fixed(u16, max), max); \
            fixed(fixed(fixed(u16, max), max), 0); \
            {a=fixed(fixed(u8, max), max), b=fixed(fixed(u8, max), max)}; \
            a''({a=fixed(fixed(u8, max), max), b=fixed(fixed(u8, max), max)})",
    ),
];

/// How many bytes each value takes, by the bound.
fn size_of<T: DTypeExt>(dtype: &T) -> Result<Option<usize>, DTypeError> {
    dtype.element_size()
}

fn sizes(alloc: Global, checks: &mut Checks<'_>) -> Done {
    for (wanted, texts) in &SIZES {
        for dtype in &dtypes(alloc, texts)? {
            checks.holds(texts, size_of(dtype) == *wanted);
        }
    }
    for ptype in INTEGERS.iter().map(|(ptype, _, _)| *ptype).chain(FLOATS) {
        for nullability in [WITH, WITHOUT] {
            let size = size_of(&DType::Primitive(ptype, nullability));
            hold!(checks; size == Ok(Some(ptype.byte_width())));
        }
    }
    // The least and the most digits of each width. The scale doesn't count.
    let digits = [[1, 2], [3, 4], [5, 9], [10, 18], [19, 38], [39, 76]];
    for (i, ends) in digits.iter().enumerate() {
        for (precision, scale) in [(ends[0], 0), (ends[0], -76), (ends[1], 0), (ends[1], -76)] {
            let dtype = DType::Decimal(DecimalDType::new(precision, scale), WITHOUT);
            hold!(checks; size_of(&dtype) == Ok(Some(1 << i)));
        }
    }
    Ok(())
}
