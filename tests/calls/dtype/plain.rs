//! `Nullability`, `PType`, `DecimalDType`, `DTypeError`, `FieldName`, `FieldNames` and their
//! iterators.

use crate::checks::Checks;
use crate::counted::{done, hold};
use crate::make::{Done, FLOATS, INTEGERS, WITH, WITHOUT, are_names, names};
use std::alloc::{AllocError, AllocFailed, Global};
use std::convert::AsStr;
use vortex_dtype::{
    BufferString, DTypeError, DecimalDType, FieldName, FieldNames, FieldNamesIntoIter,
    FieldNamesIter, MAX_PRECISION, MAX_SCALE, Nullability, PType,
};

pub fn run(alloc: Global, checks: &mut Checks<'_>) -> Done {
    nullability(alloc, checks)?;
    each_kind(alloc, checks)?;
    other_sign(checks);
    by_value(checks);
    decimals(alloc, checks)?;
    errors(alloc, checks)?;
    one_name(alloc, checks)?;
    lists_of_names(alloc, checks)
}

fn nullability(alloc: Global, checks: &mut Checks<'_>) -> Done {
    for (it, is_so, name) in [(WITH, true, "Nullable"), (WITHOUT, false, "NonNullable")] {
        hold!(checks; it.is_nullable() == is_so && bool::from(it) == is_so);
        hold!(checks; Nullability::from(is_so) == it);
        hold!(checks; format!(in alloc; "{it:?}")?.as_str() == name, it.clone()? == it);
        hold!(checks; (it != WITHOUT) == is_so);
        for (other, either) in [(WITH, WITH), (WITHOUT, it)] {
            let mut changed = it;
            changed |= other;
            hold!(checks; it | other == either && changed == either);
        }
    }
    Ok(())
}

/// The names of all kinds, each a letter and how many bits a number takes.
const NAMES: &str = "u8 u16 u32 u64 i8 i16 i32 i64 f16 f32 f64";

fn each_kind(alloc: Global, checks: &mut Checks<'_>) -> Done {
    let kinds = || INTEGERS.iter().map(|(ptype, _, _)| *ptype).chain(FLOATS);
    for (ptype, name) in kinds().zip(NAMES.split(' ')) {
        let (is_unsigned, is_float) = (name.starts_with('u'), name.starts_with('f'));
        let (letter, bits) = name.split_at(1);
        let bits = bits.parse::<usize>().unwrap_or(0);
        let written = format!(in alloc; "{ptype:?}")?;
        checks.holds(name, ptype.is_unsigned_int() == is_unsigned && ptype.is_float() == is_float);
        checks.holds(name, ptype.is_signed_int() == (letter == "i"));
        checks.holds(name, ptype.is_int() == !is_float);
        checks.holds(name, ptype.bit_width() == bits && ptype.byte_width() == bits / 8);
        checks
            .holds(name, ptype.as_str() == name && format!(in alloc; "{ptype}")?.as_str() == name);
        checks.holds(name, written.as_str().eq_ignore_ascii_case(name) && written.as_str() != name);
        checks
            .holds(name, ptype.clone()? == ptype && kinds().filter(|it| *it == ptype).count() == 1);
    }
    Ok(())
}

/// Two integer types, and the unsigned and the signed ones as wide as the wider of them.
const WIDER: [(PType, PType, PType, PType); 5] = [
    (PType::U8, PType::U8, PType::U8, PType::I8),
    (PType::U8, PType::I32, PType::U32, PType::I32),
    (PType::I64, PType::U8, PType::U64, PType::I64),
    (PType::I16, PType::U16, PType::U16, PType::I16),
    (PType::U32, PType::I64, PType::U64, PType::I64),
];

fn other_sign(checks: &mut Checks<'_>) {
    for i in 0..4 {
        let (unsigned, signed) = (INTEGERS[i].0, INTEGERS[i + 4].0);
        for ptype in [unsigned, signed] {
            hold!(checks, i; ptype.to_signed() == signed && ptype.to_unsigned() == unsigned);
        }
    }
    for (ptype, _, most) in INTEGERS {
        hold!(checks; i128::from(ptype.max_value_as_u64()) == most);
    }
    for float in FLOATS {
        hold!(checks; float.to_signed() == float && float.to_unsigned() == float);
    }
    for (one, other, unsigned, signed) in WIDER {
        for (one, other) in [(one, other), (other, one)] {
            hold!(checks; one.max_unsigned_ptype(other) == unsigned);
            hold!(checks; one.max_signed_ptype(other) == signed);
        }
    }
}

/// The narrowest kinds of each kind's ends, and of the numbers past those of the kind before.
fn by_value(checks: &mut Checks<'_>) {
    let (mut most_unsigned, mut least_signed, mut most_signed) = (-1, 0, -1);
    for i in 0..4 {
        let (unsigned, _, most) = INTEGERS[i];
        for number in [most_unsigned + 1, most] {
            hold!(checks, i; PType::min_unsigned_ptype_for_value(number as u64) == unsigned);
        }
        most_unsigned = most;
        let (signed, least, most) = INTEGERS[i + 4];
        for number in [least, least_signed - 1, most_signed + 1, most] {
            hold!(checks, i; PType::min_signed_ptype_for_value(number as i64) == signed);
        }
        least_signed = least;
        most_signed = most;
    }
}

/// Precisions, and how many bits the greatest number of so many digits takes.
const BITS: [(u8, usize); 7] = [(1, 4), (2, 7), (4, 14), (9, 30), (18, 60), (38, 127), (76, 253)];

fn decimals(alloc: Global, checks: &mut Checks<'_>) -> Done {
    hold!(checks; MAX_PRECISION == 76 && MAX_SCALE == 76);
    for (precision, scale) in [(1, 0), (10, 2), (2, 76), (1, -76), (76, 76), (76, -76)] {
        let made = DecimalDType::new(precision, scale);
        for made in [DecimalDType::try_new(precision, scale)?, made, made.clone()?] {
            hold!(checks; made.precision() == precision && made.scale() == scale);
        }
    }
    for (precision, scale) in [(0, 0), (77, 0), (255, 0), (1, 77), (1, -77), (76, 127), (76, -128)]
    {
        let answer = DecimalDType::try_new(precision, scale);
        checks.refused("try_new out of range", answer, DTypeError::DecimalShape)?;
    }
    for (precision, bits) in BITS {
        hold!(checks; DecimalDType::new(precision, 0).required_bit_width() == bits);
    }
    let shown = format!(in alloc; "{:?}", DecimalDType::new(10, -3))?;
    done!(checks; shown.as_str().contains("precision: 10, scale: -3"))
}

/// Each refusal, its name and its text, in the order of their numbers from 1.
const REFUSALS: [(DTypeError, &str, &str); 10] = [
    (DTypeError::Memory, "Memory", "out of memory"),
    (DTypeError::Width, "Width", "an element is wider than can be counted"),
    (DTypeError::Length, "Length", "the bytes are not as many as the number takes"),
    (DTypeError::NoSuchField, "NoSuchField", "there is no such field"),
    (DTypeError::RepeatedName, "RepeatedName", "a name is repeated"),
    (DTypeError::MapShape, "MapShape", "the key of a map is nullable"),
    (
        DTypeError::UnionShape,
        "UnionShape",
        "the lists of a union are unequal, or a tag is repeated",
    ),
    (
        DTypeError::DecimalShape,
        "DecimalShape",
        "the precision or scale of a decimal is out of range",
    ),
    (DTypeError::Malformed, "Malformed", "the message is malformed"),
    (DTypeError::Plugin, "Plugin", "a plugin refuses the extension"),
];

fn errors(alloc: Global, checks: &mut Checks<'_>) -> Done {
    for (i, (error, name, text)) in REFUSALS.iter().enumerate() {
        hold!(checks, i; usize::from(error.number()) == i + 1 && error.name() == *name);
        hold!(checks, i; format!(in alloc; "{error}")?.as_str() == *text);
        hold!(checks, i; format!(in alloc; "{error:?}")?.as_str() == *name);
        hold!(checks, i; error.clone()? == *error && (*error != DTypeError::Width) == (i != 1));
    }
    hold!(checks; DTypeError::from(AllocError) == DTypeError::Memory);
    done!(checks; DTypeError::from(AllocFailed { value: 7u8 }) == DTypeError::Memory)
}

/// A text that would not fit beside a length.
const LONG: &str = "a longer name than would fit beside a length";

/// The text of what has one, by the bound.
fn text_of<T: AsStr>(named: &T) -> &str {
    named.as_str()
}

fn one_name(alloc: Global, checks: &mut Checks<'_>) -> Done {
    for text in ["größe", "", LONG] {
        let name = FieldName::new(alloc, text)?;
        hold!(checks; name.as_str() == text && text_of(&name) == text);
        hold!(checks; name.inner().len() == text.len(), name.eq_text(text));
        hold!(checks; !name.eq_text("größ"), format!(in alloc; "{name}")?.as_str() == text);
        hold!(checks; name != FieldName::new(alloc, "größ")?, name.clone()? == name);
        hold!(checks; FieldName::try_from((alloc, text))? == name);
        hold!(checks; FieldName::try_from(String::from_str(alloc, text)?)? == name);
        hold!(checks; FieldName::from(BufferString::copy_from_str(alloc, text)?) == name);
    }
    Ok(())
}

fn lists_of_names(alloc: Global, checks: &mut Checks<'_>) -> Done {
    let (none, list) = (FieldNames::empty(alloc), names(alloc, &["a", "b", "a"])?);
    hold!(checks;
        none.is_empty() && none.len() == 0 && !list.is_empty() && list.len() == 3 && list != none,
        are_names(&list.clone()?, &["a", "b", "a"]) && list.clone()? == list,
        names(alloc, &["b", "a", "a"])? != list,
        are_names(&FieldNames::from(vec![in alloc; FieldName::new(alloc, "z")?]?), &["z"]),
        list.as_slice().len() == 3 && list.as_slice()[2].eq_text("a"),
        list.get(1).is_some_and(|name| name.eq_text("b")) && list.get(3).is_none(),
        list[0].eq_text("a") && list[1].eq_text("b"),
        list.find("a") == Some(0) && list.find("b") == Some(1) && list.find("c").is_none(),
    );
    let mut rest: FieldNamesIter<'_> = list.iter();
    for (i, name) in (&list).into_iter().enumerate() {
        hold!(checks, i; name.eq_text(["a", "b", "a"][i]));
        hold!(checks, i; rest.len() == 3 - i && rest.size_hint() == (3 - i, Some(3 - i)));
        hold!(checks, i; rest.next() == Some(name));
    }
    hold!(checks; rest.size_hint() == (0, Some(0)) && rest.next().is_none() && rest.len() == 0);
    let mut rest: FieldNamesIntoIter = list.into_iter();
    hold!(checks; rest.len() == 3 && rest.size_hint() == (3, Some(3)));
    hold!(checks; rest.next().is_some_and(|name| name.eq_text("a")) && rest.len() == 2);
    for mut rest in [rest.clone()?, rest] {
        hold!(checks; rest.next().is_some_and(|name| name.eq_text("b")));
        hold!(checks; rest.next().is_some_and(|name| name.eq_text("a")));
        hold!(checks; rest.next().is_none() && rest.next().is_none());
    }
    Ok(())
}
