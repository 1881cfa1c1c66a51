//! The views of values: how they are made, what they tell, and their parts.

use crate::checks::Checks;
use crate::counted::{done, hold};
use crate::samples::{
    BINARY, BOOL, EXTENSION, FIXED, LIST, MAP, NO_VALUES, NUMBERS, OCTETS, STRUCT, UNION, UTF8,
    VARIANT, groups, is_some_of, is_twin, of,
};
use crate::value_notation::{scalar, value, values};
use crate::values::{Done, WITH, WITHOUT, extension, is_made, is_of, is_same};
use std::alloc::{AllocError, Global};
use std::iter::ExactSizeIterator;
use vortex_dtype::{BufferString, ByteBuffer, DType, FieldName, UnionVariantsExt};
use vortex_scalar::{
    BinaryScalar, BoolScalar, ExtScalar, ListScalar, ListScalarExt, MapScalar, MapScalarExt,
    NestedScalarViews, PrimitiveScalar, Scalar, ScalarConstructors, ScalarError, ScalarViews,
    StructScalar, StructScalarExt, UnionScalar, UnionScalarExt, Utf8Scalar, VariantScalar,
};

pub fn of_leaves(alloc: Global, checks: &mut Checks<'_>) -> Done {
    for nullability in [WITH, WITHOUT] {
        let all = groups(alloc, nullability)?;
        for (kind, group) in all.iter().enumerate() {
            let null = Scalar::null(group[0].dtype().as_nullable()?);
            for scalar in group.iter().chain(&[null]) {
                seen(checks, kind, scalar);
                made(checks, kind, scalar.dtype(), scalar);
                made(checks, kind, group[0].dtype(), scalar);
                for other in all.iter().filter(|it| !scalar.is_null() && it[0] != group[0]) {
                    made(checks, kind, other[0].dtype(), scalar);
                }
            }
        }
    }
    for text in NO_VALUES {
        let null = Scalar::null(of(alloc, text)?);
        seen(checks, if text == "f32?" { NUMBERS } else { NONE }, &null);
    }
    truths(checks)?;
    texts_and_bytes(checks);
    Ok(())
}

/// No kind of the groups.
const NONE: usize = usize::MAX;

/// Each view, and the calls that make it: of a scalar of its kind alone, whose type it has, and it
/// is null where that is.
macro_rules! views {
    ($checks:expr, $kind:expr, $it:expr; $($view:ident, $call:ident, $opt:ident, $is:expr;)+) => {{
        $(
        hold!($checks, $kind; is_made($view::try_from($it), $is), $it.$opt().is_some() == $is);
        if $is {
            hold!($checks, $kind; *$it.$call().dtype() == *$it.dtype());
            hold!($checks, $kind; $it.$call().is_null() == $it.is_null());
        }
        )+
    }};
}

fn seen(checks: &mut Checks<'_>, kind: usize, it: &Scalar) {
    let is = |at| kind == at;
    views!(checks, kind, it;
        BoolScalar, as_bool, as_bool_opt, is(BOOL);
        PrimitiveScalar, as_primitive, as_primitive_opt, is(NUMBERS) || is(OCTETS);
        Utf8Scalar, as_utf8, as_utf8_opt, is(UTF8);
        BinaryScalar, as_binary, as_binary_opt, is(BINARY);
        ListScalar, as_list, as_list_opt, is(LIST) || is(FIXED);
        StructScalar, as_struct, as_struct_opt, is(STRUCT);
        MapScalar, as_map, as_map_opt, is(MAP);
        UnionScalar, as_union, as_union_opt, is(UNION);
        VariantScalar, as_variant, as_variant_opt, is(VARIANT);
        ExtScalar, as_extension, as_extension_opt, is(EXTENSION);
    );
    hold!(checks, kind; !is(BOOL) || Some(it.as_bool()) == it.as_bool_opt());
    hold!(checks, kind; !is(UTF8) || Some(it.as_utf8()) == it.as_utf8_opt());
    hold!(checks, kind; !is(BINARY) || Some(it.as_binary()) == it.as_binary_opt());
}

/// Views are made of the values that the type has, and of one kind of types each.
fn made(checks: &mut Checks<'_>, kind: usize, dtype: &DType, scalar: &Scalar) {
    let value = scalar.value();
    let is = |at| kind == at && dtype.eq_ignore_nullability(scalar.dtype());
    let has = |at, other| (is(at) || is(other)) && (value.is_some() || dtype.is_nullable());
    hold!(checks, kind; is_made(BoolScalar::try_new(dtype, value), has(BOOL, BOOL)));
    hold!(checks, kind; is_made(PrimitiveScalar::try_new(dtype, value), has(NUMBERS, OCTETS)));
    hold!(checks, kind; is_made(Utf8Scalar::try_new(dtype, value), has(UTF8, UTF8)));
    hold!(checks, kind; is_made(BinaryScalar::try_new(dtype, value), has(BINARY, BINARY)));
    hold!(checks, kind; is_made(ListScalar::try_new(dtype, value), has(LIST, FIXED)));
    hold!(checks, kind; is_made(MapScalar::try_new(dtype, value), has(MAP, MAP)));
    hold!(checks, kind; is_made(UnionScalar::try_new(dtype, value), has(UNION, UNION)));
}

fn truths(checks: &mut Checks<'_>) -> Done {
    for (value, other) in [(Some(false), Some(true)), (Some(true), Some(false)), (None, None)] {
        let scalar = match value {
            Some(value) => Scalar::bool(value, WITH),
            None => Scalar::null(DType::Bool(WITH)),
        };
        let (view, turned) = (scalar.as_bool(), scalar.as_bool().invert());
        hold!(checks; view.value() == value && turned.value() == other);
        hold!(checks; turned.is_null() == other.is_none() && *turned.dtype() == DType::Bool(WITH));
        hold!(checks; (turned == scalar.as_bool()) == value.is_none());
        let twice = turned.invert();
        hold!(checks; twice == scalar.as_bool());
        let answer: Result<Scalar, AllocError> = twice.into_scalar();
        checks.stays("a scalar under its view", scalar.as_bool().value() == value);
        hold!(checks; is_twin(&answer?, &scalar));
    }
    for scalar in [Scalar::from(7u8), Scalar::from(None::<i16>)] {
        hold!(checks; is_twin(&scalar.as_primitive().into_scalar()?, &scalar));
        hold!(checks; is_twin(&Scalar::try_from(scalar.as_primitive())?, &scalar));
    }
    Ok(())
}

fn texts_and_bytes(checks: &mut Checks<'_>) {
    let (no_text, no_bytes) = (Scalar::null(DType::Utf8(WITH)), Scalar::null(DType::Binary(WITH)));
    let (no_text, no_bytes) = (no_text.as_utf8(), no_bytes.as_binary());
    for given in ["", "a", "é", "🪩z"] {
        let text = Scalar::utf8(BufferString::from_static(given), WITHOUT);
        let bytes = Scalar::binary(ByteBuffer::from_static(given.as_bytes()), WITHOUT);
        let (view, other) = (text.as_utf8(), bytes.as_binary());
        hold!(checks; view.value().is_some_and(|it| it.as_str() == given));
        hold!(checks; view.len() == Some(given.len()), view.is_empty() == Some(given.is_empty()));
        hold!(checks; other.is_empty() == view.is_empty());
        hold!(checks; other.value().is_some_and(|it| it.as_slice() == given.as_bytes()));
        hold!(checks; other.len() == Some(given.len()) && view != no_text && other != no_bytes);
    }
    hold!(checks; no_text.value().is_none() && no_text.len().is_none());
    hold!(checks; no_text.is_empty().is_none(), no_bytes.value().is_none());
    hold!(checks; no_bytes.len().is_none() && no_bytes.is_empty().is_none());
}

pub fn of_nested(alloc: Global, checks: &mut Checks<'_>) -> Done {
    lists(alloc, checks)?;
    records(alloc, checks)?;
    projections(alloc, checks)?;
    maps(alloc, checks)?;
    unions(alloc, checks)?;
    variants(alloc, checks)?;
    extensions(alloc, checks)
}

/// The iterator, where there is to be one, gives these values of these types, and tells before each
/// how many are left.
fn gives<I: ExactSizeIterator<Item = Result<Scalar, AllocError>>>(
    alloc: Global,
    checks: &mut Checks<'_>,
    items: Option<I>,
    wanted: Option<&[(&str, &str)]>,
) -> Done {
    hold!(checks; items.is_some() == wanted.is_some());
    let (Some(mut items), Some(wanted)) = (items, wanted) else {
        return Ok(());
    };
    for (i, (dtype, text)) in wanted.iter().enumerate() {
        let left = wanted.len() - i;
        hold!(checks; items.len() == left && items.size_hint() == (left, Some(left)));
        let answer = items.next();
        checks.stays("an iterator after an item", items.len() == left - 1);
        let wanted = scalar(alloc, dtype, text)?;
        match answer {
            Some(item) => checks.holds(text, is_twin(&item?, &wanted)),
            None => checks.holds(text, false),
        }
    }
    hold!(checks; items.len() == 0 && items.size_hint() == (0, Some(0)));
    done!(checks; items.next().is_none() && items.next().is_none() && items.len() == 0)
}

fn lists(alloc: Global, checks: &mut Checks<'_>) -> Done {
    let (element, items) = (of(alloc, "i16?")?, values(alloc, "7; null; -7")?);
    let wanted = [("i16?", "7"), ("i16?", "null"), ("i16?", "-7")];
    for text in ["list(i16?)?", "fixed(i16?, 3)?"] {
        let it = scalar(alloc, text, "[7, null, -7]")?;
        let twin = it.clone()?;
        let view = it.as_list();
        hold!(checks; view.len() == 3 && !view.is_empty() && *view.element_dtype() == element);
        for (i, value) in items.iter().enumerate() {
            let answer = view.element(i);
            checks.stays("a list after an element", is_twin(&it, &twin));
            hold!(checks; is_some_of(answer?, &element, value.as_ref()));
        }
        hold!(checks; view.element(3)?.is_none() && view.element(usize::MAX)?.is_none());
        gives(alloc, checks, view.elements(), Some(&wanted[..]))?;
        let null = Scalar::null(of(alloc, text)?);
        let view = null.as_list();
        hold!(checks; view.len() == 0 && view.is_empty() && view.element(0)?.is_none());
        hold!(checks; *view.element_dtype() == element);
        gives(alloc, checks, view.elements(), None)?;
    }
    let empty = scalar(alloc, "list(i16?)?", "[]")?;
    let view = empty.as_list();
    hold!(checks; view.len() == 0 && view.is_empty() && view.element(0)?.is_none());
    gives(alloc, checks, view.elements(), Some(&wanted[..0]))
}

/// A record whose first and last fields have one name.
const RECORD: &str = "{a=i16, b=utf8?, a=bool?}?";
const FIELDS: [(&str, &str); 3] = [("i16", "7"), ("utf8?", "'é'"), ("bool?", "null")];

fn records(alloc: Global, checks: &mut Checks<'_>) -> Done {
    let it = scalar(alloc, RECORD, "[7, 'é', null]")?;
    let (twin, null) = (it.clone()?, Scalar::null(it.dtype().clone()?));
    let (view, null) = (it.as_struct(), null.as_struct());
    hold!(checks; view.struct_fields().nfields() == 3);
    for (i, (dtype, text)) in FIELDS.iter().enumerate() {
        let (dtype, value) = (of(alloc, dtype)?, value(alloc, text)?);
        for names in [view.names(alloc)?, null.names(alloc)?] {
            hold!(checks; names.len() == 3 && names[i].eq_text(["a", "b", "a"][i]));
        }
        let answer = view.field_by_idx(i);
        checks.stays("a record after a field", is_twin(&it, &twin));
        hold!(checks, i; is_some_of(answer?, &dtype, value.as_ref()));
        hold!(checks, i; null.field_by_idx(i)?.is_none());
        let name = FieldName::new(alloc, ["a", "b", "c"][i])?;
        let found = view.field(&name)?;
        hold!(checks, i; null.field(&name)?.is_none() && found.is_some() == (i < 2));
        hold!(checks, i; i == 2 || is_some_of(found, &dtype, value.as_ref()));
    }
    hold!(checks; view.field_by_idx(3)?.is_none() && view.field_by_idx(usize::MAX)?.is_none());
    gives(alloc, checks, view.fields_iter(), Some(&FIELDS[..]))?;
    let empty = scalar(alloc, "{}", "[]")?;
    gives(alloc, checks, empty.as_struct().fields_iter(), Some(&FIELDS[..0]))?;
    gives(alloc, checks, null.fields_iter(), None)
}

/// Names, the record of the first field of each in their order, also of null, and its value, where
/// the names are there.
const PROJECTIONS: [(&[&str], &str, &str); 6] = [
    (&["b", "a"], "{b=utf8?, a=i16}?", "['é', 7]"),
    (&["a", "a", "b"], "{a=i16, a=i16, b=utf8?}?", "[7, 7, 'é']"),
    (&[], "{}?", "[]"),
    (&["c"], "", ""),
    (&["a", "b", "A"], "", ""),
    (&[""], "", ""),
];

fn projections(alloc: Global, checks: &mut Checks<'_>) -> Done {
    for (texts, dtype, text) in PROJECTIONS {
        let mut names = Vec::new(alloc);
        for text in texts {
            names.push(FieldName::new(alloc, text)?)?;
        }
        for (given, wanted) in [("[7, 'é', null]", text), ("null", "null")] {
            let it = scalar(alloc, RECORD, given)?;
            let answer = it.as_struct().project(alloc, &names);
            if dtype.is_empty() {
                checks.refused("project", answer, ScalarError::Invalid)?;
            } else {
                checks.holds(dtype, is_twin(&answer?, &scalar(alloc, dtype, wanted)?));
            }
        }
    }
    Ok(())
}

/// Maps, the types of which have sorted keys, and how many entries each has, if it isn't null.
const MAPS: [(&str, Option<usize>); 3] =
    [("[['b', 7], ['a', null]]", Some(2)), ("[]", Some(0)), ("null", None)];

fn maps(alloc: Global, checks: &mut Checks<'_>) -> Done {
    let (keys, values) = ([("utf8", "'b'"), ("utf8", "'a'")], [("i16?", "7"), ("i16?", "null")]);
    for (text, many) in MAPS {
        let (it, count) = (scalar(alloc, "sorted(utf8, i16?)?", text)?, many.unwrap_or(0));
        let (view, twin) = (it.as_map(), it.clone()?);
        let types = view.map_dtype();
        hold!(checks; view.len() == count && view.is_empty() == (count == 0));
        hold!(checks; types.keys_sorted(), *types.key_dtype() == of(alloc, "utf8")?);
        hold!(checks; *types.value_dtype() == of(alloc, "i16?")?, view.entry(count)?.is_none());
        hold!(checks; view.entry(usize::MAX)?.is_none());
        hold!(checks; view.entries().is_some() == many.is_some());
        gives(alloc, checks, view.keys(), many.map(|many| &keys[..many]))?;
        gives(alloc, checks, view.values(), many.map(|many| &values[..many]))?;
        let Some(mut entries) = view.entries() else {
            continue;
        };
        for i in 0..count {
            let left = count - i;
            let (key, value) =
                (scalar(alloc, "utf8", keys[i].1)?, scalar(alloc, "i16?", values[i].1)?);
            hold!(checks, i; entries.len() == left && entries.size_hint() == (left, Some(left)));
            let answers = [view.entry(i), entries.next().transpose()];
            checks.stays("entries after one", entries.len() == left - 1 && is_twin(&it, &twin));
            for answer in answers {
                let is_so =
                    answer?.is_some_and(|it| is_twin(&it.0, &key) && is_twin(&it.1, &value));
                checks.holds_at("an entry", i, is_so);
            }
        }
        hold!(checks; entries.next().is_none() && entries.next().is_none() && entries.len() == 0);
    }
    Ok(())
}

/// Values of a union, and of each the place, the tag, the name, the type and the value of its
/// choice.
const UNIONS: [(&str, usize, i8, &str, &str, &str); 3] = [
    ("<1:'é'>", 0, 1, "first", "utf8", "'é'"),
    ("<-128:7>", 1, -128, "second", "i16?", "7"),
    ("<-128:null>", 1, -128, "second", "i16?", "null"),
];

fn unions(alloc: Global, checks: &mut Checks<'_>) -> Done {
    let dtype = "<first:1=utf8, second:-128=i16?>?";
    for (text, place, tag, name, inner, child) in UNIONS {
        let (it, child) = (scalar(alloc, dtype, text)?, scalar(alloc, inner, child)?);
        let (view, twin) = (it.as_union(), it.clone()?);
        hold!(checks; view.nullability() == WITH);
        hold!(checks; view.variants().child_index_to_tag(place) == Some(tag));
        hold!(checks; view.type_id() == Some(tag) && view.child_index() == Some(place));
        hold!(checks; view.variant_dtype() == Some(child.dtype()));
        hold!(checks; view.variant_name().is_some_and(|it| it.eq_text(name)));
        let answer = view.child();
        checks.stays("a union after its child", is_twin(&it, &twin));
        hold!(checks; answer?.is_some_and(|it| is_twin(&it, &child)));
    }
    let null = scalar(alloc, dtype, "null")?;
    let view = null.as_union();
    hold!(checks; view.variants().len() == 2 && view.type_id().is_none());
    hold!(checks; view.child_index().is_none(), view.variant_dtype().is_none());
    hold!(checks; view.child()?.is_none() && view.variant_name().is_none());
    let of_null = scalar(alloc, "<a:1=i16?>", "<1:null>")?;
    done!(checks; of_null.as_union().nullability() == WITHOUT && !of_null.as_union().is_null())
}

/// Types and values in variants: those that are the zero of the type, and others.
const ZEROS: [&str; 2] = [
    "u8 0u8; i64? 0i64; bool false; utf8 ''",
    "u8 1u8; bool true; utf8 'a'; i16? 7; i16? null; f32? null; null null",
];

fn variants(alloc: Global, checks: &mut Checks<'_>) -> Done {
    for row in ZEROS.iter().flat_map(|it| it.split("; ")) {
        let (dtype, text) = row.split_once(" ").ok_or(ScalarError::Invalid)?;
        let (inner, is_zero) = (scalar(alloc, dtype, text)?, ZEROS[0].contains(row));
        let it = Scalar::variant(alloc, inner.clone()?)?;
        let (view, twin) = (it.as_variant(), it.clone()?);
        hold!(checks; !view.is_null() && view.is_variant_null() == Some(inner.is_null()));
        hold!(checks; view.is_zero() == Some(is_zero));
        let answer = view.value();
        checks.stays("a variant after its value", is_twin(&it, &twin));
        hold!(checks; is_some_of(answer?, inner.dtype(), inner.value()));
    }
    let null = Scalar::null(DType::Variant(WITH));
    let view = null.as_variant();
    done!(checks;
        view.value()?.is_none() && view.is_variant_null().is_none() && view.is_zero().is_none(),
    )
}

/// Of an extension of an extension the storage is an extension.
fn extensions(alloc: Global, checks: &mut Checks<'_>) -> Done {
    for storage in ["list(i16?)?", "date'd'(list(i16?)?)"] {
        let storage = of(alloc, storage)?;
        let made_of = extension(alloc, storage.clone()?)?;
        for text in ["[7, null]", "null"] {
            let dtype = DType::Extension(made_of.clone()?);
            let it = Scalar::try_new(dtype, value(alloc, text)?)?;
            let (view, twin) = (it.as_extension(), it.clone()?);
            hold!(checks; *view.ext_dtype() == made_of && is_same(view.value(), it.value()));
            let answer = view.to_storage_scalar();
            checks.stays("an extension after its storage", is_twin(&it, &twin));
            hold!(checks; is_of(&answer?, &storage, it.value()));
        }
    }
    Ok(())
}
