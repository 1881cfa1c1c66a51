//! The fields of records, the choices of unions, maps, and the entries of maps.

use crate::checks::Checks;
use crate::counted::{done, hold};
use crate::make::{Done, WITH, are_names, names};
use crate::notation::{choices, dtype, dtypes, fields};
use std::alloc::{AllocError, Global};
use std::iter::ExactSizeIterator;
use vortex_dtype::{
    DType, DTypeError, FieldDType, FieldDTypesIter, FieldName, FieldNames, FieldTypesIter,
    MapDType, MapDTypeExt, StructField, StructFields, StructFieldsExt, UnionVariants,
    UnionVariantsExt, VariantsIter,
};

/// Calls each item on the parts of types.
pub fn run(alloc: Global, checks: &mut Checks<'_>) -> Done {
    made_fields(alloc, checks)?;
    asked_of_fields(alloc, checks)?;
    cut(alloc, checks)?;
    merged(alloc, checks)?;
    made_choices(alloc, checks)?;
    asked_of_choices(alloc, checks)?;
    tagged(alloc, checks)?;
    maps(alloc, checks)
}

/// A record and a union, whose types are these.
const RECORD: &str = "{a=u8, b=utf8, a=u16?}";
const UNION: &str = "<a:5=u8, b:-128=utf8, a:0=u16?>";
const TYPES: &str = "u8; utf8; u16?";

// Whether the fields are those of the record, by all that tells of them.
fn are_fields(alloc: Global, found: &StructFields, text: &str) -> Result<bool, DTypeError> {
    let wanted = fields(alloc, text)?;
    let mut is_so = found.nfields() == wanted.nfields() && *found == wanted;
    for (place, field) in found.as_slice().iter().enumerate() {
        is_so = is_so && Some(&field.name) == wanted.field_name(place);
        is_so = is_so && Some(&field.dtype) == wanted.field_by_index(place);
    }
    let end = found.as_slice().len();
    let is_end = found.field_name(end).is_none() && found.field_by_index(end).is_none();
    Ok(is_so && is_end && end == wanted.nfields())
}

fn made_fields(alloc: Global, checks: &mut Checks<'_>) -> Done {
    let of = |texts: &[&str], types: &str| -> Result<StructFields, DTypeError> {
        Ok(StructFields::new(names(alloc, texts)?, dtypes(alloc, types)?)?)
    };
    let (byte, null) = (dtype(alloc, "u8")?, DType::Null);
    let first = StructField { name: FieldName::new(alloc, "k")?, dtype: DType::Variant(WITH) };
    let pairs = [("a", byte.clone()?), ("a", DType::Null)];
    let found = vec![in alloc; FieldDType::from(&byte), FieldDType::from(&null)]?;
    hold!(checks; found[0].value()? == byte);
    for (found, text) in [
        (StructFields::empty(alloc)?, "{}"),
        (of(&["a", "b", "a"], "u8; utf8?; null")?, "{a=u8, b=utf8?, a=null}"),
        (of(&["a", "b"], "u8; bool")?.clone()?, "{a=u8, b=bool}"),
        (
            StructFields::from_vec(vec![in alloc; first.clone()?, first]?)?,
            "{k=variant?, k=variant?}",
        ),
        (StructFields::from_pairs(alloc, &pairs)?, "{a=u8, a=null}"),
        (StructFields::from_pairs(alloc, &[])?, "{}"),
        (StructFields::from_fields(names(alloc, &["x", "y"])?, found)?, "{x=u8, y=null}"),
        (StructFields::from_fields(names(alloc, &[])?, Vec::new(alloc))?, "{}"),
    ] {
        let found: StructFields = found;
        checks.holds(text, are_fields(alloc, &found, text)?);
    }
    for (found, text) in [
        (DType::struct_(alloc, &pairs, WITH)?, "{a=u8, a=null}?"),
        (DType::list(alloc, byte.clone()?, WITH)?, "list(u8)?"),
        (DType::fixed_size_list(alloc, byte.clone()?, 2, WITH)?, "fixed(u8, 2)?"),
    ] {
        checks.holds(text, found == dtype(alloc, text)?);
    }
    Ok(())
}

// The type of the first field of this name, through the bound.
fn field_of<'a, F: StructFieldsExt>(fields: &'a F, name: &FieldName) -> Option<&'a DType> {
    fields.field(name)
}

fn asked_of_fields(alloc: Global, checks: &mut Checks<'_>) -> Done {
    let (sample, none, types) =
        (fields(alloc, RECORD)?, StructFields::empty(alloc)?, dtypes(alloc, TYPES)?);
    hold!(checks; are_names(&sample.names(alloc)?, &["a", "b", "a"]));
    hold!(checks; are_names(&none.names(alloc)?, &[]), none.fields().next().is_none());
    hold!(checks; none.field_dtypes().next().is_none());
    for (text, place) in [("a", Some(0)), ("b", Some(1)), ("B", None)] {
        let name = FieldName::new(alloc, text)?;
        hold!(checks; sample.find(&name) == place && field_of(&none, &name).is_none());
        hold!(checks; field_of(&sample, &name) == place.map(|place| &types[place]));
    }
    let mut found: FieldTypesIter<'_> = sample.fields();
    let mut values: FieldDTypesIter<'_> = sample.field_dtypes();
    for (place, dtype) in types.iter().enumerate() {
        let left = 3 - place;
        hold!(checks, place; found.len() == left && found.size_hint() == (left, Some(left)));
        hold!(checks, place; found.next() == Some(dtype));
        hold!(checks, place; values.len() == left && values.size_hint() == (left, Some(left)));
        let Some(value) = values.next() else {
            checks.holds("field_dtypes: each in its place", false);
            continue;
        };
        hold!(checks, place; value.value()? == *dtype);
    }
    hold!(checks; found.len() == 0 && found.size_hint() == (0, Some(0)));
    hold!(checks; found.next().is_none() && found.next().is_none());
    done!(checks; values.len() == 0 && values.next().is_none())
}

fn cut(alloc: Global, checks: &mut Checks<'_>) -> Done {
    let sample = fields(alloc, RECORD)?;
    for (texts, wanted) in
        [(["b", "a", "a"].as_slice(), "{b=utf8, a=u8, a=u8}"), (&[], "{}"), (&["a"], "{a=u8}")]
    {
        let found = sample.project(alloc, names(alloc, texts)?.as_slice())?;
        checks.holds(wanted, are_fields(alloc, &found, wanted)?);
    }
    let found = sample.project(alloc, names(alloc, &["a", "z", "b"])?.as_slice());
    checks.refused("project: a name that isn't there", found, DTypeError::NoSuchField)?;
    let mut rest = sample;
    for (text, wanted) in
        [("z", ""), ("a", "{b=utf8, a=u16?}"), ("a", "{b=utf8}"), ("b", "{}"), ("a", "")]
    {
        let answer = rest.without_field(alloc, &FieldName::new(alloc, text)?);
        if wanted.is_empty() {
            checks.refused("without_field", answer, DTypeError::NoSuchField)?;
            continue;
        }
        rest = answer?;
        checks.holds(wanted, are_fields(alloc, &rest, wanted)?);
    }
    Ok(())
}

/// Records, and what they are together: these fields and then those.
const MERGED: [(&str, &str, &str); 6] = [
    ("{c=bool?}", RECORD, "{c=bool?, a=u8, b=utf8, a=u16?}"),
    (RECORD, "{}", RECORD),
    ("{}", RECORD, RECORD),
    ("{}", "{}", "{}"),
    // A name of both.
    (RECORD, "{d=utf8, b=utf8}", ""),
    (RECORD, RECORD, ""),
];

fn merged(alloc: Global, checks: &mut Checks<'_>) -> Done {
    for (one, other, wanted) in MERGED {
        let answer = fields(alloc, one)?.disjoint_merge(alloc, &fields(alloc, other)?);
        if wanted.is_empty() {
            checks.refused("disjoint_merge", answer, DTypeError::RepeatedName)?;
        } else {
            checks.holds(wanted, are_fields(alloc, &answer?, wanted)?);
        }
    }
    Ok(())
}

fn made_choices(alloc: Global, checks: &mut Checks<'_>) -> Done {
    let made: UnionVariants =
        UnionVariantsExt::new(names(alloc, &["x", "x"])?, dtypes(alloc, "u8; utf8")?)?;
    hold!(checks; made == choices(alloc, "<x:0=u8, x:1=utf8>")? && made.len() == 2);
    hold!(checks; !made.is_empty());
    let made: UnionVariants = UnionVariantsExt::new(names(alloc, &[])?, Vec::new(alloc))?;
    hold!(checks; made.is_empty() && made.len() == 0);
    // As many choices as there are tags that aren't negative.
    let same = FieldName::new(alloc, "same")?;
    let (mut all, mut nulls) = (Vec::new(alloc), Vec::new(alloc));
    for _ in 0..128 {
        all.push(same.clone()?)?;
        nulls.push(DType::Null)?;
    }
    let made: UnionVariants = UnionVariantsExt::new(FieldNames::from(all), nulls)?;
    hold!(checks; made.len() == 128 && made.is_consecutive());
    hold!(checks; made.child_index_to_tag(127) == Some(127));
    // How many names, types and tags, which are to be as many and of which no tag repeats.
    for (many, types, tags) in [
        (1, "u8; u8", [0, 1].as_slice()),
        (3, "u8; u8", &[0, 1]),
        (2, "u8; u8", &[0]),
        (2, "u8; u8", &[0, 1, 2]),
        (2, "u8", &[0, 1]),
        (3, "u8; u8; u8", &[4, 1, 4]),
    ] {
        let types = dtypes(alloc, types)?;
        let names = names(alloc, &["x", "y", "z"][..many])?;
        let answer = UnionVariants::try_new(names, types, Vec::from_slice(alloc, tags)?);
        checks.refused("UnionVariants::try_new", answer, DTypeError::UnionShape)?;
    }
    Ok(())
}

fn asked_of_choices(alloc: Global, checks: &mut Checks<'_>) -> Done {
    let (sample, types, tags) = (choices(alloc, UNION)?, dtypes(alloc, TYPES)?, [5, -128, 0]);
    hold!(checks; are_names(&sample.names(alloc)?, &["a", "b", "a"]));
    hold!(checks; sample.type_ids(alloc)?.as_slice() == tags.as_slice());
    hold!(checks; sample.clone()? == sample && sample.len() == 3);
    let mut found: VariantsIter<'_> = sample.variants();
    for (place, wanted) in types.iter().enumerate() {
        let (left, choice) = (3 - place, &sample.as_slice()[place]);
        let copied = choice.clone()?;
        hold!(checks, place; choice.dtype == *wanted && choice.tag == tags[place]);
        hold!(checks, place; copied.tag == choice.tag, copied.dtype == choice.dtype);
        hold!(checks, place; copied.name.eq_text(["a", "b", "a"][place]));
        hold!(checks, place; sample.variant_by_index(place) == Some(wanted), found.len() == left);
        hold!(checks, place; found.size_hint() == (left, Some(left)), found.next() == Some(wanted));
    }
    hold!(checks; found.len() == 0 && found.size_hint() == (0, Some(0)), found.next().is_none());
    hold!(checks; found.next().is_none(), sample.variant_by_index(3).is_none());
    hold!(checks; sample.variant_by_index(usize::MAX).is_none());
    for (text, place) in [("a", Some(0)), ("b", Some(1)), ("c", None)] {
        let name = FieldName::new(alloc, text)?;
        hold!(checks; sample.find(&name) == place);
        hold!(checks; sample.variant(&name) == place.map(|place| &types[place]));
    }
    Ok(())
}

// The place of the choice of this tag, through the bound.
fn index_of_tag<U: UnionVariantsExt>(choices: &U, tag: i8) -> Option<usize> {
    choices.tag_to_child_index(tag)
}

fn tagged(alloc: Global, checks: &mut Checks<'_>) -> Done {
    let sample = choices(alloc, UNION)?;
    // A place is no tag.
    for (tag, place) in [(5, 0), (-128, 1), (0, 2)] {
        hold!(checks; index_of_tag(&sample, tag) == Some(place));
        hold!(checks; sample.child_index_to_tag(place) == Some(tag));
    }
    hold!(checks; index_of_tag(&sample, 1).is_none() && sample.child_index_to_tag(3).is_none());
    for (text, wanted) in [
        (UNION, false),
        ("<a:1=utf8, b:0=utf8>", false),
        ("<a:0=utf8, b:1=utf8>", true),
        ("<a:1=utf8>", false),
        ("<>", true),
    ] {
        checks.holds(text, choices(alloc, text)?.is_consecutive() == wanted);
    }
    let none = choices(alloc, "<>")?;
    hold!(checks; none.child_index_to_tag(0).is_none() && none.tag_to_child_index(0).is_none());
    done!(checks; none.variants().next().is_none())
}

// The type of an entry, through the bound.
fn entry_of<M: MapDTypeExt>(alloc: Global, map: &M) -> Result<DType, AllocError> {
    map.entries_dtype(alloc)
}

fn maps(alloc: Global, checks: &mut Checks<'_>) -> Done {
    for sorted in [true, false] {
        let (key, value) = (dtype(alloc, "utf8")?, dtype(alloc, "i64?")?);
        let map = MapDType::try_new(alloc, key.clone()?, value.clone()?, sorted)?;
        let copied = map.clone()?;
        hold!(checks; *map.key_dtype() == key && *map.value_dtype() == value);
        hold!(checks; map.keys_sorted() == sorted, copied == map && copied.keys_sorted() == sorted);
        hold!(checks; entry_of(alloc, &map)? == dtype(alloc, "{key=utf8, value=i64?}")?);
    }
    for key in ["utf8?", "null", "id''(u64?)"] {
        let answer = MapDType::try_new(alloc, dtype(alloc, key)?, dtype(alloc, "bool")?, true);
        checks.refused(key, answer, DTypeError::MapShape)?;
    }
    Ok(())
}
