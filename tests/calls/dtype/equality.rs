//! Which types are equal, which are but for nullability, what they feed hashers, and which fit.
//! None of these calls takes memory, and no search along a path does.

use crate::checks::Checks;
use crate::counted::hold;
use crate::make::{Done, WITH, WITHOUT, kinds, path};
use crate::notation::{dtype, dtypes};
use crate::refusing::{refuse_all, requests_are_seen, took_none};
use std::alloc::{AllocError, Global};
use std::hash::{DefaultHasher, Hasher};
use vortex_dtype::{DType, DTypeExt, FieldPathSet};

pub fn run(alloc: Global, checks: &mut Checks<'_>) -> Done {
    for nullability in [WITH, WITHOUT] {
        let twins = kinds(alloc, nullability, WITH)?;
        for (dtype, twin) in kinds(alloc, nullability, WITH)?.iter().zip(&twins) {
            let answer: Result<DType, AllocError> = dtype.clone();
            checks.stays("a type after a clone", dtype == twin);
            hold!(checks; answer? == *dtype);
        }
    }
    for (text, bare, apart) in STANDS {
        let one = dtype(alloc, text)?;
        stand(checks, text, &one, &dtype(alloc, text)?, true, true);
        for other in &dtypes(alloc, bare)? {
            stand(checks, text, &one, other, false, true);
            stand(checks, text, other, &one, false, true);
        }
        for other in &dtypes(alloc, apart)? {
            stand(checks, text, &one, other, false, false);
            stand(checks, text, other, &one, false, false);
        }
    }
    fits(alloc, checks)
}

/// What the type feeds a hasher, which has no random key, so that each run has the same hashes.
fn hash_of<T: DTypeExt>(dtype: &T) -> u64 {
    let mut hasher = DefaultHasher::new();
    dtype.hash_ignore_nullability(&mut hasher);
    hasher.finish()
}

/// Types, others that nullability inside alone tells apart from them, and others that differ.
const STANDS: [(&str, &str, &str); 12] = [
    ("u8", "", "i8"),
    ("decimal(10, 2)", "", "decimal(11, 2); decimal(10, -2)"),
    ("list(utf8)", "list(utf8?)", "list(binary)"),
    ("list(u8)?", "list(u8)", "list(u16)?"),
    ("fixed(utf8, 2)", "fixed(utf8?, 2)", "fixed(utf8, 3); fixed(binary, 2)"),
    ("map(utf8, u8)", "map(utf8, u8?)", "sorted(utf8, u8); map(binary, u8); map(utf8, i8)"),
    ("{}", "", "<>; null"),
    ("{a=u8, b=utf8}", "{a=u8, b=utf8?}", "{a=utf8, b=u8}; {a=u8, c=utf8}; {}"),
    ("<x:0=bool, y:1=utf8>", "<x:0=bool, y:1=utf8?>", "<x:1=bool, y:0=utf8>; <>"),
    ("<x:0=bool, y:1=utf8>", "", "<x:0=bool, z:1=utf8>; <x:0=bool, y:1=binary>"),
    ("<>", "", "null"),
    // The id and the metadata aren't joined.
    (
        "clock's'(i64)",
        "clock's'(i64?)",
        "time's'(i64); clock'd'(i64); clock's'(utf8); clocks''(i64); i64",
    ),
];

/// The first stands so to the other, and so do the parts of their kind.
fn stand(checks: &mut Checks<'_>, name: &str, one: &DType, other: &DType, equal: bool, bare: bool) {
    let mut found = [(*one == *other, one.eq_ignore_nullability(other)); 4];
    if let (Some(one), Some(other)) = (one.as_struct_fields_opt(), other.as_struct_fields_opt()) {
        found[1] = (*one == *other, one.eq_ignore_nullability(other));
    }
    if let (Some(one), Some(other)) = (one.as_union_variants_opt(), other.as_union_variants_opt()) {
        found[2] = (*one == *other, one.eq_ignore_nullability(other));
    }
    if let (Some(one), Some(other)) = (one.as_extension_opt(), other.as_extension_opt()) {
        found[3] = (*one == *other, one.eq_ignore_nullability(other));
    }
    if let (Some(one), Some(other)) = (one.as_map_opt(), other.as_map_opt()) {
        hold!(checks; (*one == *other) == equal);
    }
    checks.holds(name, found == [(equal, bare); 4]);
    checks.holds(name, (hash_of(one) == hash_of(other)) == bare);
}

/// Of types of one number up to nullability, inside which it doesn't count, one without null fits
/// both, and one with null fits those with null.
fn fits(alloc: Global, checks: &mut Checks<'_>) -> Done {
    let all = dtypes(alloc, "u8; u8?; list(u8); list(u8?); list(u8)?; list(u16)?; null")?;
    let numbers = [0, 0, 1, 1, 1, 2, 3];
    for (i, one) in all.iter().enumerate() {
        for (j, other) in all.iter().enumerate() {
            let wanted = numbers[i] == numbers[j] && (!one.is_nullable() || other.is_nullable());
            hold!(checks, 10 * i + j; one.eq_with_nullability_subset(other) == wanted);
            hold!(checks, 10 * i + j; other.eq_with_nullability_superset(one) == wanted);
        }
    }
    Ok(())
}

/// Calls on types and paths that take no memory, while each request for it is refused.
pub fn without_memory(alloc: Global, checks: &mut Checks<'_>) -> Done {
    requests_are_seen(alloc, checks);
    for inside in [WITH, WITHOUT] {
        let (with, again) = (kinds(alloc, WITH, WITH)?, kinds(alloc, WITH, WITH)?);
        let without = kinds(alloc, WITHOUT, inside)?;
        refuse_all(alloc, checks);
        for (i, one) in with.iter().enumerate() {
            for (j, other) in without.iter().enumerate() {
                // Null alone is nullable in both lists.
                let (is_kind, is_null) = (i == j, i == 0 && j == 0);
                hold!(checks, i; (*one == again[j]) == is_kind && (*one == *other) == is_null);
                hold!(checks, i; one.eq_ignore_nullability(other) == is_kind);
                hold!(checks, i; other.eq_ignore_nullability(one) == is_kind);
                hold!(checks, i; one.eq_ignore_nullability(&again[j]) == is_kind);
                hold!(checks, i; (hash_of(one) == hash_of(other)) == is_kind);
                hold!(checks, i; other.eq_with_nullability_subset(one) == is_kind);
                hold!(checks, i; one.eq_with_nullability_subset(other) == is_null);
                hold!(checks, i; one.eq_with_nullability_subset(&again[j]) == is_kind);
                hold!(checks, i; one.eq_with_nullability_superset(other) == is_kind);
                hold!(checks, i; other.eq_with_nullability_superset(one) == is_null);
                hold!(checks, i; one.eq_with_nullability_superset(&again[j]) == is_kind);
            }
        }
        took_none(alloc, checks, "equality and hashes of types take no memory");
    }
    paths(alloc, checks)
}

const PATHS: [&str; 8] = ["/", "/a", "/a/*", "/a/*/x", "/b", "/b/*", "/c", "/a/x"];

/// How many of the paths, the first ones, are in the type.
const FOUND: usize = 5;

fn paths(alloc: Global, checks: &mut Checks<'_>) -> Done {
    let dtype = dtype(alloc, "{a=list({x=utf8})?, b=utf8}")?;
    let (mut all, mut set) = (Vec::new(alloc), FieldPathSet::new(alloc));
    for (i, text) in PATHS.iter().enumerate() {
        all.push(path(alloc, text)?)?;
        if i % 2 == 1 {
            set.insert(path(alloc, text)?)?;
        }
    }
    refuse_all(alloc, checks);
    for (i, one) in all.iter().enumerate() {
        hold!(checks, i;
            one.exists_in(&dtype) == (i < FOUND), set.contains(one) == (i % 2 == 1),
            all.iter().all(|it| one.overlap(it) == (one.begins(it) || it.begins(one))),
        );
    }
    took_none(alloc, checks, "exists_in, contains and overlap take no memory");
    Ok(())
}
