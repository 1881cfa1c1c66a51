//! Steps, paths, the types that paths lead to, masks over paths, and sets of paths.

use crate::checks::Checks;
use crate::counted::{done, hold};
use crate::make::{Done, path, step};
use crate::notation::{dtype, dtypes};
use std::alloc::Global;
use std::iter::once;
use vortex_dtype::laws::{coverage_tells_iteration, field_path_is_of_its_names};
use vortex_dtype::{
    DTypeError, Field, FieldMask, FieldName, FieldPath, FieldPathSet, FieldPathSetIter, field_path,
};

/// Calls each item on steps, paths, masks and sets of paths.
pub fn run(alloc: Global, checks: &mut Checks<'_>) -> Done {
    steps(alloc, checks)?;
    made(alloc, checks)?;
    asked(alloc, checks)?;
    pushed(alloc, checks)?;
    masks(alloc, checks)?;
    resolved(alloc, checks)?;
    goes_on(alloc, checks)?;
    inserted(alloc, checks)?;
    extended(alloc, checks)?;
    copied(alloc, checks)?;
    outermost(alloc, checks)
}

fn steps(alloc: Global, checks: &mut Checks<'_>) -> Done {
    let (name, elements) = (FieldName::new(alloc, "a")?, Field::ElementType);
    let a = Field::Name(name.clone()?);
    hold!(checks; a.as_name() == Some(&name) && elements.as_name().is_none());
    hold!(checks; a.is_named() && !elements.is_named() && a != elements && elements != a);
    hold!(checks; Field::from(name) == a && a.clone()? == a && elements.clone()? == elements);
    hold!(checks; a != step(alloc, "b")?);
    done!(checks; Field::Name(FieldName::new(alloc, "ElementType")?) != elements)
}

/// Whether these are the path's steps, where ElementType is said by `*`.
fn are_steps(path: &FieldPath, text: &str) -> bool {
    let texts = || text.split('/').filter(|it| !it.is_empty());
    let is_step = |step: &Field, text: &str| match step {
        Field::Name(name) => name.eq_text(text),
        Field::ElementType => text == "*",
    };
    let mut pairs = path.parts().iter().zip(texts());
    path.parts().len() == texts().count() && pairs.all(|(step, text)| is_step(step, text))
}

fn made(alloc: Global, checks: &mut Checks<'_>) -> Done {
    let (a, b) = (|| step(alloc, "a"), || step(alloc, "b"));
    for (path, text) in &[
        (FieldPath::root(alloc), "/"),
        (FieldPath::from_field(alloc, Field::ElementType)?, "/*"),
        (FieldPath::from_name(alloc, FieldName::new(alloc, "a")?)?, "/a"),
        (FieldPath::from_names(alloc, &["a", "b"])?, "/a/b"),
        (FieldPath::from_names(alloc, &[])?, "/"),
        (FieldPath::from_names(alloc, &["a.b"])?, "/a.b"),
        (field_path!(in alloc; outer)?, "/outer"),
        (field_path!(in alloc; a.b.c)?, "/a/b/c"),
        (field_path_is_of_its_names(alloc)?, "/outer/inner"),
        (FieldPath::new(vec![in alloc; a()?, Field::ElementType]?), "/a/*"),
        (FieldPath::from(vec![in alloc; Field::ElementType, b()?]?), "/*/b"),
    ] {
        checks.holds(text, are_steps(path, text) && path.is_root() == (*text == "/"));
        hold!(checks; path.clone()? == *path);
    }
    let empty_name = FieldPath::from_names(alloc, &[""])?;
    done!(checks; !empty_name.is_root() && empty_name.parts()[0].is_named())
}

/// Paths, and for each those of them that it begins, by their places.
const BEGINS: [(&str, &[usize]); 7] = [
    ("/", &[0, 1, 2, 3, 4, 5, 6]),
    ("/a", &[1, 2, 3, 4]),
    ("/a/b", &[2]),
    ("/a/c", &[3]),
    ("/a/*", &[4]),
    // A name's front is no step, and names aren't joined.
    ("/ab", &[5]),
    ("/*", &[6]),
];

fn asked(alloc: Global, checks: &mut Checks<'_>) -> Done {
    for (i, (text, begun)) in BEGINS.iter().enumerate() {
        let one = path(alloc, text)?;
        for (j, (text, begun_by_other)) in BEGINS.iter().enumerate() {
            let other = path(alloc, text)?;
            // Two paths overlap exactly where some path goes on from both.
            let is_shared = begun.iter().any(|on| begun_by_other.contains(on));
            hold!(checks, 10 * i + j; (one == other) == (i == j));
            hold!(checks, 10 * i + j; one.begins(&other) == begun.contains(&j));
            hold!(checks, 10 * i + j; one.overlap(&other) == is_shared);
        }
    }
    for (text, rest) in [("/a/b", "/b"), ("/a/*/b", "/*/b"), ("/*/a", "/a"), ("/b", "/"), ("/", "")]
    {
        let path = path(alloc, text)?;
        for first in ["a", "b", "*"] {
            let starts = path.starts_with_field(&step(alloc, first)?);
            hold!(checks; starts == text.trim_start_matches('/').starts_with(first));
        }
        let found = path.step_into();
        hold!(checks; found.is_some() == !rest.is_empty());
        checks.holds(text, found.is_none_or(|found| are_steps(&found, rest)));
    }
    Ok(())
}

// Enough steps that the path grows more than once.
const STEPS: &str = "/a/*/b/c/*/d/e";

fn pushed(alloc: Global, checks: &mut Checks<'_>) -> Done {
    let mut grown = FieldPath::root(alloc);
    for i in 0..STEPS.len() / 2 {
        let (before, rest) = STEPS.split_at(2 * i);
        checks.holds(before, are_steps(&grown, before));
        if let Err(refused) = grown.push(step(alloc, rest.split_at(2).0.trim_matches('/'))?) {
            checks.stays("push without memory leaves the path", are_steps(&grown, before));
            return Err(DTypeError::from(refused));
        }
    }
    done!(checks; are_steps(&grown, STEPS))
}

/// Which mask it is, and the steps of its path.
fn is_mask(mask: &FieldMask, kind: &str, text: &str) -> bool {
    match mask {
        FieldMask::All => kind == "All",
        FieldMask::Prefix(path) => kind == "Prefix" && are_steps(path, text),
        FieldMask::Exact(path) => kind == "Exact" && are_steps(path, text),
    }
}

/// What each mask answers: which steps it starts with, the first of them, whether it matches all
/// and the root, and the mask behind a first step of `a` or to elements.
fn masks(alloc: Global, checks: &mut Checks<'_>) -> Done {
    let of = |text: &str| path(alloc, text);
    for (mask, starts, first, all, root, step_in, kind, rest) in [
        (FieldMask::All, "a*", "", true, true, "a", "All", ""),
        (FieldMask::Prefix(of("/a/b")?), "a", "a", false, false, "a", "Prefix", "/b"),
        (FieldMask::Exact(of("/*/b")?), "*", "*", false, false, "*", "Exact", "/b"),
        (FieldMask::Prefix(of("/a")?), "a", "a", false, false, "a", "all", ""),
        (FieldMask::Exact(of("/a")?), "a", "a", false, false, "a", "Exact", "/"),
        (FieldMask::Prefix(of("/")?), "a*", "", true, true, "a", "All", ""),
        (FieldMask::Exact(of("/")?), "", "", false, true, "", "", ""),
    ] {
        for text in ["a", "*"] {
            let found = mask.starts_with_field(&step(alloc, text)?);
            hold!(checks; found == starts.contains(text));
        }
        let wanted = step(alloc, first)?;
        hold!(checks; mask.starting_field() == if first == "" { None } else { Some(&wanted) });
        hold!(checks; mask.matches_all() == all && mask.matches_root() == root);
        if step_in != "" {
            let found = mask.step_into(&step(alloc, step_in)?);
            // A prefix of one step is all behind it, in whatever form.
            let is_all = kind == "all" && found.matches_all();
            checks.holds(kind, is_all || is_mask(&found, kind, rest));
        }
    }
    Ok(())
}

/// Types, and the types that paths lead to there, where `!` is none.
const RESOLVED: [(&str, &str); 7] = [
    (
        "{a={b=i8, c=utf8}?, d=u16?, a=null}",
        "/ = {a={b=i8, c=utf8}?, d=u16?, a=null}; /a = {b=i8, c=utf8}?; /a/b = i8; /a/c = utf8; \
            /d = u16?; /b = !; /A = !; /* = !; /a/b/c = !",
    ),
    ("{a=list({b=u32})?}", "/a/*/b = u32"),
    ("fixed(list(utf8)?, 3)", "/* = list(utf8)?; /*/* = utf8; /a = !"),
    ("list(utf8)?", "/* = utf8; /*/* = !; /a = !"),
    ("fixed({a=utf8}, 0)", "/*/a = utf8"),
    ("{}", "/a = !"),
    ("<a:0={a=utf8}>", "/a/a = !"),
];

/// Types into which no step leads, since they are no records and no lists.
const OPAQUE: &str = "null; bool?; f64; decimal(3, 1); utf8; binary; map(utf8, {a=utf8}); \
    <a:0={a=utf8}>; variant; boxed''(list({a=utf8}))";

fn resolved(alloc: Global, checks: &mut Checks<'_>) -> Done {
    for (text, rows) in RESOLVED {
        let of = dtype(alloc, text)?;
        for row in rows.split("; ") {
            let (steps, wanted) = row.split_once(" = ").ok_or(DTypeError::Malformed)?;
            let (path, wanted) = (path(alloc, steps)?, dtypes(alloc, wanted.trim_matches('!'))?);
            checks.holds(row, path.resolve(&of) == wanted.first());
            checks.holds(row, path.exists_in(&of) == !wanted.is_empty());
        }
    }
    for of in &dtypes(alloc, OPAQUE)? {
        let (a, elements, root) = (path(alloc, "/a")?, path(alloc, "/*")?, path(alloc, "/")?);
        hold!(checks; a.resolve(of).is_none() && !a.exists_in(of));
        hold!(checks; elements.resolve(of).is_none(), !elements.exists_in(of));
        hold!(checks; root.resolve(of) == Some(of) && root.exists_in(of));
    }
    Ok(())
}

/// Resolving goes on along the steps of another path, and the beginnings of what exists exist.
fn goes_on(alloc: Global, checks: &mut Checks<'_>) -> Done {
    let dtype = dtype(alloc, "{a=list({b=u32})?, c=utf8}")?;
    let steps = [path(alloc, "/")?, path(alloc, "/a")?, path(alloc, "/*")?, path(alloc, "/b")?];
    for front in &steps {
        for back in &steps {
            let mut whole = front.clone()?;
            for step in back.parts() {
                whole.push(step.clone()?)?;
            }
            let behind = front.resolve(&dtype).and_then(|part| back.resolve(part));
            hold!(checks; whole.resolve(&dtype) == behind);
            hold!(checks; front.exists_in(&dtype) || !whole.exists_in(&dtype));
        }
    }
    Ok(())
}

// Enough paths that the set grows more than once, the second equal to the first.
const PATHS: [&str; 7] = ["/a", "/a", "/a/b", "/*", "/", "/c", "/c/*"];

// How many different paths stand in the first so many.
const DIFFERENT: [usize; 8] = [0, 1, 1, 2, 3, 4, 5, 6];

// Whether the set has the first so many paths, and no other of them.
fn has_first(alloc: Global, set: &FieldPathSet, many: usize) -> Result<bool, DTypeError> {
    let mut is_so = set.len() == DIFFERENT[many] && set.is_empty() == (many == 0);
    for (place, text) in PATHS.iter().enumerate() {
        // The second path is the first once more.
        let is_in = place < many || (place == 1 && many == 1);
        is_so = is_so && set.contains(&path(alloc, text)?) == is_in;
    }
    Ok(is_so)
}

fn inserted(alloc: Global, checks: &mut Checks<'_>) -> Done {
    let mut set = FieldPathSet::new(alloc);
    hold!(checks; has_first(alloc, &set, 0)? && set.iter().next().is_none());
    for (many, text) in PATHS.iter().enumerate() {
        match set.insert(path(alloc, text)?) {
            Ok(fresh) => checks.holds("insert tells new paths", fresh == (many != 1)),
            Err(refused) => {
                let is_left = has_first(alloc, &set, many)?;
                checks.stays("insert without memory leaves the set", is_left);
                return Err(DTypeError::from(refused));
            }
        }
        checks.holds("insert adds the path alone", has_first(alloc, &set, many + 1)?);
    }
    done!(checks; !set.contains(&path(alloc, "/*/a")?))
}

fn extended(alloc: Global, checks: &mut Checks<'_>) -> Done {
    let mut set = FieldPathSet::new(alloc);
    if let Err(refused) = set.extend(list_of(alloc, "/a /a /a/b /* / /c /c/*")?.into_iter()) {
        let mut is_left = false;
        for many in 0..PATHS.len() {
            is_left = is_left || has_first(alloc, &set, many)?;
        }
        checks.stays("extend without memory leaves what came before", is_left);
        return Err(DTypeError::from(refused));
    }
    checks.holds("extend", has_first(alloc, &set, PATHS.len())?);
    set.extend(list_of(alloc, "/a /z")?.into_iter())?;
    hold!(checks; set.len() == 7 && set.contains(&path(alloc, "/z")?));
    set.extend(list_of(alloc, "")?.into_iter())?;
    hold!(checks; set.len() == 7);
    set.extend(once(path(alloc, "/y")?))?;
    done!(checks; set.len() == 8 && set.contains(&path(alloc, "/y")?))
}

/// The paths of these texts, apart by spaces.
fn list_of(alloc: Global, texts: &str) -> Result<Vec<FieldPath>, DTypeError> {
    let mut list = Vec::new(alloc);
    for text in texts.split(' ').filter(|it| !it.is_empty()) {
        list.push(path(alloc, text)?)?;
    }
    Ok(list)
}

fn set_of(alloc: Global, texts: &str) -> Result<FieldPathSet, DTypeError> {
    let mut set = FieldPathSet::new(alloc);
    for path in list_of(alloc, texts)? {
        set.insert(path)?;
    }
    Ok(set)
}

// Whether the lists have the same paths, once each, in whatever order.
fn are_same(list: &[FieldPath], others: &[FieldPath]) -> bool {
    list.len() == others.len() && others.iter().all(|it| list.contains(it))
}

fn copied(alloc: Global, checks: &mut Checks<'_>) -> Done {
    let set = set_of(alloc, "/a /a/b /a / /* /c/x /c/y")?;
    let (mut list, mut rest) = (Vec::new(alloc), set.iter());
    let all: FieldPathSetIter<'_> = set.iter();
    for path in all {
        list.push(path.clone()?)?;
        hold!(checks; rest.next() == Some(path));
    }
    hold!(checks; rest.next().is_none() && rest.next().is_none());
    hold!(checks; are_same(&list, &list_of(alloc, "/a /a/b / /* /c/x /c/y")?));
    let (mut copy, c) = (set.clone()?, path(alloc, "/c")?);
    hold!(checks; copy.len() == 6 && list.iter().all(|it| copy.contains(it)) && !copy.contains(&c));
    copy.insert(c.clone()?)?;
    done!(checks; copy.len() == 7 && set.len() == 6 && !set.contains(&c))
}

/// Paths that are inserted in turn, and the outermost of them: a set covers each path that one of
/// its paths begins.
const OUTERMOST: [(&str, &str); 12] = [
    ("", ""),
    ("/a /b", "/b /a"),
    ("/a /a", "/a"),
    ("/a /a/b /a/b/c", "/a"),
    ("/a/b/c /a/b /a", "/a"),
    ("/a/b /a/c", "/a/c /a/b"),
    ("/a / /*/b", "/"),
    ("/ab /a", "/a /ab"),
    ("/*/a /a /*", "/* /a"),
    ("/a/b /x /a /a/c", "/a /x"),
    ("/ /a", "/"),
    ("/a/* /a", "/a"),
];

/// Two sets that don't cover the same paths.
const UNCOVERED: [(&str, &str); 3] = [("/a/b", "/a"), ("/a", "/a /b"), ("", "/")];

/// By the law's function two sets give the same paths by `into_iter` exactly where they cover the
/// same.
fn outermost(alloc: Global, checks: &mut Checks<'_>) -> Done {
    let equal = OUTERMOST.iter().map(|it| (*it, true));
    for ((left, right), wanted) in equal.chain(UNCOVERED.iter().map(|it| (*it, false))) {
        let (mut lefts, mut rights) = (Vec::new(alloc), Vec::new(alloc));
        for path in set_of(alloc, left)?.into_iter()? {
            lefts.push(path)?;
        }
        if wanted {
            checks.holds(left, are_same(&lefts, &list_of(alloc, right)?));
        }
        lefts.clear();
        let (of_left, of_right) =
            coverage_tells_iteration(set_of(alloc, left)?, set_of(alloc, right)?)?;
        for path in of_left {
            lefts.push(path)?;
        }
        for path in of_right {
            rights.push(path)?;
        }
        checks.holds(left, are_same(&lefts, &rights) == wanted);
    }
    Ok(())
}
