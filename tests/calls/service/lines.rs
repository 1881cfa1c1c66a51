//! The lines of a session, with their answers as `tests/reference.py` gives them, and the calls of
//! a service.

use example_service::service::{ReplayError, Service};
use std::alloc::{AllocError, Global};
use vortex_table::run::{LineHandler, split_at_lf};

/// A line, and its answer.
pub type Exchange = (&'static str, &'static str);

pub const CREATE: &str =
    r#"{"cmd":"create","dtype":{"kind":"struct","names":["a"],"children":[{"kind":"i32"}]},"length":16}"#;

pub const APPEND: &str =
    r#"{"cmd":"append","dtype":{"kind":"struct","names":["a"],"children":[{"kind":"i32"}]},"rows":[[1],[2]]}"#;

pub const COMPACT: &str = r#"{"cmd":"compact"}"#;

const APPEND_ONE: &str =
    r#"{"cmd":"append","dtype":{"kind":"struct","names":["a"],"children":[{"kind":"i32"}]},"rows":[[10]]}"#;

const RETYPE: &str =
    r#"{"cmd":"retype","dtype":{"kind":"struct","names":["b"],"children":[{"kind":"i64"}]}}"#;

const JOIN: &str = r#"{"cmd":"join","group":0}"#;

pub const DONE: &str = r#"{"ok":true}"#;

pub const BAD_LINE: &str = r#"{"error":18,"name":"BadLine"}"#;

pub const MEMORY: &str = r#"{"error":1,"name":"Memory"}"#;

/// Lines of each command. Those that are answered by `DONE` are the ones of `ACCEPTED`.
pub const SESSION: [Exchange; 14] = [
    (
        r#"{"cmd":"scan","paths":[["a"]],"where":["lit",{"kind":"bool"},true]}"#,
        r#"{"error":19,"name":"NoTable"}"#,
    ),
    (CREATE, DONE),
    (APPEND, DONE),
    (
        r#"{"cmd":"append","dtype":{"kind":"struct","names":["a"],"children":[{"kind":"i64"}]},"rows":[[3],[5000000000]]}"#,
        r#"{"at":1,"error":6,"name":"NotConvertible"}"#,
    ),
    (APPEND_ONE, DONE),
    (RETYPE, DONE),
    (
        r#"{"cmd":"retype","dtype":{"kind":"struct","names":["b"],"children":[{"kind":"utf8"}]}}"#,
        r#"{"at":0,"error":6,"name":"NotConvertible"}"#,
    ),
    (
        r#"{"cmd":"scan","paths":[["b"]],"where":[">",["col","b"],["lit",{"kind":"i64"},5]]}"#,
        r#"{"dtype":{"children":[{"kind":"i64","nullable":false}],"kind":"struct","names":["b"],"nullable":false},"ok":true,"proofs":2,"rows":[[10]],"rows_tested":1,"skipped":[0],"whole":[]}"#,
    ),
    (JOIN, DONE),
    (
        r#"{"cmd":"join","group":1}"#,
        r#"{"error":8,"name":"NoSuchGroup"}"#,
    ),
    (
        r#"{"cmd":"describe","path":["b"],"group":0}"#,
        r#"{"constant":["exact",false],"max":["exact",10],"min":["exact",1],"null_count":["exact",0],"ok":true,"sum":["exact",13]}"#,
    ),
    (COMPACT, DONE),
    ("", BAD_LINE),
    (r#"{"cmd":"select"}"#, BAD_LINE),
];

/// The accepted lines of the session, each with the answer to `ALL` after it.
pub const ACCEPTED: [Exchange; 6] = [
    (CREATE, NO_ROWS),
    (APPEND, TWO_ROWS),
    (
        APPEND_ONE,
        r#"{"dtype":{"children":[{"kind":"i32","nullable":false}],"kind":"struct","names":["a"],"nullable":false},"ok":true,"proofs":4,"rows":[[1],[2],[10]],"rows_tested":0,"skipped":[],"whole":[0,1]}"#,
    ),
    (
        RETYPE,
        r#"{"dtype":{"children":[{"kind":"i64","nullable":false}],"kind":"struct","names":["b"],"nullable":false},"ok":true,"proofs":4,"rows":[[1],[2],[10]],"rows_tested":0,"skipped":[],"whole":[0,1]}"#,
    ),
    (JOIN, JOINED),
    (COMPACT, JOINED),
];

/// Another log, and the answer to `ALL` after each of its lines.
pub const SHORT: [Exchange; 3] = [(CREATE, NO_ROWS), (APPEND, TWO_ROWS), (COMPACT, TWO_ROWS)];

const NO_ROWS: &str =
    r#"{"dtype":{"children":[{"kind":"i32","nullable":false}],"kind":"struct","names":["a"],"nullable":false},"ok":true,"proofs":0,"rows":[],"rows_tested":0,"skipped":[],"whole":[]}"#;

const TWO_ROWS: &str =
    r#"{"dtype":{"children":[{"kind":"i32","nullable":false}],"kind":"struct","names":["a"],"nullable":false},"ok":true,"proofs":2,"rows":[[1],[2]],"rows_tested":0,"skipped":[],"whole":[0]}"#;

const JOINED: &str =
    r#"{"dtype":{"children":[{"kind":"i64","nullable":false}],"kind":"struct","names":["b"],"nullable":false},"ok":true,"proofs":5,"rows":[[1],[2],[10]],"rows_tested":0,"skipped":[],"whole":[0,1]}"#;

/// A scan of all rows, and its answer where there is no table.
pub const ALL: &str = r#"{"cmd":"scan","paths":[[]],"where":["lit",{"kind":"bool"},true]}"#;

pub const NO_TABLE: &str = r#"{"error":19,"name":"NoTable"}"#;

/// Whether the service answers the line so. Want of memory is handed on.
pub fn answers(
    alloc: Global,
    service: &mut Service,
    line: &[u8],
    wanted: &str,
) -> Result<bool, AllocError> {
    let mut out = Vec::from_slice(alloc, b"left over")?;
    let response = service.answer(alloc, line, &mut out);
    if response.lacks_memory(&out) {
        return Err(AllocError);
    }
    let answered = match split_at_lf(response.as_line(&out)) {
        Some((text, after)) => text == wanted.as_bytes() && after.is_empty(),
        None => false,
    };
    Ok(answered && response.is_ok(&out) == (wanted == DONE))
}

/// The service that the log leads to, or `None` where it is refused.
pub fn replayed(alloc: Global, log: &[u8]) -> Result<Option<Service>, AllocError> {
    match Service::replay(alloc, log) {
        Ok(service) => Ok(Some(service)),
        Err(ReplayError::Memory) => Err(AllocError),
        Err(ReplayError::Refused) => Ok(None),
    }
}

/// The lines of these exchanges, each with an LF.
pub fn log_of(alloc: Global, exchanges: &[Exchange]) -> Result<Vec<u8>, AllocError> {
    let mut log = Vec::new(alloc);
    for (line, _) in exchanges {
        log.extend_from_slice(line.as_bytes())?;
        log.push(b'\n')?;
    }
    Ok(log)
}
