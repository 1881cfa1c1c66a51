//! Memory that is refused to a program as it asks, for calls that take none.

use crate::checks::Checks;
use std::alloc::Global;

/// Behind a request for so many bytes, which is refused itself, each one is refused (`calls.py`).
const REFUSE_ALL: usize = 0x100_0000_0001;

/// Behind a request for so many bytes none is refused. It is granted where none was made between.
const GRANT_ALL: usize = 0x100_0000_0002;

/// From here on each request for memory is refused.
pub fn refuse_all(alloc: Global, checks: &mut Checks<'_>) {
    let is_refused = Vec::<u8>::with_capacity(alloc, REFUSE_ALL).is_err();
    checks.holds("each request is refused", is_refused);
}

/// Whether none was made since then. From here on memory is there again.
pub fn none_was_made(alloc: Global) -> bool {
    Vec::<u8>::with_capacity(alloc, GRANT_ALL).is_ok()
}

/// Counts the calls of this name that were made since then, which were to make no request.
pub fn took_none(alloc: Global, checks: &mut Checks<'_>, name: &str) {
    let took_none = none_was_made(alloc);
    checks.holds(name, took_none);
}

/// A request between the two is refused, and seen.
pub fn requests_are_seen(alloc: Global, checks: &mut Checks<'_>) {
    refuse_all(alloc, checks);
    let is_refused = Vec::<u8>::with_capacity(alloc, 1).is_err();
    checks.holds("a request that is refused", is_refused);
    let took_none = none_was_made(alloc);
    checks.holds("a request that is seen", !took_none);
}
