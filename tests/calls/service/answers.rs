//! What a service answers, and what it adds to its log.

use crate::checks::Checks;
use crate::lines::{ACCEPTED, BAD_LINE, DONE, SESSION, answers, log_of};
use example_service::service::Service;
use std::alloc::{AllocError, Global};
use vortex_table::run::{bad_line, is_one_line};

/// A line is in the log, with an LF, exactly where it is accepted.
pub fn lines_are_answered_and_logged(
    alloc: Global,
    checks: &mut Checks<'_>,
) -> Result<(), AllocError> {
    let mut service = Service::new(alloc);
    checks.holds("the log of a new service", service.log().is_empty());
    let mut accepted = 0;
    for (i, (line, wanted)) in SESSION.iter().enumerate() {
        let before = log_of(alloc, &ACCEPTED[..accepted])?;
        let outcome = answers(alloc, &mut service, line.as_bytes(), *wanted);
        if outcome.is_err() {
            checks.stays("the log without memory", service.log() == before.as_slice());
        }
        checks.holds_at("the answer to line", i, outcome?);
        if *wanted == DONE {
            accepted += 1;
        }
        let log = log_of(alloc, &ACCEPTED[..accepted])?;
        checks.holds_at("the log after line", i, service.log() == log.as_slice());
    }
    let log = log_of(alloc, &ACCEPTED)?;
    let is_answered = answers(alloc, &mut service, b"{\"cmd\":\"compact\"}\n", BAD_LINE)?;
    checks.holds(
        "a line with an LF",
        is_answered && service.log() == log.as_slice(),
    );
    checks.holds("the answer to no command", bad_line().as_bytes() == BAD_LINE.as_bytes());
    checks.holds("lines without an LF", is_one_line(b"{}") && !is_one_line(&log));
    Ok(())
}
