//! Services that a log, or a beginning of it, leads to.

use crate::checks::Checks;
use crate::lines::{ACCEPTED, ALL, DONE, Exchange, NO_TABLE, SHORT, answers, log_of, replayed};
use std::alloc::{AllocError, Global};

/// Whether the log leads to a service that these exchanges made: to its rows and its log.
fn leads(alloc: Global, log: &[u8], exchanges: &[Exchange]) -> Result<bool, AllocError> {
    let Some(mut service) = replayed(alloc, log)? else {
        return Ok(false);
    };
    let rows = match exchanges.last() {
        Some((_, rows)) => *rows,
        None => NO_TABLE,
    };
    let has_rows = answers(alloc, &mut service, ALL.as_bytes(), rows)?;
    let lines = log_of(alloc, exchanges)?;
    Ok(has_rows && service.log() == lines.as_slice())
}

/// A log leads to its table, and the service goes on from there to the end.
pub fn logs_lead_to_their_tables(alloc: Global, checks: &mut Checks<'_>) -> Result<(), AllocError> {
    example_service::laws::logs_lead_to_their_tables();
    let all = log_of(alloc, &ACCEPTED)?;
    for count in 0..ACCEPTED.len() + 1 {
        let log = log_of(alloc, &ACCEPTED[..count])?;
        let is_led = leads(alloc, &log, &ACCEPTED[..count])?;
        checks.holds_at("a log of lines", count, is_led);
        let Some(mut service) = replayed(alloc, &log)? else {
            continue;
        };
        for (line, rows) in &ACCEPTED[count..] {
            let is_accepted = answers(alloc, &mut service, line.as_bytes(), DONE)?;
            let has_rows = answers(alloc, &mut service, ALL.as_bytes(), *rows)?;
            checks.holds_at("a line after them", count, is_accepted && has_rows);
        }
        checks.holds_at("the log at the end", count, service.log() == all.as_slice());
    }
    Ok(())
}

/// Of a log that is cut at any byte, the lines that still have their LF are left.
pub fn logs_may_be_cut_anywhere(alloc: Global, checks: &mut Checks<'_>) -> Result<(), AllocError> {
    let log = log_of(alloc, &SHORT)?;
    let mut count = 0;
    for at in 0..log.len() + 1 {
        if at > 0 && log[at - 1] == b'\n' {
            count += 1;
        }
        let is_led = leads(alloc, &log[..at], &SHORT[..count])?;
        checks.holds_at("a log cut at byte", at, is_led);
    }
    checks.holds("its lines", count == SHORT.len());
    Ok(())
}
