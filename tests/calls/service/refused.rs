//! Logs that no service wrote.

use crate::checks::Checks;
use crate::lines::{ACCEPTED, ALL, APPEND, COMPACT, CREATE, log_of, replayed};
use example_service::service::ReplayError;
use std::alloc::{AllocError, Global};

/// A log is refused where one of its lines isn't accepted, and what has no LF is no line.
pub fn logs_are_refused(alloc: Global, checks: &mut Checks<'_>) -> Result<(), AllocError> {
    for (name, text, is_there) in [
        ("no bytes", "", true),
        ("no line", "no line", true),
        ("an empty line", "\n", false),
        ("a line that is no command", "no line\n", false),
    ] {
        let service = replayed(alloc, text.as_bytes())?;
        checks.holds(name, service.is_some() == is_there);
        if let Some(service) = service {
            checks.holds("its log", service.log().is_empty());
        }
    }
    for (name, lines) in [
        ("a command without a table", [COMPACT, CREATE]),
        ("a scan", [CREATE, ALL]),
        ("rows before their table", [APPEND, CREATE]),
    ] {
        let log = log_of(alloc, &[(lines[0], ""), (lines[1], "")])?;
        let service = replayed(alloc, &log)?;
        checks.holds(name, service.is_none());
    }
    let mut log = log_of(alloc, &ACCEPTED)?;
    log.extend_from_slice(b"{\"cmd\":\"join\",\"group\":7}\n")?;
    let service = replayed(alloc, &log)?;
    checks.holds("a line that is refused, at the end", service.is_none());
    checks.holds("two reasons", ReplayError::Memory != ReplayError::Refused);
    Ok(())
}
