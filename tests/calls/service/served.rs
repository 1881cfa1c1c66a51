//! A service that is served over a source and a sink in memory.

use crate::checks::Checks;
use crate::lines::{ACCEPTED, MEMORY, SESSION, log_of};
use example_service::service::Service;
use std::alloc::{AllocError, Global};
use vortex_table::run::{MemorySink, MemorySource, run_lines};

/// How many bytes a read has at most, fewer than a line.
const MOST: usize = 7;

/// More than any run writes at once, and more often.
const ALWAYS: usize = usize::MAX;

/// A run answers each line as the service does alone, and leaves the same log.
pub fn lines_are_served(alloc: Global, checks: &mut Checks<'_>) -> Result<(), AllocError> {
    let input = log_of(alloc, &SESSION)?;
    let mut service = Service::new(alloc);
    let mut reader = MemorySource::new(&input, MOST, ALWAYS);
    let mut writer = MemorySink::new(Vec::new(alloc), ALWAYS, ALWAYS);
    if run_lines(alloc, &mut service, &mut reader, &mut writer).is_err() {
        // The sink takes all, unless memory is refused to it.
        return Err(AllocError);
    }
    let written = writer.bytes.as_slice();
    let mut wanted = Vec::new(alloc);
    for (_, answer) in &SESSION {
        if written[wanted.len().min(written.len())..].starts_with(MEMORY.as_bytes()) {
            return Err(AllocError);
        }
        wanted.extend_from_slice(answer.as_bytes())?;
        wanted.push(b'\n')?;
    }
    checks.holds("the answers of a run", written == wanted.as_slice());
    let log = log_of(alloc, &ACCEPTED)?;
    checks.holds("the log of a run", service.log() == log.as_slice());
    checks.holds("what the run read", reader.read_so_far() == input.as_slice());
    Ok(())
}
