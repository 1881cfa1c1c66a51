//! Runs a session of lines in memory: one line more each time, cut anywhere, ended at many places,
//! with each read, many a write and the flush failing in turn, and where all memory is refused; and
//! calls the sources and sinks, the short texts and the session that a run is made of.
#![tactic(auto)]

mod checks;
mod program;
mod refusing;
mod runs;
mod session;
mod streams;

use crate::program::Program;
use std::process::ExitCode;

fn main(rt: HostRuntime) -> ExitCode {
    let mut program = Program::new(&rt);
    program.part("reads and writes may be cut anywhere", runs::in_pieces);
    program.part("an input may end at many places", runs::with_an_end_anywhere);
    program.part("each read may fail", runs::with_failing_reads);
    program.part("writes may fail", runs::with_failing_writes);
    program.part("refusals take no memory", runs::without_memory);
    program.part("sources and sinks pass on what they are given", streams::sources_and_sinks);
    program.part("a session answers line by line", streams::sessions);
    program.end()
}
