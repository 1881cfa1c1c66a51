//! Calls the service that keeps a log: its answers, what it logs, the services that its log and
//! any beginning of it lead to, and logs that it refuses.
#![tactic(auto)]

mod answers;
mod checks;
mod cuts;
mod lines;
mod program;
mod refused;
mod served;

use crate::program::Program;
use std::process::ExitCode;

fn main(rt: HostRuntime) -> ExitCode {
    let mut program = Program::new(&rt);
    program.part(
        "lines are answered, and logged where they are accepted",
        answers::lines_are_answered_and_logged,
    );
    program.part("lines are served over a source and a sink", served::lines_are_served);
    program.part("a log leads to its table", cuts::logs_lead_to_their_tables);
    program.part(
        "a log that is cut anywhere leads to an earlier table",
        cuts::logs_may_be_cut_anywhere,
    );
    program.part("logs that are refused", refused::logs_are_refused);
    program.end()
}
