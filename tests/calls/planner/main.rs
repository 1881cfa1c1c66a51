//! Calls the planner over a table of six chunks: how it shares them out among workers, the rows
//! that the workers answer, and what it refuses.
#![tactic(auto)]

mod checks;
mod make;
mod program;
mod refused;
mod rows;
mod shares;

use crate::program::Program;
use std::process::ExitCode;

fn main(rt: HostRuntime) -> ExitCode {
    let mut program = Program::new(&rt);
    program.part("chunks are shared out", shares::chunks_are_shared_out);
    program.part("workers answer all rows, in order", rows::workers_answer_all_rows);
    program.part("chunks that are left out", rows::what_is_left_out_is_lost);
    program.part("scans that are refused", refused::scans_are_refused);
    program.end()
}
