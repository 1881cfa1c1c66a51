//! Calls what is known of statistics: which there are, their types, and sets of them; and what
//! tells the truths of bound expressions: at the rows of arrays of each layout, and by statistics.
#![tactic(auto)]

mod binder;
mod checks;
mod expressions;
mod make_arrays;
mod merges;
mod program;
mod providers;
mod rows;
mod sets;
mod statistics;
mod stats;
mod trees;
mod values;
mod whole_sets;
mod words;
mod zones;

use crate::program::Program;
use std::process::ExitCode;
use vortex_stats::StatsError;

/// The end of calls, of which none was refused memory.
pub type Done = Result<(), StatsError>;

fn main(rt: HostRuntime) -> ExitCode {
    let mut program = Program::new(&rt);
    program.part("statistics", stats::run);
    program.part("sets of statistics", whole_sets::run);
    program.part("merges and combinations of sets", merges::run);
    program.part("statistics that are provided", providers::provided);
    program.part("laws that make the calls", providers::laws);
    program.part("truths at the rows of each layout", rows::layouts);
    program.part("refusals, in their order", rows::refusals);
    program.part("truths by statistics", statistics::statistics);
    program.part("placeholders over bound inputs", statistics::placeholders);
    program.part("proofs at the zones of a reader", zones::run);
    program.end()
}
