//! Calls the table as a library: faults of types, predicates that no line says, records that nest
//! deep, paths that cut rows together, arrays that are appended and converted and how chunks lie,
//! rules of the caller, clones, JSON texts, and what is left of a table where memory is refused.
#![tactic(auto)]

mod arrays;
mod checks;
mod conversions;
mod faults;
mod fixed_rule;
mod laws;
mod long;
mod make;
mod make_arrays;
mod memory;
mod picked;
mod program;
mod refusing;
mod rules;
mod scans;
mod texts;
mod trees;
mod words;

use crate::program::Program;
use std::process::ExitCode;

fn main(rt: HostRuntime) -> ExitCode {
    let mut program = Program::new(&rt);
    program.part("refusals, and faults of types and of predicates", faults::run);
    program.part("scans along paths, of deep records and by any leaf", scans::run);
    program.part("rows that are found in any layout, and groups", picked::run);
    program.part("laws hold of the calls", laws::run);
    program.part("rules of the caller", rules::run);
    program.part("arrays are appended, by hints, and described", arrays::run);
    program.part("tables behind refused commands, and clones", memory::run);
    program.part("long texts are told apart", long::run);
    program.part("columns are converted", conversions::run);
    program.part("JSON texts are written and read", texts::run);
    program.end()
}
