//! Calls the reader of a file of four zones: which of them it reads for a predicate, that none of
//! those that it leaves out holds a selected row, what it refuses, and that footers are read of the
//! lines that are written of them.
#![tactic(auto)]

mod checks;
mod columns;
mod file;
mod lines;
mod make_arrays;
mod notation;
mod program;
mod tables;
mod trees;
mod value_notation;
mod values;
mod words;
mod zones;

use crate::program::Program;
use std::process::ExitCode;

fn main(rt: HostRuntime) -> ExitCode {
    let mut program = Program::new(&rt);
    program.part("columns of a table of zones", columns::run);
    program.part("zones that are read", zones::run);
    program.part("zones that are read by rules of the caller", zones::by_rules);
    program.part("predicates that are refused", zones::refused_predicates);
    program.part("footers in lines", lines::read);
    program.part("lines that are refused", lines::refused_lines);
    program.part("footers of tables", tables::run);
    program.part("footers without lines", tables::refused_footers);
    program.end()
}
