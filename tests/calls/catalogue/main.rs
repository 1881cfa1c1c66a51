//! Calls the catalogue of partitions: what it knows of one and of a range, that the order in which
//! partitions came and were merged doesn't matter, what it refuses, and that a refusal changes
//! nothing.
#![tactic(auto)]

mod checks;
mod days;
mod order;
mod program;
mod ranges;
mod refused;

use crate::program::Program;
use example_catalogue::error::CatalogueError;
use std::process::ExitCode;
use vortex_stats::StatsError;

/// What a call on statistics is refused for, and any other refusal as a value that isn't right.
fn reason(error: CatalogueError) -> StatsError {
    match error {
        CatalogueError::Stats(error) => error,
        _ => StatsError::InvalidStat,
    }
}

fn main(rt: HostRuntime) -> ExitCode {
    let mut program = Program::new(&rt);
    program.part("statistics of partitions and of ranges", |alloc, checks| {
        ranges::run(alloc, checks).map_err(reason)
    });
    program.part("partitions in any order", |alloc, checks| {
        order::run(alloc, checks).map_err(reason)
    });
    program.part("calls that are refused", |alloc, checks| {
        refused::run(alloc, checks).map_err(reason)
    });
    program.end()
}
