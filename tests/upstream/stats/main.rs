//! Tests of the Rust crate on statistics, on placeholders for them, and on rewriting and binding,
//! under their names there.
#![tactic(auto)]

mod bind;
mod binder;
mod bound;
mod builtins;
mod checks;
mod expr;
mod merges;
mod program;
mod rewrite;
mod sets;
mod stat;
mod stats_set;
mod trees;
mod values;
mod words;

use crate::program::Program;
use std::alloc::AllocError;
use std::process::ExitCode;
use vortex_stats::StatsError;

/// The end of calls, of which none was refused memory.
pub type Done = Result<(), StatsError>;

fn main(rt: HostRuntime) -> ExitCode {
    let mut program = Program::new(&rt);
    program.part("expr/stats/mod.rs", |_, checks| {
        stat::run(checks);
        Ok::<(), AllocError>(())
    });
    program.part("expr/stats/bound.rs", |_, checks| {
        bound::run(checks);
        Ok::<(), AllocError>(())
    });
    program.part("stats/stats_set.rs", |alloc, checks| {
        stats_set::run(alloc, checks)?;
        merges::run(alloc, checks)
    });
    program.part("stats/rewrite.rs", rewrite::run);
    program.part("stats/rewrite/builtins.rs", builtins::run);
    program.part("stats/bind.rs", bind::run);
    program.part("stats/expr.rs", expr::run);
    program.end()
}
