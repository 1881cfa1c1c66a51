//! Calls what is known of statistics: values that are exact, inexact or absent, bounds, and proofs.
#![tactic(auto)]

mod binder;
mod bounds;
mod checks;
mod expressions;
mod fixed_rule;
mod make_arrays;
mod matching;
mod program;
mod proofs;
mod refusing;
mod statistics;
mod trees;
mod values;
mod words;

use crate::program::Program;
use crate::refusing::{refuse_all, took_none};
use std::alloc::AllocError;
use std::process::ExitCode;

fn main(rt: HostRuntime) -> ExitCode {
    let mut program = Program::new(&rt);
    program.part("precision", bounds::precisions);
    program.part("bounds", |alloc, checks| {
        refuse_all(alloc, checks);
        bounds::bounds(checks);
        took_none(alloc, checks, "bounds take no memory");
        Ok::<(), AllocError>(())
    });
    program.part("orders of values", bounds::orders);
    program.part("columns that are compared, and LIKE", matching::run);
    program.part("expressions, and what bind refuses", expressions::bound_expressions);
    program.part("proofs with their columns resolved", proofs::proofs);
    program.part("rules of the caller", proofs::rules_of_callers);
    program.part("falsifiers of LIKE, of floats and of literals", expressions::falsifiers);
    program.part("values of placeholders", statistics::placeholders);
    program.part("statistics of dictionaries and constants", statistics::dictionaries);
    program.end()
}
