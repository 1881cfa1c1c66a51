//! Calls every public item of values: raw values, values with their type, conversion, order,
//! makers, views and their parts, native values, shortened bounds, and the laws of casts.
#![tactic(auto)]

mod bounds;
mod checks;
mod compare;
mod counted;
mod makers;
mod natives;
mod notation;
mod numbers;
mod program;
mod raw_values;
mod refusing;
mod samples;
mod typed_values;
mod value_notation;
mod values;
mod views;

use crate::program::Program;
use std::process::ExitCode;

fn main(rt: HostRuntime) -> ExitCode {
    let mut program = Program::new(&rt);
    program.part("numbers", numbers::run);
    program.part("raw values", raw_values::run);
    program.part("order, equality and hashes of raw values", raw_values::ordered);
    program.part("values with their type", typed_values::validity);
    program.part("conversion", typed_values::casts);
    program.part("laws of casts", typed_values::laws_of_casts);
    program.part("makers, zeros and defaults", makers::run);
    program.part("native values", natives::run);
    program.part("equality, hashes and order", compare::run);
    program.part("bounds of texts", bounds::of_texts);
    program.part("bounds of bytes", bounds::of_bytes);
    program.part("views of leaves", views::of_leaves);
    program.part("views of nested values", views::of_nested);
    program.end()
}
