//! Calls every public item of the integer types, of decimals, of native types and of types, of
//! paths, of the parts of types, and of messages, sessions and extensions.
#![tactic(auto)]

mod checks;
mod counted;
mod dtypes;
mod equality;
mod extensions;
mod make;
mod messages;
mod natives;
mod notation;
mod parts;
mod paths;
mod plain;
mod plugins;
mod program;
mod refusing;

use crate::program::Program;
use std::process::ExitCode;

fn main(rt: HostRuntime) -> ExitCode {
    let mut program = Program::new(&rt);
    program.part("kinds, decimals, natives and types", |alloc, checks| {
        plain::run(alloc, checks)?;
        natives::run(alloc, checks)?;
        dtypes::run(alloc, checks)?;
        equality::run(alloc, checks)
    });
    program.part("paths, parts of types, messages and extensions", |alloc, checks| {
        paths::run(alloc, checks)?;
        parts::run(alloc, checks)?;
        messages::run(alloc, checks)?;
        plugins::run(alloc, checks)?;
        extensions::run(alloc, checks)
    });
    program.part("equality, hashes and searches take no memory", equality::without_memory);
    program.end()
}
