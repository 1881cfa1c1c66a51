//! Calls views of sixteen bytes, buffers, numbers, masks, the makers of arrays, their builders,
//! what reads, slices, takes and filters their rows, and rebuilds list views; what makes integers
//! narrower, tells which elements lists have, puts records together anew, and makes texts and bytes
//! of iterators; and what typed arrays tell, lend and give away.
#![tactic(auto)]

mod arrays;
mod buffers;
mod checks;
mod counted;
mod leaves;
mod make_arrays;
mod nested;
mod notation;
mod program;
mod records;
mod refusing;
mod validities;
mod value_notation;
mod values;
mod views;

use crate::program::Program;
use std::process::ExitCode;

fn main(rt: HostRuntime) -> ExitCode {
    let mut program = Program::new(&rt);
    program.part("views of sixteen bytes have their values", views::run);
    program.part("buffers are lists", buffers::run);
    program.part("bytes are cut into buffers", buffers::cuts);
    program.part("arrays have their rows", arrays::run);
    program.part("arrays are built of values", arrays::built);
    program.part("arrays without values inside have their parts", leaves::run);
    program.part("integers are narrowed, read from bytes, and are places", leaves::integers_made);
    program.part("texts and bytes are made of their values", leaves::from_iterators);
    program.part("dictionaries tell which values are named", nested::dictionaries);
    program.part("lists of one size have their parts", nested::fixed);
    program.part("list views have their parts", nested::views);
    program.part("list views are rebuilt", nested::rebuilt);
    program.part("list views tell which elements they have", nested::measured);
    program.part("odd lists are refused, or have their rows", nested::edges);
    program.part("validities say which rows are null", validities::run);
    program.part("records have their parts, and other columns", records::run);
    program.end()
}
