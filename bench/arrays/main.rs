//! Times what slices, filters, takes and rebuilds arrays, and finds the extremes of a column: one
//! line a call with its layout, its number of rows and nanoseconds. The least of several runs counts.
#![tactic(auto)]

mod clock;
mod make;

use crate::clock::{Clock, Failed};
use crate::make::{LAYOUTS, Layout, array_of, half, shuffled};
use std::alloc::Global;
use std::process::ExitCode;
use vortex_arrays::{ArrayRef, ListViewArray, ListViewRebuild, ListViewRebuildMode};
use vortex_arrays::{PrimitiveArray, PrimitiveArrayExt};
use vortex_stats_array::of_array::array_stats;

/// How many rows an array has, which is then made two, four and eight times as long.
const ROWS: usize = 1_000_000;

fn run(clock: &Clock<'_>, alloc: Global) -> Result<(), Failed> {
    for times in [1, 2, 4, 8] {
        for layout in LAYOUTS {
            measure(clock, alloc, layout, ROWS * times)?;
        }
    }
    Ok(())
}

fn measure(clock: &Clock<'_>, alloc: Global, layout: Layout, rows: usize) -> Result<(), Failed> {
    let array = array_of(alloc, layout, rows)?;
    let name = layout.name();
    clock.time(name, "slice", rows, || Ok(array.slice(alloc, 1..rows - 1)?))?;
    let mask = half(alloc, rows)?;
    clock.time(name, "filter", rows, || Ok(array.filter(alloc, &mask)?))?;
    let places = shuffled(alloc, rows)?;
    clock.time(name, "take", rows, || Ok(array.take(alloc, &places)?))?;
    if layout.is_leaf() {
        clock.time(name, "min and max", rows, || Ok(array_stats(alloc, &array, 16)?))?;
    }
    if layout.is_list() {
        rebuild(clock, alloc, array.clone()?, rows)?;
    }
    if layout.is_number() {
        narrow(clock, alloc, array, rows)?;
    }
    Ok(())
}

fn rebuild(
    clock: &Clock<'_>,
    alloc: Global,
    array: ArrayRef,
    rows: usize,
) -> Result<(), Failed> {
    let Ok(lists) = ListViewArray::of_array(array) else {
        return Err(Failed::Array);
    };
    let mode = ListViewRebuildMode::MakeZeroCopyToList;
    clock.time("lists", "rebuild", rows, || Ok(lists.rebuild(alloc, mode)?))
}

fn narrow(
    clock: &Clock<'_>,
    alloc: Global,
    array: ArrayRef,
    rows: usize,
) -> Result<(), Failed> {
    let Ok(numbers) = PrimitiveArray::of_array(array) else {
        return Err(Failed::Array);
    };
    clock.time("integers", "narrow", rows, || Ok(numbers.narrow(alloc)?))
}

fn main(rt: HostRuntime) -> ExitCode {
    let clock = Clock { rt: &rt };
    match run(&clock, rt.alloc()) {
        Ok(()) => ExitCode::SUCCESS,
        Err(_error) => ExitCode::FAILURE,
    }
}
