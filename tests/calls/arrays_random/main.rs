//! Makes arrays of all layouts, up to three within one another, beside plain lists of their rows,
//! and calls what slices, takes, filters, masks, casts, rebuilds and joins them: each array that
//! comes out has to have the rows that a plain program makes of the list.
#![tactic(auto)]

mod checks;
mod column;
mod grow;
mod make_arrays;
mod nested;
mod picks;
mod program;
mod values;

use crate::checks::Checks;
use crate::column::{Column, Dice, Made, Play};
use crate::grow::grow;
use crate::make_arrays::Done;
use crate::program::Program;
use std::alloc::Global;
use std::process::ExitCode;

/// How many arrays are made.
const ARRAYS: usize = 700;

/// How many calls are made in a row of each, each on what the one before gave.
const TURNS: usize = 6;

/// Makes the arrays, and a row of calls on each.
fn play_all(alloc: Global, checks: &mut Checks<'_>) -> Done {
    let mut play = Play { alloc, dice: Dice { state: 20 }, checks, number: 0 };
    for number in 0..ARRAYS {
        let count = play.dice.below(9);
        let depth = play.dice.below(4);
        let Column { array, rows } = grow(alloc, &mut play.dice, depth, count)?;
        play.number = number;
        let mut column = play.done("an array has the rows of its parts", array, rows)?;
        for _turn in 0..TURNS {
            column = turn(&mut play, column)?;
        }
    }
    Ok(())
}

/// One call on a column, by what is drawn.
fn turn(play: &mut Play<'_, '_>, column: Column) -> Made {
    match play.dice.below(12) {
        0 => picks::slice(play, column),
        1 => picks::take(play, column),
        2 => picks::filter(play, column),
        3 => picks::mask_rows(play, column),
        4 => nested::rebuild(play, column),
        5 => nested::measure(play, column),
        6 => picks::cast(play, column),
        7 => picks::build(play, column),
        8 => picks::narrow(play, column),
        9 => picks::read_texts(play, column),
        10 => nested::edit(play, column),
        _ => nested::join(play, column),
    }
}

fn main(rt: HostRuntime) -> ExitCode {
    let mut program = Program::new(&rt);
    program.part("arrays do as plain lists of rows", play_all);
    program.end()
}
