//! A column: an array, and a plain list of the rows that it has to have; and what calls draw from.

use crate::checks::Checks;
use crate::make_arrays::answered;
use crate::values::{Value, copied};
use std::alloc::Global;
use vortex_arrays::{ArrayError, ArrayRef};
use vortex_dtype::DTypeError;
use vortex_scalar::eq_values;

#[derive(Drop)]
pub struct Column {
    pub array: ArrayRef,
    pub rows: Vec<Value>,
}

/// A column that a call made.
pub type Made = Result<Column, DTypeError>;

/// What calls draw from, and where they are counted, under the number of the array that they are
/// made on.
#[derive(Drop)]
pub struct Play<'a, 'b> {
    pub alloc: Global,
    pub dice: Dice,
    pub checks: &'a mut Checks<'b>,
    pub number: usize,
}

impl Play<'_, '_> {
    /// Counts the call of this name.
    pub fn holds(&mut self, name: &str, holds: bool) {
        self.checks.holds_at(name, self.number, holds);
    }

    /// Counts the call of this name, whose array is to have these rows.
    pub fn done(&mut self, name: &str, array: ArrayRef, rows: Vec<Value>) -> Made {
        let has_its_rows = has_rows(self.alloc, &array, &rows)?;
        self.holds(name, has_its_rows);
        Ok(Column { array, rows })
    }
}

/// Whether the answer is this refusal.
pub fn is_refused<T: Drop>(answer: Result<T, ArrayError>, wanted: ArrayError) -> bool {
    answer.is_err_and(|error| error == wanted)
}

/// Whether the array has these rows, read one by one. Numbers of two kinds may be equal.
pub fn has_rows(alloc: Global, array: &ArrayRef, rows: &[Value]) -> Result<bool, DTypeError> {
    if array.len() != rows.len() {
        return Ok(false);
    }
    let mut same = is_refused(array.execute_scalar(alloc, rows.len()), ArrayError::OutOfRange);
    for (i, wanted) in rows.iter().enumerate() {
        let row = answered(array.execute_scalar(alloc, i))?;
        same = same && *row.dtype() == *array.dtype() && array.is_valid(i) == wanted.is_some();
        same = same && eq_values(row.value(), wanted.as_ref());
    }
    Ok(same)
}

/// Copies of the rows at these places, and null where there is no place.
pub fn rows_at<I: Iterator<Item = Option<usize>>>(
    alloc: Global,
    rows: &[Value],
    places: I,
) -> Result<Vec<Value>, DTypeError> {
    let mut picked = Vec::new(alloc);
    for place in places {
        picked.push(match place {
            Some(place) => copied(rows[place].as_ref())?,
            None => None,
        })?;
    }
    Ok(picked)
}

/// Copies of all rows.
pub fn copies(alloc: Global, rows: &[Value]) -> Result<Vec<Value>, DTypeError> {
    rows_at(alloc, rows, (0..rows.len()).map(|i| Some(i)))
}

/// A generator of pseudo-random numbers, by Vigna's `splitmix64`, the same in each run.
#[derive(Drop)]
pub struct Dice {
    pub state: u64,
}

impl Dice {
    /// Any number.
    pub fn number(&mut self) -> u64 {
        self.state = self.state.wrapping_add(0x9E37_79B9_7F4A_7C15);
        let mut mixed = self.state;
        mixed = (mixed ^ (mixed >> 30)).wrapping_mul(0xBF58_476D_1CE4_E5B9);
        mixed = (mixed ^ (mixed >> 27)).wrapping_mul(0x94D0_49BB_1331_11EB);
        mixed ^ (mixed >> 31)
    }

    /// A number below the bound, which is not 0.
    pub fn below(&mut self, bound: usize) -> usize {
        (self.number() % bound as u64) as usize
    }

    /// Whether one of so many comes up.
    pub fn one_in(&mut self, count: usize) -> bool {
        self.below(count) == 0
    }

    /// An integer from the least to the greatest, these two and 0 more often than others.
    pub fn integer(&mut self, least: i128, greatest: i128) -> i128 {
        match self.below(8) {
            0 => least,
            1 => greatest,
            2 => 0,
            3 | 4 | 5 => self.below(100) as i128,
            _ => least + self.number() as i128 % (greatest - least + 1),
        }
    }
}
