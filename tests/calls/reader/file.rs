//! A file of four zones, with a footer that is honest of their rows.
//!
//! Its columns are `a`, numbers or null, and `s`, strings. Of the last zone the footer knows
//! nothing of `a`, and of `s` bounds of one byte.

use crate::make_arrays::answered;
use crate::notation::dtype;
use crate::trees::of_value;
use crate::value_notation::{value, values};
use crate::values::{Value, has, of_types};
use example_reader::footer::Footer;
use std::alloc::Global;
use vortex_arrays::build_plain;
use vortex_scalar::ScalarError;
use vortex_stats::StatsError;

/// The type of the file's rows.
const ROW: &str = "{a=i32?, s=utf8}";

/// The rows of each zone.
const ROWS: [&str; 4] = [
    "[1i32, 'ant']; [4i32, 'bee']; [2i32, 'asp']",
    "[5i32, 'cat']; [null, 'dog']; [9i32, 'cow']; [7i32, 'doe']",
    "[null, 'eel']; [null, 'fox']",
    "[3i32, 'gnu']; [12i32, 'hen']",
];

/// The type of the footer's rows: of a zone the number of its rows, and of `a` and of `s` the lower
/// and the upper bound and the null count.
const ZONE: &str =
    "{rows=u64, lower={a=i32?, s=utf8?}, upper={a=i32?, s=utf8?}, nulls={a=u64?, s=u64?}}";

/// The footer's rows.
const ZONES: [&str; 4] = [
    "[3u64, [1i32, 'ant'], [4i32, 'bee'], [0u64, 0u64]]",
    "[4u64, [5i32, 'cat'], [9i32, 'dog'], [1u64, 0u64]]",
    "[2u64, [null, 'eel'], [null, 'fox'], [2u64, 0u64]]",
    "[2u64, [null, 'g'], [null, 'i'], [null, 0u64]]",
];

/// The file.
#[derive(Drop)]
pub struct File {
    pub footer: Footer,
    /// The rows of each zone, all of the file's type.
    pub zones: Vec<Vec<Value>>,
}

impl File {
    pub fn new(alloc: Global) -> Result<File, StatsError> {
        read(alloc).map_err(of_value)
    }
}

fn read(alloc: Global) -> Result<File, ScalarError> {
    let of_rows = dtype(alloc, ROW).map_err(of_types)?;
    let (mut zones, mut known) = (Vec::new(alloc), Vec::new(alloc));
    for (rows, zone) in ROWS.into_iter().zip(ZONES) {
        let rows = values(alloc, rows)?;
        if !rows.iter().all(|row| has(&of_rows, row.as_ref())) {
            return Err(ScalarError::Invalid);
        }
        zones.push(rows)?;
        known.push(value(alloc, zone)?)?;
    }
    let mut lent = Vec::new(alloc);
    for zone in &known {
        lent.push(zone.as_ref())?;
    }
    let of_zones = dtype(alloc, ZONE).map_err(of_types)?;
    let table = answered(build_plain(alloc, &of_zones, &lent)).map_err(of_types)?;
    Ok(File { footer: Footer { dtype: of_rows, zones: table }, zones })
}
