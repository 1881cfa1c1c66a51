//! Times calls.

use std::alloc::{AllocError, AllocFailed};
use std::time::Instant;
use vortex_arrays::ArrayError;

/// How often each call is made.
const RUNS: usize = 5;

/// What went wrong.
#[derive(Drop)]
pub enum Failed {
    Memory,
    Array,
    Clock,
}

impl From<AllocError> for Failed {
    fn from(_error: AllocError) -> Failed {
        Failed::Memory
    }
}

impl<T: Drop> From<AllocFailed<T>> for Failed {
    fn from(_error: AllocFailed<T>) -> Failed {
        Failed::Memory
    }
}

impl From<ArrayError> for Failed {
    fn from(_error: ArrayError) -> Failed {
        Failed::Array
    }
}

#[derive(Clone, Copy, Drop)]
pub struct Clock<'a> {
    pub rt: &'a HostRuntime,
}

impl<'a> Clock<'a> {
    /// Writes the nanoseconds of the fastest of several calls.
    pub fn time<T: Drop, F: Fn() -> Result<T, Failed>>(
        &self,
        layout: &str,
        name: &str,
        rows: usize,
        call: F,
    ) -> Result<(), Failed> {
        let mut least = u128::MAX;
        for _run in 0..RUNS {
            let Ok(start) = Instant::now(self.rt) else {
                return Err(Failed::Clock);
            };
            let made = call()?;
            let Ok(spent) = start.elapsed(self.rt) else {
                return Err(Failed::Clock);
            };
            drop(made);
            least = least.min(spent.as_nanos());
        }
        let _ = println!(self.rt; "{layout}\t{name}\t{rows}\t{least}");
        Ok(())
    }
}
