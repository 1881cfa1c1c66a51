//! A count of calls: how many answered as they should.

use std::alloc::AllocError;
use std::process::ExitCode;
use vortex_dtype::DTypeError;

/// The most parts that a program can have.
const MOST_PARTS: usize = 32;

/// A part of the checks: its name, and how many of its calls were right and wrong.
#[derive(Clone, Copy, Drop)]
struct Part {
    name: &'static str,
    right: u32,
    wrong: u32,
}

/// What was checked so far. It takes no memory.
pub struct Checks<'a> {
    rt: &'a HostRuntime,
    right: u32,
    wrong: u32,
    parts: [Part; MOST_PARTS],
    part_count: usize,
}

impl<'a> Checks<'a> {
    /// Nothing was checked.
    pub fn new(rt: &'a HostRuntime) -> Checks<'a> {
        Checks {
            rt,
            right: 0,
            wrong: 0,
            parts: [Part { name: "", right: 0, wrong: 0 }; MOST_PARTS],
            part_count: 0,
        }
    }

    /// Counts the call of this name, which was right where `holds` is.
    pub fn holds(&mut self, name: &str, holds: bool) {
        if holds {
            self.right += 1;
        } else {
            self.wrong += 1;
            let _ = println!(self.rt; "wrong: {name}");
        }
    }

    /// Counts one of many calls of this name, the one of this number.
    pub fn holds_at(&mut self, name: &str, number: usize, holds: bool) {
        if holds {
            self.right += 1;
        } else {
            self.wrong += 1;
            let _ = println!(self.rt; "wrong: {name} {number}");
        }
    }

    /// Ends a part: the calls since the last part ended have this name, and a line of their own at
    /// the end.
    pub fn end_part(&mut self, name: &'static str) {
        let (mut right, mut wrong) = (self.right, self.wrong);
        for part in &self.parts[..self.part_count] {
            right -= part.right;
            wrong -= part.wrong;
        }
        if self.part_count == MOST_PARTS {
            self.holds("a part more than there can be", false);
            return;
        }
        self.parts[self.part_count] = Part { name, right, wrong };
        self.part_count += 1;
    }

    /// Counts a call that is to be refused by this error. Refused memory is handed on.
    pub fn refused<T: Drop, E: Drop + From<AllocError> + PartialEq>(
        &mut self,
        name: &str,
        answer: Result<T, E>,
        wanted: E,
    ) -> Result<(), E> {
        match answer {
            Ok(_) => self.holds(name, false),
            Err(error) => {
                if error == E::from(AllocError) {
                    return Err(error);
                }
                self.holds(name, error == wanted);
            }
        }
        Ok(())
    }

    /// What is left of a call that memory was refused to: says nothing where it is as it should be.
    pub fn stays(&mut self, name: &str, holds: bool) {
        if !holds {
            self.holds(name, false);
        }
    }

    /// The status: failure where memory was refused and all was right until then, and else success,
    /// with a line for each part and a last one that say how many calls were right. So a run that
    /// is wrong has a line that a right one lacks, and never the status of a refused one.
    pub fn end(self, outcome: Result<(), DTypeError>) -> ExitCode {
        let Checks { rt, right, mut wrong, parts, part_count } = self;
        match outcome {
            Ok(()) => (),
            Err(DTypeError::Memory) => {
                if wrong == 0 {
                    return ExitCode::FAILURE;
                }
            }
            Err(error) => {
                wrong += 1;
                let _ = println!(rt; "wrong: refused, since {error}");
            }
        }
        for Part { name, right, wrong } in &parts[..part_count] {
            let _ = println!(rt; "{name}: {right} calls right, {wrong} wrong");
        }
        let _ = println!(rt; "{right} calls right, {wrong} wrong");
        ExitCode::SUCCESS
    }
}
