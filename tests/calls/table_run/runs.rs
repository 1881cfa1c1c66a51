//! A session whose input comes whole, in pieces or not to its end, with reads, writes and flushes
//! that fail, and without memory.

use crate::checks::Checks;
use crate::refusing::{none_was_made, refuse_all};
use crate::session::{Exchange, SESSION};
use std::alloc::{AllocError, Global};
use vortex_table::run::{MemorySink, MemorySource, RunError, run};

/// The end of calls, of which none was refused memory.
type Done = Result<(), AllocError>;

/// How many bytes a call reads or writes at most, and how many calls are good.
type Calls = (usize, usize);

/// More than any run reads or writes at once, and more often.
const ALWAYS: usize = usize::MAX;

const WHOLE: Calls = (ALWAYS, ALWAYS);

/// The longest reads that are tried, shorter than most lines. The program itself is tried with
/// longer ones (tests/cuts.py).
const MOST_READ: usize = 130;

const BAD_LINE: &str = "{\"error\":18,\"name\":\"BadLine\"}";

const MEMORY: &str = "{\"error\":1,\"name\":\"Memory\"}";

/// The lines of a session, each with its LF, and its answers.
fn streams_of(alloc: Global, session: &[Exchange]) -> Result<(Vec<u8>, Vec<u8>), AllocError> {
    let (mut input, mut output) = (Vec::new(alloc), Vec::new(alloc));
    for (line, answer) in session {
        input.extend_from_slice(line.as_bytes())?;
        input.push(b'\n')?;
        output.extend_from_slice(answer.as_bytes())?;
        output.push(b'\n')?;
    }
    Ok((input, output))
}

/// Counts a run that ends so, and writes these answers.
fn runs(
    alloc: Global,
    checks: &mut Checks<'_>,
    (name, number): (&str, usize),
    (input, (most_read, good_reads), (most_written, good_writes)): (&[u8], Calls, Calls),
    (outcome, answers): (Result<(), RunError>, &[u8]),
) {
    let mut reader = MemorySource::new(input, most_read, good_reads);
    let mut writer = MemorySink::new(Vec::new(alloc), most_written, good_writes);
    let result = run(alloc, &mut reader, &mut writer);
    checks.holds_at(name, number, result == outcome && writer.bytes.as_slice() == answers);
}

/// The session, one line more each time; reads of at most one byte, of at most two, and so on, with
/// writes of at most one, two or three bytes; and no line.
pub fn in_pieces(alloc: Global, checks: &mut Checks<'_>) -> Done {
    for (count, _) in SESSION.iter().enumerate() {
        let (input, output) = streams_of(alloc, &SESSION[..=count])?;
        let wanted = (Ok(()), output.as_slice());
        runs(alloc, checks, ("a run to line", count), (input.as_slice(), WHOLE, WHOLE), wanted);
    }
    let (input, output) = streams_of(alloc, &SESSION)?;
    for most in 1..=MOST_READ {
        let cut = (input.as_slice(), (most, ALWAYS), (1 + most % 3, ALWAYS));
        runs(alloc, checks, ("a run by reads of", most), cut, (Ok(()), output.as_slice()));
    }
    let nothing = b"".as_slice();
    runs(alloc, checks, ("a run over", 0), (nothing, WHOLE, WHOLE), (Ok(()), nothing));
    Ok(())
}

/// The answers to so many bytes of the input: those of their lines, of which the last may lack its
/// LF, or more, and then is a bad line.
fn answers_up_to(alloc: Global, end: usize) -> Result<Vec<u8>, AllocError> {
    let (mut answers, mut at) = (Vec::new(alloc), 0);
    for (line, answer) in &SESSION {
        if at < end {
            let is_cut = end < at + line.len();
            let answer = if is_cut { BAD_LINE } else { *answer };
            answers.extend_from_slice(answer.as_bytes())?;
            answers.push(b'\n')?;
        }
        at += line.len() + 1;
    }
    Ok(answers)
}

/// The input without its end, five bytes more each time. The program itself is tried at each byte
/// (tests/cuts.py).
pub fn with_an_end_anywhere(alloc: Global, checks: &mut Checks<'_>) -> Done {
    let (input, _) = streams_of(alloc, &SESSION)?;
    for fifth in 0..=input.len() / 5 {
        let (end, wanted) = (5 * fifth, answers_up_to(alloc, 5 * fifth)?);
        let cut = (&input[..end], WHOLE, WHOLE);
        runs(alloc, checks, ("a run that ends at", end), cut, (Ok(()), wanted.as_slice()));
    }
    Ok(())
}

/// How many lines have their LF within so many bytes of the input.
fn lines_within(end: usize) -> usize {
    let (mut count, mut at) = (0, 0);
    for (line, _) in &SESSION {
        at += line.len() + 1;
        count += if at <= end { 1 } else { 0 };
    }
    count
}

/// Reads of seven bytes, of which the first fails, or the second, and so on until none does. What
/// the good ones brought is answered, up to the last LF.
pub fn with_failing_reads(alloc: Global, checks: &mut Checks<'_>) -> Done {
    let (input, _) = streams_of(alloc, &SESSION)?;
    for good in 0..=input.len() / 7 + 2 {
        // Those that bring bytes, and one more that finds the end.
        let enough = good > (input.len() + 6) / 7;
        let outcome = if enough { Ok(()) } else { Err(RunError::Read) };
        let (_, wanted) = streams_of(alloc, &SESSION[..lines_within(7 * good)])?;
        let cut = (input.as_slice(), (7, good), WHOLE);
        let wanted = (outcome, wanted.as_slice());
        runs(alloc, checks, ("a run by good reads, of these", good), cut, wanted);
    }
    Ok(())
}

/// Writes of one byte, of which the first fails, or the fourth, and so on until neither a write nor
/// the flush does; and a write that takes nothing. The good writes are those of the first bytes.
/// Reads are of a hundred bytes, so that little is read before a write fails. Of the program itself
/// each write fails in turn (tests/cuts.py).
pub fn with_failing_writes(alloc: Global, checks: &mut Checks<'_>) -> Done {
    let (input, output) = streams_of(alloc, &SESSION)?;
    for third in 0..=output.len() / 3 + 1 {
        let good = 3 * third;
        // One call a byte, and the flush.
        let outcome = if good > output.len() { Ok(()) } else { Err(RunError::Write) };
        let cut = (input.as_slice(), (100, ALWAYS), (1, good));
        let wanted = (outcome, &output.as_slice()[..good.min(output.len())]);
        runs(alloc, checks, ("a run by good writes, of these", good), cut, wanted);
    }
    let cut = (input.as_slice(), WHOLE, (0, ALWAYS));
    runs(alloc, checks, ("a run by writes of", 0), cut, (Err(RunError::Write), b"".as_slice()));
    Ok(())
}

/// Where each request is refused, a line is answered by error 1, or as ever where it asks for none;
/// and the run goes on to its end.
pub fn without_memory(alloc: Global, checks: &mut Checks<'_>) -> Done {
    let (input, output) = streams_of(alloc, &SESSION)?;
    let room = Vec::with_capacity(alloc, 2 * output.len())?;
    let (mut reader, mut writer) =
        (MemorySource::new(&input, ALWAYS, ALWAYS), MemorySink::new(room, ALWAYS, ALWAYS));
    refuse_all(alloc, checks);
    let result = run(alloc, &mut reader, &mut writer);
    checks.holds("lines that ask for memory", !none_was_made(alloc));
    checks.holds("a run without memory", result.is_ok());
    let (mut wanted, mut refused) = (Vec::new(alloc), 0);
    for (_, answer) in &SESSION {
        let rest = &writer.bytes.as_slice()[wanted.len().min(writer.bytes.len())..];
        let is_refused = rest.starts_with(MEMORY.as_bytes());
        let answer = if is_refused { MEMORY } else { *answer };
        wanted.extend_from_slice(answer.as_bytes())?;
        wanted.push(b'\n')?;
        refused += if is_refused { 1 } else { 0 };
    }
    let same = writer.bytes.as_slice() == wanted.as_slice();
    checks.holds("the answers without memory", same && refused > 0);
    Ok(())
}
