//! Sources and sinks by themselves: those in memory, and those of any reader and writer; short
//! texts, and lines that a session answers without them.

use crate::checks::Checks;
use std::alloc::{AllocError, Global};
use std::io;
use std::io::{Error, ErrorKind, Read, Write};
use vortex_table::run::{
    LineHandler, MemorySink, MemorySource, Response, RunError, Session, ShortText, Sink, Source,
    Tap, run,
};

/// More than any run reads or writes at once, and more often.
const ALWAYS: usize = usize::MAX;

const LINES: &[u8] = b"{\"cmd\":\"compact\"}\n{}\n";

const ANSWERS: &[u8] =
    b"{\"error\":19,\"name\":\"NoTable\"}\n{\"error\":18,\"name\":\"BadLine\"}\n";

pub fn sources_and_sinks(alloc: Global, checks: &mut Checks<'_>) -> Result<(), AllocError> {
    let mut source = MemorySource::new(b"abcdef", 4, 4);
    checks.holds("no read", !source.ended() && !source.failed());
    // Without room, of four bytes, the rest, the end, and one that fails.
    for (room, wanted, ended, failed) in [
        (0, Some(""), false, false),
        (10, Some("abcd"), false, false),
        (10, Some("ef"), false, false),
        (10, Some(""), true, false),
        (10, None, true, true),
    ] {
        reads(checks, &mut source, room, wanted);
        checks.holds("ended and failed", source.ended() == ended && source.failed() == failed);
    }
    checks.holds("what was read", source.read_so_far() == b"abcdef".as_slice());
    sink_in_memory(alloc, checks)?;
    failing_flush(alloc, checks)?;
    taps(checks);
    runs_on_taps(alloc, checks)
}

/// Counts a read of these bytes, or one that fails.
fn reads<S: Source>(checks: &mut Checks<'_>, source: &mut S, room: usize, wanted: Option<&str>) {
    let mut bytes = [0u8; 10];
    let right = match (source.read(&mut bytes[..room]), wanted) {
        (Ok(count), Some(text)) => &bytes[..count] == text.as_bytes(),
        (Err(_), None) => true,
        _ => false,
    };
    checks.holds("a read", right);
}

/// Counts a write that takes so many bytes, or one that fails, and whether one failed so far.
fn writes<S: Sink>(
    checks: &mut Checks<'_>,
    sink: &mut S,
    bytes: &[u8],
    (wanted, failed): (Option<usize>, bool),
) {
    let found = sink.write(bytes).ok();
    checks.holds("a write", found == wanted && sink.failed() == failed);
}

/// Counts a flush, and whether a call failed so far.
fn flushes<S: Sink>(checks: &mut Checks<'_>, sink: &mut S, is_good: bool, failed: bool) {
    checks.holds("a flush", sink.flush().is_ok() == is_good && sink.failed() == failed);
}

/// Writes into memory, of at most three bytes, of which two are good with the flushes.
fn sink_in_memory(alloc: Global, checks: &mut Checks<'_>) -> Result<(), AllocError> {
    let mut sink = MemorySink::new(Vec::from_slice(alloc, b"x")?, 3, 2);
    writes(checks, &mut sink, b"abcde", (Some(3), false));
    checks.holds("what it took", sink.bytes.as_slice() == b"xabc".as_slice());
    flushes(checks, &mut sink, true, false);
    writes(checks, &mut sink, b"de", (None, true));
    flushes(checks, &mut sink, false, true);
    checks.holds("nothing behind it", sink.bytes.as_slice() == b"xabc".as_slice());
    let mut nothing = MemorySink::new(Vec::new(alloc), 0, ALWAYS);
    writes(checks, &mut nothing, b"", (Some(0), false));
    writes(checks, &mut nothing, b"a", (Some(0), true));
    Ok(())
}

/// All is taken, and the flush fails: of a run that reads nothing too.
fn failing_flush(alloc: Global, checks: &mut Checks<'_>) -> Result<(), AllocError> {
    for (input, output) in [(LINES, ANSWERS), (b"".as_slice(), b"".as_slice())] {
        let mut reader = MemorySource::new(input, ALWAYS, ALWAYS);
        let mut writer = MemorySink::failing_flush(Vec::new(alloc));
        let result = run(alloc, &mut reader, &mut writer);
        checks.holds("a run whose flush fails", result == Err(RunError::Write));
        checks.holds("what it wrote", writer.bytes.as_slice() == output);
        checks.holds("what it says", writer.failed() && reader.ended() && !reader.failed());
    }
    let mut sink = MemorySink::failing_flush(Vec::new(alloc));
    writes(checks, &mut sink, LINES, (Some(LINES.len()), false));
    flushes(checks, &mut sink, false, true);
    Ok(())
}

/// A reader of so many letters, and a writer, whose calls are counted. Each call passes two bytes
/// on at most, and the call of one number fails.
#[derive(Drop)]
struct Counted {
    left: usize,
    taken: usize,
    calls: usize,
    fails_at: usize,
}

impl Counted {
    fn new(left: usize, fails_at: usize) -> Counted {
        Counted { left, taken: 0, calls: 0, fails_at }
    }

    fn call(&mut self) -> io::Result<()> {
        self.calls += 1;
        if self.calls == self.fails_at {
            return Err(Error::from(ErrorKind::Interrupted));
        }
        Ok(())
    }
}

// Nothing here is proved, so the ghost members say nothing.
impl Read for Counted {
    fn read(&mut self, buf: &mut [u8]) -> io::Result<usize> {
        self.call()?;
        let n = self.left.min(buf.len()).min(2);
        for place in 0..n {
            buf[place] = b'a' + (self.left - place) as u8;
        }
        self.left -= n;
        Ok(n)
    }
}

impl Write for Counted {
    fn write(&mut self, buf: &[u8]) -> io::Result<usize> {
        self.call()?;
        let n = buf.len().min(2);
        self.taken += n;
        Ok(n)
    }

    fn flush(&mut self) -> io::Result<()> {
        self.call()
    }
}

/// Each call on a tap is one of what is below it, and is answered as that was; nothing fails that
/// didn't fail there.
fn taps(checks: &mut Checks<'_>) {
    let mut reader = Counted::new(3, 4);
    read_tap(checks, Tap::new(&mut reader));
    checks.holds("as many reads below", reader.calls == 5);
    let mut writer = Counted::new(0, 3);
    write_tap(checks, Tap::new(&mut writer));
    checks.holds("as many writes below", writer.calls == 4 && writer.taken == 3);
}

/// Of three letters, where the fourth call fails.
fn read_tap(checks: &mut Checks<'_>, mut source: Tap<&mut Counted>) {
    for (wanted, ended) in [("dc", false), ("b", false), ("", true)] {
        reads(checks, &mut source, 8, Some(wanted));
        checks.holds("its end", source.ended() == ended && !Source::failed(&source));
    }
    let failing = source.read(&mut [0u8; 8]);
    let is_interrupted = failing.is_err_and(|error| error.kind() == ErrorKind::Interrupted);
    checks.holds("its failure", is_interrupted && Source::failed(&source));
    reads(checks, &mut source, 8, Some(""));
    checks.holds("a read behind it", Source::failed(&source));
}

/// Of a writer whose third call fails.
fn write_tap(checks: &mut Checks<'_>, mut sink: Tap<&mut Counted>) {
    writes(checks, &mut sink, b"abc", (Some(2), false));
    flushes(checks, &mut sink, true, false);
    flushes(checks, &mut sink, false, true);
    writes(checks, &mut sink, b"d", (Some(1), true));
}

/// A run on taps makes no call behind one that failed, and one flush at its end.
fn runs_on_taps(alloc: Global, checks: &mut Checks<'_>) -> Result<(), AllocError> {
    let mut writer = Tap::new(Vec::new(alloc));
    let result = run(alloc, &mut Tap::new(LINES), &mut writer);
    checks.holds("a run on taps", result.is_ok() && !Sink::failed(&writer));
    // Five letters are a bad line: three reads, and one that finds the end.
    for fails_at in 1..=6 {
        let (mut reader, mut writer) = (Counted::new(5, fails_at), Counted::new(0, ALWAYS));
        let result = run(alloc, &mut Tap::new(&mut reader), &mut Tap::new(&mut writer));
        let told = if fails_at <= 4 {
            result == Err(RunError::Read) && reader.calls == fails_at
        } else {
            result.is_ok() && reader.calls == 4
        };
        checks.holds_at("a run whose reader fails at", fails_at, told);
    }
    let answer = b"{\"error\":18,\"name\":\"BadLine\"}\n".len();
    // Two bytes a call, and the flush.
    let calls = (answer + 1) / 2 + 1;
    for fails_at in 1..=calls + 2 {
        let (mut reader, mut writer) = (Counted::new(5, ALWAYS), Counted::new(0, fails_at));
        let result = run(alloc, &mut Tap::new(&mut reader), &mut Tap::new(&mut writer));
        let told = if fails_at <= calls {
            result == Err(RunError::Write) && writer.calls == fails_at
        } else {
            result.is_ok() && writer.calls == calls && writer.taken == answer
        };
        checks.holds_at("a run whose writer fails at", fails_at, told);
    }
    Ok(())
}

/// A text that takes no memory.
fn short_texts(checks: &mut Checks<'_>) {
    let mut text = ShortText::new();
    checks.holds("an empty text", text.is_empty() && text.len() == 0 && text.as_bytes().is_empty());
    for bytes in [b"".as_slice(), b"ab".as_slice(), b"\n\xff".as_slice()] {
        text.push_bytes(bytes);
    }
    checks.holds("a text", text.as_bytes() == b"ab\n\xff".as_slice() && text.len() == 4);
    text.push_bytes(&[b'c'; 92]);
    let all = text.as_bytes();
    let same = &all[..4] == b"ab\n\xff".as_slice() && all[4..].iter().all(|it| *it == b'c');
    checks.holds("a full text", same && all.len() == 96 && text.len() == 96 && !text.is_empty());
}

const CREATE: &str = "{\"cmd\":\"create\",\"dtype\":{\"kind\":\"struct\",\"names\":[\"a\"],\
    \"children\":[{\"kind\":\"i32\"}]},\"length\":16}";

const DESCRIBE: &str = r#"{"cmd":"describe","path":["a"],"group":0}"#;

const APPEND: &str = "{\"cmd\":\"append\",\"dtype\":{\"kind\":\"struct\",\"names\":[\"a\"],\
    \"children\":[{\"kind\":\"i32\"}]},\"rows\":[[7]]}";

const DESCRIBED: &str = "{\"constant\":[\"exact\",true],\"max\":[\"exact\",7],\
    \"min\":[\"exact\",7],\"null_count\":[\"exact\",0],\"ok\":true,\"sum\":[\"exact\",7]}\n";

/// Lines without LF are answered one at a time, and what the buffer held counts for nothing: the
/// answer is in the buffer with a LF, is a short text, or is that all went well.
pub fn sessions(alloc: Global, checks: &mut Checks<'_>) -> Result<(), AllocError> {
    short_texts(checks);
    let mut session = Session::new(alloc);
    let mut out = Vec::from_slice(alloc, b"left over")?;
    for (i, (line, wanted)) in [
        (DESCRIBE, r#"{"error":19,"name":"NoTable"}"#),
        (CREATE, ""),
        (DESCRIBE, r#"{"error":8,"name":"NoSuchGroup"}"#),
        (APPEND, ""),
        (DESCRIBE, DESCRIBED),
        (CREATE, ""),
        ("", r#"{"error":18,"name":"BadLine"}"#),
    ]
    .into_iter()
    .enumerate()
    {
        let right = match session.answer(alloc, line.as_bytes(), &mut out) {
            Response::Written => i == 4 && out.as_slice() == wanted.as_bytes(),
            Response::Short(text) => i != 4 && text.as_bytes() == wanted.as_bytes(),
            Response::Done => wanted.is_empty(),
            Response::NoMemory => false,
        };
        checks.holds_at("the answer to line", i, right);
    }
    Ok(())
}
