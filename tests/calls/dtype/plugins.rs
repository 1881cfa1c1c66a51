//! Sessions, and the plugins that they read extensions by. The plugins are only run, so their ghost
//! members are left open.

use crate::checks::Checks;
use crate::counted::{done, hold};
use crate::make::Done;
use crate::messages::message;
use crate::notation::dtype;
use std::alloc::Global;
use vortex_dtype::{ByteBuffer, DType, DTypeError, DTypeSession, ExtDTypePlugin, from_proto};

/// Calls each item on sessions and plugins.
pub fn run(alloc: Global, checks: &mut Checks<'_>) -> Done {
    plugins(alloc, checks)?;
    read(alloc, checks)?;
    refusals(alloc, checks)?;
    replaced(alloc, checks)?;
    registered(alloc, checks)
}

/// What a plugin does.
#[derive(Drop, Clone, Copy)]
enum Does {
    /// Refuses all extensions by this error.
    Refuse(DTypeError),
    /// Cuts metadata behind the first byte, and takes `!` for none.
    Cut,
    /// Keeps metadata over texts, and refuses other storages.
    OverTexts,
}

#[derive(Drop)]
struct Plugin {
    id: &'static str,
    does: Does,
    alloc: Global,
}

impl ExtDTypePlugin for Plugin {
    ghost name = { ? };

    ghost meaning = { ? };

    ghost reads_its_own = { ? };

    ghost outer_aside = { ? };

    fn id(&self) -> &str {
        self.id
    }

    fn read(&self, metadata: &[u8], storage: &DType) -> Result<ByteBuffer, DTypeError> {
        match self.does {
            Does::Refuse(error) => Err(error),
            Does::Cut => {
                let first = metadata.first().map_or(b'!', |first| *first);
                Ok(ByteBuffer::copy_from_slice(self.alloc, &[first])?)
            }
            Does::OverTexts if !storage.is_utf8() => Err(DTypeError::Malformed),
            Does::OverTexts => Ok(ByteBuffer::copy_from_slice(self.alloc, metadata)?),
        }
    }
}

fn plugins(alloc: Global, checks: &mut Checks<'_>) -> Done {
    let cutting = Plugin { id: "cut", does: Does::Cut, alloc };
    let bytes = cutting.read(b"abc", &dtype(alloc, "utf8")?)?;
    hold!(checks; cutting.id() == "cut" && bytes.as_slice() == b"a".as_slice());
    let texts = Plugin { id: "texts", does: Does::OverTexts, alloc };
    checks.refused("a plugin refuses", texts.read(b"", &DType::Null), DTypeError::Malformed)
}

/// A session with these plugins, registered in turn.
fn session<const N: usize>(
    alloc: Global,
    plugins: [(&'static str, Does); N],
) -> Result<DTypeSession, DTypeError> {
    let mut session = DTypeSession::empty(alloc);
    for (id, does) in plugins {
        session.register(Box::new(alloc, Plugin { id, does, alloc })?)?;
    }
    Ok(session)
}

/// What the message of this text means to the session.
fn read_by(alloc: Global, session: &DTypeSession, text: &str) -> Result<DType, DTypeError> {
    from_proto(alloc, &message(alloc, text)?, session)
}

/// Whether a session with plugins reads, what, and as what. The last one is read inside out.
const READ: [(bool, &str, &str); 9] = [
    (false, "cut'abc'(utf8)", "cut'abc'(utf8)"),
    (false, "cut!(utf8)", "cut''(utf8)"),
    (true, "cut'abc'(utf8)", "cut'a'(utf8)"),
    (true, "cut!(utf8)", "cut'!'(utf8)"),
    (true, "cuts'abc'(utf8)", "cuts'abc'(utf8)"),
    (true, "cu'abc'(utf8)", "cu'abc'(utf8)"),
    (true, "texts'abc'(utf8)", "texts'abc'(utf8)"),
    (true, "texts'm'(utf8?)?", "texts'm'(utf8?)"),
    (true, "cut'abc'(cut'xyz'(utf8))", "cut'a'(cut'x'(utf8))"),
];

fn read(alloc: Global, checks: &mut Checks<'_>) -> Done {
    let empty = DTypeSession::empty(alloc);
    let some = session(alloc, [("cut", Does::Cut), ("texts", Does::OverTexts)])?;
    for (has_plugins, text, wanted) in READ {
        let found = read_by(alloc, if has_plugins { &some } else { &empty }, text)?;
        checks.holds(text, found == dtype(alloc, wanted)?);
    }
    Ok(())
}

/// What stands first counts: a malformed node, or an extension that a plugin refuses.
const IN_ORDER: [(&str, DTypeError); 9] = [
    ("shut'abc'(utf8)", DTypeError::Plugin),
    ("texts'm'(u8)", DTypeError::Plugin),
    ("{a=null, b=shut''(utf8)}", DTypeError::Malformed),
    ("{a=shut''(utf8), b=null}", DTypeError::Plugin),
    ("{=shut''(utf8)}", DTypeError::Plugin),
    ("shut!(null)", DTypeError::Malformed),
    ("shut!(utf8)?", DTypeError::Malformed),
    ("shut!(utf8, utf8)", DTypeError::Malformed),
    ("{a=list(list(shut''(utf8))), b=null}", DTypeError::Plugin),
];

/// A plugin refuses by any error, and its want of memory is passed on.
fn refusals(alloc: Global, checks: &mut Checks<'_>) -> Done {
    for error in [DTypeError::Malformed, DTypeError::Width, DTypeError::Plugin] {
        let plugins = [("shut", Does::Refuse(error)), ("texts", Does::OverTexts)];
        let session = session(alloc, plugins)?;
        for (text, wanted) in IN_ORDER {
            checks.refused(text, read_by(alloc, &session, text), wanted)?;
        }
    }
    let hungry = session(alloc, [("hungry", Does::Refuse(DTypeError::Memory))])?;
    let found = read_by(alloc, &hungry, "hungry'abc'(utf8)");
    done!(checks; found.is_err_and(|error| error == DTypeError::Memory))
}

fn replaced(alloc: Global, checks: &mut Checks<'_>) -> Done {
    let shut = Does::Refuse(DTypeError::Plugin);
    let mut session = session(alloc, [("a", Does::Cut), ("b", Does::Cut), ("a", shut)])?;
    let refused = read_by(alloc, &session, "a'abc'(utf8)");
    checks.refused("a later plugin takes an earlier one's place", refused, DTypeError::Plugin)?;
    let found = read_by(alloc, &session, "b'abc'(utf8)")?;
    checks.holds("a plugin of another id stays", found == dtype(alloc, "b'a'(utf8)")?);
    session.register(Box::new(alloc, Plugin { id: "a", does: Does::OverTexts, alloc })?)?;
    let found = read_by(alloc, &session, "a'abc'(utf8)")?;
    checks.holds("the last plugin of an id reads", found == dtype(alloc, "a'abc'(utf8)")?);
    Ok(())
}

// Enough plugins that the session grows more than once.
const IDS: [&str; 6] = ["a", "b", "c", "d", "e", "f"];

// Whether the plugins of the first so many ids cut metadata, and no others do.
fn has_first(alloc: Global, session: &DTypeSession, many: usize) -> Result<bool, DTypeError> {
    for (place, id) in IDS.iter().enumerate() {
        let text = format!(in alloc; "{id}'abc'(utf8)")?;
        let found = read_by(alloc, session, text.as_str())?;
        let metadata = found.as_extension().serialize_metadata();
        if metadata.as_slice() != if place < many { b"a".as_slice() } else { b"abc" } {
            return Ok(false);
        }
    }
    Ok(true)
}

fn registered(alloc: Global, checks: &mut Checks<'_>) -> Done {
    let mut session = DTypeSession::empty(alloc);
    for (many, id) in IDS.iter().enumerate() {
        let plugin = Box::new(alloc, Plugin { id, does: Does::Cut, alloc })?;
        if let Err(refused) = session.register(plugin) {
            let is_left = has_first(alloc, &session, many)?;
            checks.stays("register without memory leaves the session", is_left);
            return Err(DTypeError::from(refused));
        }
    }
    checks.holds("register", has_first(alloc, &session, IDS.len())?);
    Ok(())
}
