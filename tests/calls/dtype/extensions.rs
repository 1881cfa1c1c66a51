//! Extension types, with a meaning and without. The meanings are only run, so their ghost members
//! are left open.

use crate::checks::Checks;
use crate::counted::{done, hold};
use crate::make::{Done, WITH, WITHOUT, extension};
use crate::notation::dtype;
use std::alloc::{AllocError, Global};
use vortex_dtype::{
    BufferString, ByteBuffer, CloneExtVTable, DType, DTypeError, ExtDType, ExtDTypeRef,
    ExtDTypeRefExt, ExtVTable, ForeignExtDType, ForeignExtMetadata, PType,
};

/// Calls each item on extension types.
pub fn run(alloc: Global, checks: &mut Checks<'_>) -> Done {
    references(alloc, checks)?;
    meanings(alloc, checks)?;
    made(alloc, checks)?;
    downcast(alloc, checks)?;
    foreign(alloc, checks)
}

/// How long a step of a clock is.
#[derive(Drop, Clone, Copy, PartialEq, Eq)]
enum Step {
    Second,
    Day,
    /// Reading it takes more memory than there is.
    Eternity,
}

/// Steps since some day: seconds are numbers of 64 bits, and days of 32 or 64.
#[derive(Drop, Default)]
struct Clock;

impl ExtVTable for Clock {
    type Metadata = Step;

    ghost name = { ? };

    ghost writes = { ? };

    ghost reads = { ? };

    ghost fits = { ? };

    ghost reads_what_it_writes = { ? };

    ghost outer_aside = { ? };

    fn id(&self) -> &str {
        "clock"
    }

    fn serialize_metadata(&self, alloc: Global, metadata: &Step) -> Result<ByteBuffer, AllocError> {
        let letter = match metadata {
            Step::Second => b's',
            Step::Day => b'd',
            Step::Eternity => b'e',
        };
        ByteBuffer::copy_from_slice(alloc, &[letter])
    }

    fn deserialize_metadata(&self, _alloc: Global, bytes: &ByteBuffer) -> Result<Step, DTypeError> {
        match bytes.as_slice() {
            b"s" => Ok(Step::Second),
            b"d" => Ok(Step::Day),
            b"e" => Err(DTypeError::Memory),
            _ => Err(DTypeError::Malformed),
        }
    }

    fn fits(&self, metadata: &Step, storage: &DType) -> bool {
        match storage.as_ptype_opt() {
            Some(PType::I64) => true,
            Some(PType::I32) => *metadata == Step::Day,
            _ => false,
        }
    }
}

fn references(alloc: Global, checks: &mut Checks<'_>) -> Done {
    let (plain, nullable) = (dtype(alloc, "i64")?, dtype(alloc, "i64?")?);
    let made = extension(alloc, "geo.point", &[0, 255], plain.clone()?)?;
    let wide = made.with_nullability(WITH);
    checks.stays("ExtDTypeRef after with_nullability", *made.storage_dtype() == plain);
    let wide = wide?;
    for (found, storage, nullability) in [(&made, &plain, WITHOUT), (&wide, &nullable, WITH)] {
        hold!(checks; found.id().as_str() == "geo.point" && *found.storage_dtype() == *storage);
        hold!(checks; found.serialize_metadata().as_slice() == [0, 255].as_slice());
        hold!(checks; found.nullability() == nullability);
        hold!(checks; found.is_nullable() == (nullability == WITH), found.clone()? == *found);
    }
    let back = wide.with_nullability(WITHOUT)?;
    done!(checks; back == made && back != wide)
}

// What every meaning can be asked, through its bound.
fn writes_and_reads<V: ExtVTable>(
    alloc: Global,
    vtable: &V,
    metadata: &V::Metadata,
    bytes: &[u8],
) -> Result<V::Metadata, DTypeError> {
    let written = vtable.serialize_metadata(alloc, metadata)?;
    if written.as_slice() != bytes {
        return Err(DTypeError::Malformed);
    }
    vtable.deserialize_metadata(alloc, &written)
}

fn meanings(alloc: Global, checks: &mut Checks<'_>) -> Done {
    hold!(checks; Clock.id() == "clock");
    hold!(checks; writes_and_reads(alloc, &Clock, &Step::Day, b"d")? == Step::Day);
    hold!(checks; writes_and_reads(alloc, &Clock, &Step::Second, b"s")? == Step::Second);
    let bytes = ByteBuffer::copy_from_slice(alloc, b"x")?;
    let refused = Clock.deserialize_metadata(alloc, &bytes);
    checks.refused("ExtVTable: metadata that it doesn't read", refused, DTypeError::Malformed)?;
    for (step, storage, wanted) in [
        (Step::Second, "i64?", true),
        (Step::Day, "i32", true),
        (Step::Second, "i32", false),
        (Step::Second, "utf8", false),
    ] {
        checks.holds(storage, Clock.fits(&step, &dtype(alloc, storage)?) == wanted);
    }
    Ok(())
}

fn made(alloc: Global, checks: &mut Checks<'_>) -> Done {
    for (step, letter, storage) in
        [(Step::Second, b"s", "i64"), (Step::Second, b"s", "i64?"), (Step::Day, b"d", "i32")]
    {
        let storage = dtype(alloc, storage)?;
        let wanted = extension(alloc, "clock", letter, storage.clone()?)?;
        let made: ExtDType<Clock> = ExtDType::try_new(step, storage.clone()?)?;
        for made in [ExtDType::try_with_vtable(Clock, step, storage.clone()?)?, made] {
            hold!(checks; made.id() == "clock" && made.vtable().id() == "clock");
            hold!(checks; *made.metadata() == step, *made.storage_dtype() == storage);
            hold!(checks; made.erased(alloc)? == wanted);
            hold!(checks; made.serialize_metadata(alloc)?.as_slice() == letter.as_slice());
            let wide = made.with_nullability(WITH)?;
            hold!(checks;
                *wide.metadata() == step && *wide.storage_dtype() == storage.as_nullable()?,
                *wide.with_nullability(storage.nullability())?.storage_dtype() == storage,
            );
        }
    }
    for storage in ["i32", "utf8"] {
        let storage = dtype(alloc, storage)?;
        let refused = ExtDType::try_with_vtable(Clock, Step::Second, storage.clone()?);
        checks.refused("try_with_vtable: the storage doesn't fit", refused, DTypeError::Plugin)?;
        let refused: Result<ExtDType<Clock>, DTypeError> = ExtDType::try_new(Step::Second, storage);
        checks.refused("try_new: the storage doesn't fit", refused, DTypeError::Plugin)?;
    }
    Ok(())
}

/// Extensions, and the step of the clocks that they are, if any. An id, metadata, no metadata or a
/// storage can be another one.
const CLOCKS: [(&str, Option<Step>); 6] = [
    ("clock'd'(i32?)", Some(Step::Day)),
    ("clock's'(i64)", Some(Step::Second)),
    ("clocks's'(i64)", None),
    ("clock'x'(i64)", None),
    ("clock''(i64)", None),
    ("clock's'(i32)", None),
];

fn downcast(alloc: Global, checks: &mut Checks<'_>) -> Done {
    for (text, wanted) in CLOCKS {
        let made = dtype(alloc, text)?.into_extension();
        let is_so = match made.try_downcast(alloc, Clock)? {
            Some(found) => {
                Some(*found.metadata()) == wanted
                    && found.storage_dtype() == made.storage_dtype()
                    && found.erased(alloc)? == made
            }
            None => wanted.is_none(),
        };
        checks.holds(text, is_so);
    }
    // Want of memory is passed on.
    let made = dtype(alloc, "clock'e'(i64)")?.into_extension();
    done!(checks; made.try_downcast(alloc, Clock).is_err())
}

fn foreign(alloc: Global, checks: &mut Checks<'_>) -> Done {
    let bytes = || ByteBuffer::copy_from_slice(alloc, b"any");
    let named = |id: &str| -> Result<ForeignExtDType, DTypeError> {
        Ok(ForeignExtDType::new(BufferString::copy_from_str(alloc, id)?))
    };
    let (text, metadata) = (dtype(alloc, "utf8")?, ForeignExtMetadata::new(bytes()?));
    let meaning = named("unknown")?;
    let again = writes_and_reads(alloc, &meaning, &metadata, b"any")?;
    let id = BufferString::copy_from_str(alloc, "unknown")?;
    let made = ForeignExtDType::from_parts(alloc, id, bytes()?, text.clone()?)?;
    hold!(checks; meaning.fits(&metadata, &text) && meaning.fits(&metadata, &DType::Null));
    hold!(checks; DType::Extension(made) == dtype(alloc, "unknown'any'(utf8)")?);
    for (meaning, metadata) in [
        (named("unknown")?, again),
        (meaning.clone()?, metadata.clone()?),
        (meaning.clone_vtable()?, meaning.clone_metadata(&metadata)?),
    ] {
        hold!(checks; metadata.as_slice() == b"any".as_slice() && meaning.id() == "unknown");
    }
    let made = ExtDType::try_with_vtable(meaning, metadata, DType::Null)?;
    let wanted = extension(alloc, "unknown", b"any", DType::Null)?;
    hold!(checks; made.erased(alloc)? == wanted && made.clone()?.erased(alloc)? == wanted);
    // Without meaning any metadata and storage do, and the id counts.
    let made = extension(alloc, "clock", b"x", text)?;
    let Some(found) = made.try_downcast(alloc, named("clock")?)? else {
        checks.holds("try_downcast without meaning", false);
        return Ok(());
    };
    hold!(checks; found.metadata().as_slice() == b"x".as_slice() && found.erased(alloc)? == made);
    done!(checks; made.try_downcast(alloc, named("time")?)?.is_none())
}
