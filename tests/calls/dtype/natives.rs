//! Native integers by their bounds: `NativePType` and its kin, `NativeDecimalType`, `DecimalType`,
//! `PrecisionScale`, the macros that go by a kind, bytes, visitors, and `NativeDType`.
ghost use Rattle.std.specs.Prelude.{⊤};

use crate::checks::Checks;
use crate::counted::{done, hold};
use crate::make::{Done, INTEGERS, number};
use crate::notation::dtype;
use std::alloc::Global;
use std::cmp::Ordering;
use vortex_dtype::{
    ByteBuffer, DType, DTypeError, DecimalDType, DecimalType, DecimalTypeDowncast,
    DecimalTypeUpcast, IntegerPType, NativeDType, NativeDecimalType, NativePType,
    OffsetBuilderPType, PType, PTypeDowncast, PTypeDowncastExt, PTypeUpcast, PhysicalPType,
    PrecisionScale, Sealed, ToBytes, TryFromBytes, UnsignedPType, match_each_integer_ptype,
    match_each_native_ptype, match_each_signed_integer_ptype, match_each_unsigned_integer_ptype,
    offsets,
};

pub fn run(alloc: Global, checks: &mut Checks<'_>) -> Done {
    for (ptype, least, most) in INTEGERS {
        match_each_native_ptype!(ptype, numbers(checks, ptype, least, most));
        match_each_integer_ptype!(ptype, operations(checks, ptype, most));
        let found = if least < 0 {
            match_each_signed_integer_ptype!(ptype, kind_of())
        } else {
            match_each_unsigned_integer_ptype!(ptype, unsigned_kind_of())
        };
        hold!(checks; found == ptype, match_each_integer_ptype!(ptype, physical_kind()) == ptype);
    }
    hold!(checks; offset_kind::<u32>() == PType::U32 && offset_kind::<u64>() == PType::U64);
    hold!(checks; offset_kind::<i32>() == PType::I32 && offset_kind::<i64>() == PType::I64);
    hold!(checks; offset_number(-5i32) == -5 && offset_number(5u64) == 5, handed_on(9u8) == 9);
    hold!(checks; handed_on(-9i64) == -9);
    hold!(checks; NativeDecimalType::to_i128(i64::MIN) == i128::from(i64::MIN));
    hold!(checks; PrecisionScale::<i128>::new(1, 0).is_valid(9));
    hold!(checks; PrecisionScale::new(1, 0).is_valid(0i128));
    hold!(checks; !PrecisionScale::<i128>::new(1, 0).is_valid(10));
    hold!(checks; !PrecisionScale::<i128>::new(1, 0).is_valid(-10));
    for (ptype, number, bytes) in BYTES {
        match_each_integer_ptype!(ptype, bytes_of(checks, number, bytes))?;
    }
    dtypes(alloc, checks)?;
    decimal_types(alloc, checks)?;
    each_decimal::<i8>(checks, DecimalType::I8, "i8", [99, -99], [100, -100])?;
    each_decimal::<i16>(checks, DecimalType::I16, "i16", [9_999, -9_999], [10_000, -10_000])?;
    let (most, next) = (999_999_999i32, 1_000_000_000i32);
    each_decimal::<i32>(checks, DecimalType::I32, "i32", [most, -most], [next, -next])?;
    let most = 999_999_999_999_999_999i64;
    each_decimal::<i64>(checks, DecimalType::I64, "i64", [most, -most], [most + 1, -most - 1])?;
    let most = 99_999_999_999_999_999_999_999_999_999_999_999_999i128;
    each_decimal::<i128>(checks, DecimalType::I128, "i128", [most, -most], [most + 1, i128::MIN])
}

/// `T` is of the kind, and has the numbers from the least to the most.
fn numbers<T: NativePType>(checks: &mut Checks<'_>, ptype: PType, least: i128, most: i128) {
    let (made, name): (Made, &str) = (T::upcast(7), ptype.as_str());
    hold!(checks; T::ptype() == ptype, made.name == name && made.input == 7);
    hold!(checks; T::downcast(Asked) == name && Asked.downcast::<T>() == name);
    for number in [least, 0, 7, most] {
        hold!(checks; T::of(number).is_some_and(|it| it.get() == number));
    }
    hold!(checks; T::of(least - 1).is_none() && T::of(most + 1).is_none());
    let (Some(first), Some(last)) = (T::of(least), T::of(most)) else {
        checks.holds("NativePType::of the ends", false);
        return;
    };
    for (one, other, wanted) in [
        (first, last, Ordering::Less),
        (last, last, Ordering::Equal),
        (last, first, Ordering::Greater),
    ] {
        hold!(checks; one.total_compare(other) == wanted);
        hold!(checks; one.is_eq(other) == (wanted == Ordering::Equal));
    }
}

/// The greatest number, one less than it, and how many bits of seven are set.
fn operations<T: IntegerPType>(checks: &mut Checks<'_>, ptype: PType, most: i128) {
    hold!(checks; T::ptype() == ptype && i128::from(T::max_value_as_u64()) == most);
    hold!(checks; T::max_value().saturating_sub(T::one()).get() == most - 1);
    hold!(checks; T::of(7).is_some_and(|it| it.count_ones() == 3));
}

/// The integer type.
fn kind_of<T: IntegerPType>() -> PType {
    T::ptype()
}

/// The kind, where no number is below zero.
fn unsigned_kind_of<T: UnsignedPType>() -> PType {
    T::ptype()
}

/// The kind of offsets.
fn offset_kind<T: OffsetBuilderPType>() -> PType {
    T::ptype()
}

/// The number of an offset, by the trait that nobody else implements.
fn offset_number<T: NativePType + offsets::Sealed>(offset: T) -> i128 {
    offset.get()
}

/// The kind of what stores it.
fn physical_kind<T: PhysicalPType>() -> PType {
    T::Physical::ptype()
}

/// Hands on a value of a type that is sealed.
fn handed_on<T: Sealed>(value: T) -> T {
    value
}

/// Says as which kind it was taken.
#[derive(Drop)]
struct Asked;

impl PTypeDowncast for Asked {
    type Output = &'static str;

    ghost can_downcast = { λ _ _. ⊤ };

    ghost downcast_gives = { λ _ _ _. ⊤ };

    fn into_u8(self) -> &'static str { "u8" }
    fn into_u16(self) -> &'static str { "u16" }
    fn into_u32(self) -> &'static str { "u32" }
    fn into_u64(self) -> &'static str { "u64" }
    fn into_i8(self) -> &'static str { "i8" }
    fn into_i16(self) -> &'static str { "i16" }
    fn into_i32(self) -> &'static str { "i32" }
    fn into_i64(self) -> &'static str { "i64" }
}

impl DecimalTypeDowncast for Asked {
    type Output = &'static str;

    ghost can_downcast = { λ _ _. ⊤ };

    ghost downcast_gives = { λ _ _ _. ⊤ };

    fn into_i8(self) -> &'static str { "i8" }
    fn into_i16(self) -> &'static str { "i16" }
    fn into_i32(self) -> &'static str { "i32" }
    fn into_i64(self) -> &'static str { "i64" }
    fn into_i128(self) -> &'static str { "i128" }
}

/// Keeps from which kind it was made, and from what.
#[derive(Drop)]
struct Made {
    name: &'static str,
    input: u8,
}

impl PTypeUpcast for Made {
    type Input = u8;

    ghost can_upcast = { λ _ _. ⊤ };

    ghost upcast_gives = { λ _ _ _. ⊤ };

    fn from_u8(input: u8) -> Made { Made { name: "u8", input } }
    fn from_u16(input: u8) -> Made { Made { name: "u16", input } }
    fn from_u32(input: u8) -> Made { Made { name: "u32", input } }
    fn from_u64(input: u8) -> Made { Made { name: "u64", input } }
    fn from_i8(input: u8) -> Made { Made { name: "i8", input } }
    fn from_i16(input: u8) -> Made { Made { name: "i16", input } }
    fn from_i32(input: u8) -> Made { Made { name: "i32", input } }
    fn from_i64(input: u8) -> Made { Made { name: "i64", input } }
}

impl DecimalTypeUpcast for Made {
    type Input = u8;

    ghost can_upcast = { λ _ _. ⊤ };

    ghost upcast_gives = { λ _ _ _. ⊤ };

    fn from_i8(input: u8) -> Made { Made { name: "i8", input } }
    fn from_i16(input: u8) -> Made { Made { name: "i16", input } }
    fn from_i32(input: u8) -> Made { Made { name: "i32", input } }
    fn from_i64(input: u8) -> Made { Made { name: "i64", input } }
    fn from_i128(input: u8) -> Made { Made { name: "i128", input } }
}

/// Numbers of kinds, and their bytes, the least first.
const BYTES: [(PType, i128, &[u8]); 14] = [
    (PType::U8, 0xfe, &[0xfe]),
    (PType::U16, 0x0102, &[2, 1]),
    (PType::U16, 0xfffe, &[0xfe, 255]),
    (PType::U32, 0x0102_0304, &[4, 3, 2, 1]),
    (PType::U32, 0xffff_fffe, &[0xfe, 255, 255, 255]),
    (PType::U64, 0x0102_0304_0506_0708, &[8, 7, 6, 5, 4, 3, 2, 1]),
    (PType::U64, 0xffff_ffff_ffff_fffe, &[0xfe, 255, 255, 255, 255, 255, 255, 255]),
    (PType::U64, 18_446_744_073_709_551_615, &[255; 8]),
    (PType::I8, -2, &[0xfe]),
    (PType::I16, -2, &[0xfe, 255]),
    (PType::I32, 0x0102_0304, &[4, 3, 2, 1]),
    (PType::I32, -2, &[0xfe, 255, 255, 255]),
    (PType::I32, -2_147_483_648, &[0, 0, 0, 0x80]),
    (PType::I64, -2, &[0xfe, 255, 255, 255, 255, 255, 255, 255]),
];

/// The number is written as these bytes, and read from them, and from no fewer and no more.
fn bytes_of<T: NativePType + ToBytes + TryFromBytes>(
    checks: &mut Checks<'_>,
    number: i128,
    wanted: &[u8],
) -> Done {
    let Some(native) = T::of(number) else {
        checks.holds("NativePType::of what has bytes", false);
        return Ok(());
    };
    let (bytes, width) = native.to_le_bytes();
    hold!(checks; width == wanted.len() && &bytes[..width] == wanted);
    hold!(checks; T::try_from_le_bytes(wanted)?.get() == number);
    for length in [0, wanted.len() - 1, wanted.len() + 1, 9] {
        let answer = T::try_from_le_bytes(&[0xfeu8; 9][..length]);
        checks.refused("try_from_le_bytes of another length", answer, DTypeError::Length)?;
    }
    Ok(())
}

/// The type of a column of `T`.
fn dtype_of<T: NativeDType>(alloc: Global) -> Result<DType, DTypeError> {
    Ok(T::dtype(alloc)?)
}

fn dtypes(alloc: Global, checks: &mut Checks<'_>) -> Done {
    for (ptype, _, _) in INTEGERS {
        let found = match_each_integer_ptype!(ptype, dtype_of(alloc))?;
        hold!(checks; found == number(ptype));
    }
    for (found, wanted) in [
        (dtype_of::<bool>(alloc)?, "bool"),
        (dtype_of::<&str>(alloc)?, "utf8"),
        (dtype_of::<String>(alloc)?, "utf8"),
        (dtype_of::<&[u8]>(alloc)?, "binary"),
        (dtype_of::<ByteBuffer>(alloc)?, "binary"),
        (dtype_of::<Option<i32>>(alloc)?, "i32?"),
        (dtype_of::<Option<Option<i32>>>(alloc)?, "i32?"),
        (dtype_of::<Vec<u8>>(alloc)?, "list(u8)"),
        (dtype_of::<Option<Vec<Option<String>>>>(alloc)?, "list(utf8?)?"),
        (dtype_of::<Vec<Vec<bool>>>(alloc)?, "list(list(bool))"),
    ] {
        checks.holds(wanted, found == dtype(alloc, wanted)?);
    }
    Ok(())
}

/// Each type of integers, how many bytes a value takes, the most digits of which it has each
/// number, how it is written, and the integer type that it is of.
const TYPES: [(DecimalType, usize, u8, &str, Option<PType>); 6] = [
    (DecimalType::I8, 1, 2, "I8", Some(PType::I8)),
    (DecimalType::I16, 2, 4, "I16", Some(PType::I16)),
    (DecimalType::I32, 4, 9, "I32", Some(PType::I32)),
    (DecimalType::I64, 8, 18, "I64", Some(PType::I64)),
    (DecimalType::I128, 16, 38, "I128", None),
    (DecimalType::I256, 32, 76, "I256", None),
];

fn decimal_types(alloc: Global, checks: &mut Checks<'_>) -> Done {
    let mut least = 1;
    for (stored, bytes, most, written, ptype) in TYPES {
        hold!(checks; stored.byte_width() == bytes && stored.clone()? == stored);
        hold!(checks; format!(in alloc; "{stored:?}")?.as_str() == written);
        for precision in [least, most] {
            let dtype = DecimalDType::new(precision, 0);
            hold!(checks; DecimalType::smallest_decimal_value_type(&dtype) == stored);
            for (other, width, _, _, _) in TYPES {
                hold!(checks; other.is_compatible_decimal_value_type(dtype) == (width >= bytes));
            }
        }
        least = most + 1;
        if let Some(ptype) = ptype {
            hold!(checks; DecimalType::try_from(ptype)? == stored);
        }
    }
    let unsigned = INTEGERS[..4].iter().map(|(ptype, _, _)| *ptype);
    for ptype in unsigned.chain([PType::F16, PType::F32, PType::F64]) {
        let answer = DecimalType::try_from(ptype);
        checks.refused("try_from no signed integers", answer, DTypeError::DecimalShape)?;
    }
    Ok(())
}

/// What `D` stores: it has these two, whose digits it has each number of, and not the next two.
fn each_decimal<D: NativeDecimalType>(
    checks: &mut Checks<'_>,
    stored: DecimalType,
    name: &str,
    ends: [D; 2],
    next: [D; 2],
) -> Done {
    let most = TYPES.iter().find(|it| it.0 == stored).map_or(0, |it| it.2);
    let made: Made = D::upcast(7);
    hold!(checks; D::decimal_type() == stored && D::downcast(Asked) == name);
    hold!(checks; made.name == name && made.input == 7);
    hold!(checks; ends[0].to_i128() == 10i128.pow(u32::from(most)) - 1 && ends[1].to_i128() < 0);
    for (precision, scale) in [(1, 0), (2, 1), (most, 2), (most, -76), (1, 76)] {
        let shape = PrecisionScale::<D>::try_new(precision, scale)?;
        let dtype = DecimalDType::from(shape.clone()?);
        hold!(checks; dtype.precision() == precision && dtype.scale() == scale);
        for made in [
            PrecisionScale::<D>::new(precision, scale),
            PrecisionScale::<D>::new_unchecked(precision, scale),
            PrecisionScale::<D>::try_from(&dtype)?,
            shape.clone()?,
            shape,
        ] {
            hold!(checks; made.precision() == precision && made.scale() == scale);
        }
    }
    for (precision, scale) in [(most + 1, 0), (0, 0), (77, 0), (1, 77), (1, -77)] {
        let answer = PrecisionScale::<D>::try_new(precision, scale);
        checks.refused("PrecisionScale::try_new out of range", answer, DTypeError::DecimalShape)?;
    }
    let answer = PrecisionScale::<D>::try_from(&DecimalDType::new(most + 1, 0));
    checks.refused("PrecisionScale try_from of a wider one", answer, DTypeError::DecimalShape)?;
    let has = |value| PrecisionScale::<D>::new(most, 0).is_valid(value);
    let ([most, least], [above, below]) = (ends, next);
    done!(checks; has(most) && has(least) && !has(above) && !has(below))
}
