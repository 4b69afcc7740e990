//! libm's operations on bit patterns, each under its own name so that a disassembly shows it.

use crate::math::generic;
use crate::math::support::hex_float::parse_any;
use crate::math::support::{Round, Status, linear_mul_reduction};

/// A value and a status as a word of 0.2.16's bits: 1 INVALID, 4 DIVIDE_BY_ZERO, 8 OVERFLOW, 16 UNDERFLOW, 32 INEXACT.
/// It means something only where floor, ceil, trunc, sqrt, fma and env are the given text; see `STATUSES`.
pub type Answer<Word> = (Word, u32);

/// Whether the statuses are those of 0.2.16: the build says so where it has the given text.
pub const STATUSES: bool = cfg!(given_statuses);

/// By name, as a later text has other bits. No routine here raises two at once.
fn number(status: Status) -> u32 {
    let known = [
        (Status::OK, 0),
        (Status::INVALID, 1),
        (Status::DIVIDE_BY_ZERO, 4),
        (Status::OVERFLOW, 8),
        (Status::UNDERFLOW, 16),
        (Status::INEXACT, 32),
    ];
    known.iter().find(|(one, _)| *one == status).map_or(u32::MAX, |(_, number)| *number)
}

macro_rules! with_status {
    ($name:ident, $word:ty, $float:ty, ($($operand:ident),+), $call:expr) => {
        #[inline(never)]
        pub fn $name($($operand: $word),+) -> Answer<$word> {
            let result: crate::math::support::FpResult<$float> = $call($(<$float>::from_bits($operand)),+);
            (result.val.to_bits(), number(result.status))
        }
    };
}
with_status!(sqrt64, u64, f64, (x), |x| generic::sqrt_round(x, Round::Nearest));
with_status!(sqrt32, u32, f32, (x), |x| generic::sqrt_round(x, Round::Nearest));
with_status!(floor64, u64, f64, (x), generic::floor_status);
with_status!(floor32, u32, f32, (x), generic::floor_status);
with_status!(ceil64, u64, f64, (x), generic::ceil_status);
with_status!(ceil32, u32, f32, (x), generic::ceil_status);
with_status!(trunc64, u64, f64, (x), generic::trunc_status);
with_status!(trunc32, u32, f32, (x), generic::trunc_status);
with_status!(fma64, u64, f64, (x, y, z), |x, y, z| generic::fma_round(x, y, z, Round::Nearest));
// A later text, as the release's own file is not given.
with_status!(fma32, u32, f32, (x, y, z), |x, y, z| generic::fma_wide_round(x, y, z, Round::Nearest));

macro_rules! value_alone {
    ($name:ident, $word:ty, $float:ty, ($($operand:ident),+), $call:expr) => {
        #[inline(never)]
        pub fn $name($($operand: $word),+) -> $word {
            $call($(<$float>::from_bits($operand)),+).to_bits()
        }
    };
}
value_alone!(fmod64, u64, f64, (x, y), generic::fmod);
value_alone!(fmod32, u32, f32, (x, y), generic::fmod);
value_alone!(nextafter64, u64, f64, (x, y), crate::math::nextafter);
// A later text, as for all of modf, frexp, ilogb and nextafter at 32.
value_alone!(nextafter32, u32, f32, (x, y), crate::math::nextafterf);

/// scalbn has no status in libm.
#[inline(never)]
pub fn scalbn64(x: u64, n: i32) -> u64 {
    generic::scalbn(f64::from_bits(x), n).to_bits()
}
#[inline(never)]
pub fn scalbn32(x: u32, n: i32) -> u32 {
    generic::scalbn(f32::from_bits(x), n).to_bits()
}
/// The remainder and the quotient.
#[inline(never)]
pub fn remquo64(x: u64, y: u64) -> (u64, i32) {
    let (rest, quotient) = crate::math::remquo(f64::from_bits(x), f64::from_bits(y));
    (rest.to_bits(), quotient)
}
/// The fraction and the whole number.
#[inline(never)]
pub fn modf64(x: u64) -> (u64, u64) {
    let (fraction, whole) = crate::math::modf(f64::from_bits(x));
    (fraction.to_bits(), whole.to_bits())
}
#[inline(never)]
pub fn modf32(x: u32) -> (u32, u32) {
    let (fraction, whole) = crate::math::modff(f32::from_bits(x));
    (fraction.to_bits(), whole.to_bits())
}
/// The fraction and the exponent.
#[inline(never)]
pub fn frexp64(x: u64) -> (u64, i32) {
    let (fraction, exponent) = crate::math::frexp(f64::from_bits(x));
    (fraction.to_bits(), exponent)
}
#[inline(never)]
pub fn frexp32(x: u32) -> (u32, i32) {
    let (fraction, exponent) = generic::frexp(f32::from_bits(x));
    (fraction.to_bits(), exponent)
}
#[inline(never)]
pub fn ilogb64(x: u64) -> i32 {
    crate::math::ilogb(f64::from_bits(x))
}
#[inline(never)]
pub fn ilogb32(x: u32) -> i32 {
    generic::ilogb(f32::from_bits(x))
}
/// Panics where libm's does: y above a quarter of the word's range, or x not below twice y.
#[inline(never)]
pub fn reduce64(x: u64, shift: u32, y: u64) -> u64 {
    linear_mul_reduction(x, shift, y)
}
#[inline(never)]
pub fn reduce32(x: u32, shift: u32, y: u32) -> u32 {
    linear_mul_reduction(x, shift, y)
}

/// The pattern of a hexadecimal numeral, under an attribute by its number; nothing where libm takes no such text. It has four attributes of the five.
#[inline(never)]
pub fn read64(attribute: u32, text: &[u8]) -> Option<u64> {
    read(attribute, text, 64, 52).map(|bits| bits as u64)
}
#[inline(never)]
pub fn read32(attribute: u32, text: &[u8]) -> Option<u32> {
    read(attribute, text, 32, 23).map(|bits| bits as u32)
}
fn read(attribute: u32, text: &[u8], bits: u32, fraction: u32) -> Option<u128> {
    let round = match attribute {
        0 => Round::Nearest,
        1 => Round::Zero,
        2 => Round::Negative,
        3 => Round::Positive,
        _ => return None,
    };
    let text = core::str::from_utf8(text).ok()?;
    parse_any(text, bits, fraction, round).ok().map(|(bits, _)| bits)
}
