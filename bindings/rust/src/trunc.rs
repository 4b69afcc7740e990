//! The whole part.

use crate::raw;
use crate::Flags;

/// `x` without its fraction, exactly, with the sign of `x`, on patterns of 64 bits.
///
/// Zeros of either sign and infinities are returned as they are. A NaN gives the canonical NaN.
/// Between -1 and 0 the answer is -0.
///
/// ```
/// assert_eq!(paskerotim::trunc64(0xbfe8000000000000), 0x8000000000000000);
/// ```
pub fn trunc64(x: u64) -> u64 {
    raw::pk_trunc64(x)
}

/// `x` without its fraction, exactly, with the sign of `x`, on patterns of 32 bits; see
/// [`trunc64`].
pub fn trunc32(x: u32) -> u32 {
    raw::pk_trunc32(x)
}

/// What [`trunc64`] gives, with its flags: invalid for a signalling NaN; inexact where `x` is finite
/// and the answer is another pattern. No other is raised.
pub fn trunc64_flags(x: u64) -> (u64, Flags) {
    Flags::of(|flags| raw::pk_trunc64_flags(x, flags))
}

/// What [`trunc32`] gives, with its flags, by the rule of [`trunc64_flags`].
pub fn trunc32_flags(x: u32) -> (u32, Flags) {
    Flags::of(|flags| raw::pk_trunc32_flags(x, flags))
}

/// [`trunc64`] on numbers.
pub fn trunc(x: f64) -> f64 {
    f64::from_bits(trunc64(x.to_bits()))
}

/// [`trunc32`] on numbers.
pub fn truncf(x: f32) -> f32 {
    f32::from_bits(trunc32(x.to_bits()))
}

/// [`trunc64_flags`] on numbers.
pub fn trunc_flags(x: f64) -> (f64, Flags) {
    let (value, flags) = trunc64_flags(x.to_bits());
    (f64::from_bits(value), flags)
}

/// [`trunc32_flags`] on numbers.
pub fn truncf_flags(x: f32) -> (f32, Flags) {
    let (value, flags) = trunc32_flags(x.to_bits());
    (f32::from_bits(value), flags)
}
