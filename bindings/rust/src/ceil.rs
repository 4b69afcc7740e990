//! The least whole number that is not below.

use crate::raw;
use crate::Flags;

/// The least whole number that is not below `x`, exactly, on patterns of 64 bits.
///
/// Zeros of either sign and infinities are returned as they are. A NaN gives the canonical NaN.
/// Between 0 and 1 the answer is 1, between -1 and 0 it is -0.
///
/// ```
/// assert_eq!(paskerotim::ceil64(0x4004000000000000), 0x4008000000000000);
/// ```
pub fn ceil64(x: u64) -> u64 {
    raw::pk_ceil64(x)
}

/// The least whole number that is not below `x`, exactly, on patterns of 32 bits; see
/// [`ceil64`].
pub fn ceil32(x: u32) -> u32 {
    raw::pk_ceil32(x)
}

/// What [`ceil64`] gives, with its flags: invalid for a signalling NaN; inexact where `x` is finite
/// and the answer is another pattern. No other is raised.
///
/// ```
/// use paskerotim::{ceil64_flags, Flags};
///
/// let inexact = Flags { inexact: true, ..Flags::NONE };
/// assert_eq!(ceil64_flags(0xbfe0000000000000), (0x8000000000000000, inexact));
/// assert_eq!(ceil64_flags(0x8000000000000000), (0x8000000000000000, Flags::NONE));
/// ```
pub fn ceil64_flags(x: u64) -> (u64, Flags) {
    Flags::of(|flags| raw::pk_ceil64_flags(x, flags))
}

/// What [`ceil32`] gives, with its flags, by the rule of [`ceil64_flags`].
pub fn ceil32_flags(x: u32) -> (u32, Flags) {
    Flags::of(|flags| raw::pk_ceil32_flags(x, flags))
}

/// [`ceil64`] on numbers.
pub fn ceil(x: f64) -> f64 {
    f64::from_bits(ceil64(x.to_bits()))
}

/// [`ceil32`] on numbers.
pub fn ceilf(x: f32) -> f32 {
    f32::from_bits(ceil32(x.to_bits()))
}

/// [`ceil64_flags`] on numbers.
pub fn ceil_flags(x: f64) -> (f64, Flags) {
    let (value, flags) = ceil64_flags(x.to_bits());
    (f64::from_bits(value), flags)
}

/// [`ceil32_flags`] on numbers.
pub fn ceilf_flags(x: f32) -> (f32, Flags) {
    let (value, flags) = ceil32_flags(x.to_bits());
    (f32::from_bits(value), flags)
}
