//! The greatest whole number that is not above.

use crate::raw;
use crate::Flags;

/// The greatest whole number that is not above `x`, exactly, on patterns of 64 bits.
///
/// Zeros of either sign and infinities are returned as they are. A NaN gives the canonical NaN.
/// Between 0 and 1 the answer is +0, between -1 and 0 it is -1.
///
/// ```
/// assert_eq!(paskerotim::floor64(0xc004000000000000), 0xc008000000000000);
/// ```
pub fn floor64(x: u64) -> u64 {
    raw::pk_floor64(x)
}

/// The greatest whole number that is not above `x`, exactly, on patterns of 32 bits; see
/// [`floor64`].
pub fn floor32(x: u32) -> u32 {
    raw::pk_floor32(x)
}

/// What [`floor64`] gives, with its flags: invalid for a signalling NaN; inexact where `x` is finite
/// and the answer is another pattern. No other is raised.
///
/// ```
/// use paskerotim::{floor64_flags, Flags};
///
/// let inexact = Flags { inexact: true, ..Flags::NONE };
/// assert_eq!(floor64_flags(0x3fe0000000000000), (0, inexact));
/// assert_eq!(floor64_flags(0x0000000000000000), (0, Flags::NONE));
/// ```
pub fn floor64_flags(x: u64) -> (u64, Flags) {
    Flags::of(|flags| raw::pk_floor64_flags(x, flags))
}

/// What [`floor32`] gives, with its flags, by the rule of [`floor64_flags`].
pub fn floor32_flags(x: u32) -> (u32, Flags) {
    Flags::of(|flags| raw::pk_floor32_flags(x, flags))
}

/// [`floor64`] on numbers.
pub fn floor(x: f64) -> f64 {
    f64::from_bits(floor64(x.to_bits()))
}

/// [`floor32`] on numbers.
pub fn floorf(x: f32) -> f32 {
    f32::from_bits(floor32(x.to_bits()))
}

/// [`floor64_flags`] on numbers.
pub fn floor_flags(x: f64) -> (f64, Flags) {
    let (value, flags) = floor64_flags(x.to_bits());
    (f64::from_bits(value), flags)
}

/// [`floor32_flags`] on numbers.
pub fn floorf_flags(x: f32) -> (f32, Flags) {
    let (value, flags) = floor32_flags(x.to_bits());
    (f32::from_bits(value), flags)
}
