//! The square root.

use crate::raw;
use crate::{Attribute, Flags};

/// The root of `x`, rounded once, on patterns of 64 bits.
///
/// Either zero and +infinity are returned as they are. A NaN, and every `x` below zero (-0 is not),
/// gives the canonical NaN.
///
/// ```
/// assert_eq!(paskerotim::sqrt64(0x4000000000000000), 0x3ff6a09e667f3bcd);
/// assert_eq!(paskerotim::sqrt64(0x0000000000000001), 0x1e60000000000000);
/// assert_eq!(paskerotim::sqrt64(0x8000000000000000), 0x8000000000000000);
/// ```
pub fn sqrt64(x: u64) -> u64 {
    raw::pk_sqrt64(x)
}

/// The root of `x`, rounded once, on patterns of 32 bits; see [`sqrt64`].
pub fn sqrt32(x: u32) -> u32 {
    raw::pk_sqrt32(x)
}

/// The root of `x` as [`sqrt64`] gives it, with its flags: invalid for a signalling NaN and for every
/// `x` below zero; inexact where the root is not exact. No other is raised.
///
/// ```
/// use paskerotim::{sqrt64_flags, Flags, NAN64};
///
/// let (root, flags) = sqrt64_flags(0x4000000000000000);
/// assert_eq!((root, flags.inexact), (0x3ff6a09e667f3bcd, true));
/// let invalid = Flags { invalid: true, ..Flags::NONE };
/// assert_eq!(sqrt64_flags(0xbff0000000000000), (NAN64, invalid));
/// ```
pub fn sqrt64_flags(x: u64) -> (u64, Flags) {
    Flags::of(|flags| raw::pk_sqrt64_flags(x, flags))
}

/// The root of `x` as [`sqrt32`] gives it, with its flags; see [`sqrt64_flags`].
pub fn sqrt32_flags(x: u32) -> (u32, Flags) {
    Flags::of(|flags| raw::pk_sqrt32_flags(x, flags))
}

/// The root of `x`, rounded once under an attribute, with its flags. Of what is no finite number
/// above zero the answer is [`sqrt64_flags`]'s.
///
/// ```
/// use paskerotim::{sqrt64_flags, sqrt64_rounded, Attribute};
///
/// let (root, flags) = sqrt64_rounded(Attribute::Down, 0x4000000000000000);
/// assert_eq!((root, flags.inexact), (0x3ff6a09e667f3bcc, true));
/// let even = sqrt64_rounded(Attribute::Even, 0x4000000000000000);
/// assert_eq!(even, sqrt64_flags(0x4000000000000000));
/// ```
pub fn sqrt64_rounded(attribute: Attribute, x: u64) -> (u64, Flags) {
    attribute.answer(|number, value, flags| raw::pk_sqrt64_rounded(number, x, value, flags))
}

/// The root of `x` on patterns of 32 bits, rounded once under an attribute, with its flags; see
/// [`sqrt64_rounded`].
pub fn sqrt32_rounded(attribute: Attribute, x: u32) -> (u32, Flags) {
    attribute.answer(|number, value, flags| raw::pk_sqrt32_rounded(number, x, value, flags))
}

/// [`sqrt64`] on numbers.
pub fn sqrt(x: f64) -> f64 {
    f64::from_bits(sqrt64(x.to_bits()))
}

/// [`sqrt32`] on numbers.
pub fn sqrtf(x: f32) -> f32 {
    f32::from_bits(sqrt32(x.to_bits()))
}

/// [`sqrt64_flags`] on numbers.
pub fn sqrt_flags(x: f64) -> (f64, Flags) {
    let (value, flags) = sqrt64_flags(x.to_bits());
    (f64::from_bits(value), flags)
}

/// [`sqrt32_flags`] on numbers.
pub fn sqrtf_flags(x: f32) -> (f32, Flags) {
    let (value, flags) = sqrt32_flags(x.to_bits());
    (f32::from_bits(value), flags)
}

/// [`sqrt64_rounded`] on numbers.
pub fn sqrt_rounded(attribute: Attribute, x: f64) -> (f64, Flags) {
    let (value, flags) = sqrt64_rounded(attribute, x.to_bits());
    (f64::from_bits(value), flags)
}

/// [`sqrt32_rounded`] on numbers.
pub fn sqrtf_rounded(attribute: Attribute, x: f32) -> (f32, Flags) {
    let (value, flags) = sqrt32_rounded(attribute, x.to_bits());
    (f32::from_bits(value), flags)
}
