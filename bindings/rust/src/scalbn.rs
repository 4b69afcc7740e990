//! Scaling by a power of two.

use crate::raw;
use crate::{Attribute, Flags};

/// `x` times 2^`n`, for every `n`, rounded once, on patterns of 64 bits.
///
/// Zeros of either sign and infinities are returned as they are. A NaN gives the canonical NaN.
///
/// ```
/// // 1.5 times 2^-1075 is three quarters of the smallest number.
/// assert_eq!(paskerotim::scalbn64(0x3ff8000000000000, -1075), 0x0000000000000001);
/// assert_eq!(paskerotim::scalbn64(0x3ff0000000000000, 1024), 0x7ff0000000000000);
/// ```
pub fn scalbn64(x: u64, n: i32) -> u64 {
    raw::pk_scalbn64(x, n)
}

/// `x` times 2^`n`, for every `n`, rounded once, on patterns of 32 bits; see [`scalbn64`].
pub fn scalbn32(x: u32, n: i32) -> u32 {
    raw::pk_scalbn32(x, n)
}

/// What [`scalbn64`] gives, with its flags: invalid for a signalling NaN; for a finite `x` inexact,
/// overflow and underflow as `x` times 2^`n` is rounded.
///
/// ```
/// let (value, flags) = paskerotim::scalbn64_flags(0x3ff0000000000000, 1024);
/// assert_eq!((value, flags.to_string().as_str()), (0x7ff0000000000000, "OVERFLOW+INEXACT"));
/// ```
pub fn scalbn64_flags(x: u64, n: i32) -> (u64, Flags) {
    Flags::of(|flags| raw::pk_scalbn64_flags(x, n, flags))
}

/// What [`scalbn32`] gives, with its flags; see [`scalbn64_flags`].
pub fn scalbn32_flags(x: u32, n: i32) -> (u32, Flags) {
    Flags::of(|flags| raw::pk_scalbn32_flags(x, n, flags))
}

/// `x` times 2^`n`, for every `n`, rounded once under an attribute, with its flags. Of zeros,
/// infinities and NaNs the answer is [`scalbn64_flags`]'s.
///
/// ```
/// use paskerotim::{scalbn64_rounded, Attribute};
///
/// // 2^1024 is past the largest number, which is the answer where it may not be exceeded.
/// let (down, flags) = scalbn64_rounded(Attribute::Down, 0x3ff0000000000000, 1024);
/// assert_eq!((down, flags.to_string().as_str()), (0x7fefffffffffffff, "OVERFLOW+INEXACT"));
/// let (up, _) = scalbn64_rounded(Attribute::Up, 0x3ff0000000000000, 1024);
/// assert_eq!(up, 0x7ff0000000000000);
/// ```
pub fn scalbn64_rounded(attribute: Attribute, x: u64, n: i32) -> (u64, Flags) {
    attribute.answer(|number, value, flags| raw::pk_scalbn64_rounded(number, x, n, value, flags))
}

/// `x` times 2^`n` on patterns of 32 bits, rounded once under an attribute, with its flags; see
/// [`scalbn64_rounded`].
pub fn scalbn32_rounded(attribute: Attribute, x: u32, n: i32) -> (u32, Flags) {
    attribute.answer(|number, value, flags| raw::pk_scalbn32_rounded(number, x, n, value, flags))
}

/// [`scalbn64`] on numbers.
pub fn scalbn(x: f64, n: i32) -> f64 {
    f64::from_bits(scalbn64(x.to_bits(), n))
}

/// [`scalbn32`] on numbers.
pub fn scalbnf(x: f32, n: i32) -> f32 {
    f32::from_bits(scalbn32(x.to_bits(), n))
}

/// [`scalbn64_flags`] on numbers.
pub fn scalbn_flags(x: f64, n: i32) -> (f64, Flags) {
    let (value, flags) = scalbn64_flags(x.to_bits(), n);
    (f64::from_bits(value), flags)
}

/// [`scalbn32_flags`] on numbers.
pub fn scalbnf_flags(x: f32, n: i32) -> (f32, Flags) {
    let (value, flags) = scalbn32_flags(x.to_bits(), n);
    (f32::from_bits(value), flags)
}

/// [`scalbn64_rounded`] on numbers.
pub fn scalbn_rounded(attribute: Attribute, x: f64, n: i32) -> (f64, Flags) {
    let (value, flags) = scalbn64_rounded(attribute, x.to_bits(), n);
    (f64::from_bits(value), flags)
}

/// [`scalbn32_rounded`] on numbers.
pub fn scalbnf_rounded(attribute: Attribute, x: f32, n: i32) -> (f32, Flags) {
    let (value, flags) = scalbn32_rounded(attribute, x.to_bits(), n);
    (f32::from_bits(value), flags)
}
