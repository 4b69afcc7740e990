//! The remainder of a division toward zero.

use crate::raw;

/// `x` minus trunc(`x` / `y`) times `y`, exactly, where `x` / `y` is the exact quotient; on
/// patterns of 64 bits. It has the sign of `x`, as a zero too.
///
/// The canonical NaN if `x` is a NaN or infinite, or if `y` is a NaN or zero. Otherwise `x` itself
/// where |`x`| < |`y`|, so for every infinite `y`.
///
/// ```
/// // 5.5 by 2 leaves 1.5, and -4 by 2 leaves -0.
/// assert_eq!(paskerotim::fmod64(0x4016000000000000, 0x4000000000000000), 0x3ff8000000000000);
/// assert_eq!(paskerotim::fmod64(0xc010000000000000, 0x4000000000000000), 0x8000000000000000);
/// ```
pub fn fmod64(x: u64, y: u64) -> u64 {
    raw::pk_fmod64(x, y)
}

/// The same on patterns of 32 bits; see [`fmod64`].
pub fn fmod32(x: u32, y: u32) -> u32 {
    raw::pk_fmod32(x, y)
}

/// [`fmod64`] on numbers.
pub fn fmod(x: f64, y: f64) -> f64 {
    f64::from_bits(fmod64(x.to_bits(), y.to_bits()))
}

/// [`fmod32`] on numbers.
pub fn fmodf(x: f32, y: f32) -> f32 {
    f32::from_bits(fmod32(x.to_bits(), y.to_bits()))
}
