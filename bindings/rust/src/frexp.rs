//! A number over a power of two, and the exponent of that power.

use crate::raw;

/// A fraction from 1/2 up to below 1 in magnitude, and an exponent n: `x` is the fraction times 2^n,
/// exactly. On patterns of 64 bits.
///
/// Zeros of either sign and infinities are returned as they are, and a NaN gives the canonical NaN,
/// all with the exponent 0.
///
/// ```
/// // 8 is 1/2 times 2^4, and the smallest number 1/2 times 2^-1073.
/// assert_eq!(paskerotim::frexp64(0x4020000000000000), (0x3fe0000000000000, 4));
/// assert_eq!(paskerotim::frexp64(0x0000000000000001), (0x3fe0000000000000, -1073));
/// ```
pub fn frexp64(x: u64) -> (u64, i32) {
    let mut exponent = 0;
    let fraction = raw::pk_frexp64(x, &mut exponent);
    (fraction, exponent)
}

/// The same on patterns of 32 bits; see [`frexp64`].
pub fn frexp32(x: u32) -> (u32, i32) {
    let mut exponent = 0;
    let fraction = raw::pk_frexp32(x, &mut exponent);
    (fraction, exponent)
}

/// [`frexp64`] on numbers.
///
/// ```
/// assert_eq!(paskerotim::frexp(-6.0), (-0.75, 3));
/// ```
pub fn frexp(x: f64) -> (f64, i32) {
    let (fraction, exponent) = frexp64(x.to_bits());
    (f64::from_bits(fraction), exponent)
}

/// [`frexp32`] on numbers.
pub fn frexpf(x: f32) -> (f32, i32) {
    let (fraction, exponent) = frexp32(x.to_bits());
    (f32::from_bits(fraction), exponent)
}
