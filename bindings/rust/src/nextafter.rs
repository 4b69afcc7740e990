//! The next number.

use crate::raw;

/// The number next to `x` on the side of `y`; beside the largest number that is infinity. `y` itself
/// where the two are equal, as zeros of either sign are. On patterns of 64 bits.
///
/// From either zero it is the smallest number with the sign of `y`. A step to a zero keeps the sign
/// of `x`. The canonical NaN if `x` or `y` is a NaN.
///
/// ```
/// use paskerotim::nextafter64;
///
/// let (one, infinite) = (0x3ff0000000000000, 0x7ff0000000000000);
/// assert_eq!(nextafter64(one, infinite), 0x3ff0000000000001);
/// assert_eq!(nextafter64(one, 0), 0x3fefffffffffffff);
/// assert_eq!(nextafter64(0x7fefffffffffffff, infinite), infinite);
/// ```
pub fn nextafter64(x: u64, y: u64) -> u64 {
    raw::pk_nextafter64(x, y)
}

/// The same on patterns of 32 bits; see [`nextafter64`].
pub fn nextafter32(x: u32, y: u32) -> u32 {
    raw::pk_nextafter32(x, y)
}

/// [`nextafter64`] on numbers.
///
/// ```
/// assert_eq!(paskerotim::nextafter(1.0, 2.0), 1.0 + f64::EPSILON);
/// ```
pub fn nextafter(x: f64, y: f64) -> f64 {
    f64::from_bits(nextafter64(x.to_bits(), y.to_bits()))
}

/// [`nextafter32`] on numbers.
pub fn nextafterf(x: f32, y: f32) -> f32 {
    f32::from_bits(nextafter32(x.to_bits(), y.to_bits()))
}
