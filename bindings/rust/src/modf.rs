//! The fraction, and the whole part.

use crate::raw;

/// The fraction of `x`, and `x` without it, both exactly and with the sign of `x`, as zeros too. On
/// patterns of 64 bits.
///
/// What is left without the fraction is [`trunc64`](crate::trunc64)'s answer. An infinity has a
/// fraction of zero. A NaN gives the canonical NaN twice.
///
/// ```
/// // -2.5 is -0.5 and -2.
/// let (fraction, whole) = paskerotim::modf64(0xc004000000000000);
/// assert_eq!((fraction, whole), (0xbfe0000000000000, 0xc000000000000000));
/// ```
pub fn modf64(x: u64) -> (u64, u64) {
    let mut whole = 0;
    let fraction = raw::pk_modf64(x, &mut whole);
    (fraction, whole)
}

/// The same on patterns of 32 bits; see [`modf64`].
pub fn modf32(x: u32) -> (u32, u32) {
    let mut whole = 0;
    let fraction = raw::pk_modf32(x, &mut whole);
    (fraction, whole)
}

/// [`modf64`] on numbers.
///
/// ```
/// assert_eq!(paskerotim::modf(3.75), (0.75, 3.0));
/// ```
pub fn modf(x: f64) -> (f64, f64) {
    let (fraction, whole) = modf64(x.to_bits());
    (f64::from_bits(fraction), f64::from_bits(whole))
}

/// [`modf32`] on numbers.
pub fn modff(x: f32) -> (f32, f32) {
    let (fraction, whole) = modf32(x.to_bits());
    (f32::from_bits(fraction), f32::from_bits(whole))
}
