//! The exponent of a number.

use crate::raw;

/// What [`ilogb64`] and the like give for a zero. It is libm's number; in ISO C each C library has
/// its own.
pub const ILOGB_ZERO: i32 = i32::MIN;

/// What they give for a NaN, which is libm's number too.
pub const ILOGB_NAN: i32 = i32::MIN;

/// What they give for an infinity of either sign.
pub const ILOGB_INFINITY: i32 = i32::MAX;

/// The exponent of `x`: the greatest n for which 2^n is not above `x` in magnitude. On patterns of
/// 64 bits.
///
/// That of a subnormal number goes on below the least normal number's, to -1074 or, at 32 bits,
/// -149. A zero gives [`ILOGB_ZERO`], a NaN [`ILOGB_NAN`], an infinity [`ILOGB_INFINITY`].
///
/// ```
/// use paskerotim::{ilogb64, ILOGB_ZERO};
///
/// assert_eq!(ilogb64(0x3ff0000000000000), 0);
/// assert_eq!(ilogb64(0x0000000000000001), -1074);
/// assert_eq!(ilogb64(0x8000000000000000), ILOGB_ZERO);
/// ```
pub fn ilogb64(x: u64) -> i32 {
    raw::pk_ilogb64(x)
}

/// The exponent of `x`, on patterns of 32 bits; see [`ilogb64`].
pub fn ilogb32(x: u32) -> i32 {
    raw::pk_ilogb32(x)
}

/// [`ilogb64`] on numbers.
///
/// ```
/// assert_eq!(paskerotim::ilogb(-10.0), 3);
/// ```
pub fn ilogb(x: f64) -> i32 {
    ilogb64(x.to_bits())
}

/// [`ilogb32`] on numbers.
pub fn ilogbf(x: f32) -> i32 {
    ilogb32(x.to_bits())
}
