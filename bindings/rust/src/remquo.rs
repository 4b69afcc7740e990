//! The remainder of a division to the nearest, and its quotient.

use crate::raw;

/// `x` minus n times `y`, exactly, and the magnitude of n modulo 2^31, negated if the signs of `x` and
/// `y` differ; n is the whole number nearest to the exact quotient `x` / `y`, of two that are equally
/// near the even one. On patterns of 64 bits.
///
/// A zero has the sign of `x`. The canonical NaN and the quotient 0 where [`fmod64`](crate::fmod64)
/// gives the canonical NaN. A finite `x` by an infinite `y` gives `x` itself and the quotient 0.
///
/// ```
/// // -7 is -4 times 2, and 1.
/// let (value, quotient) = paskerotim::remquo64(0xc01c000000000000, 0x4000000000000000);
/// assert_eq!((value, quotient), (0x3ff0000000000000, -4));
/// ```
pub fn remquo64(x: u64, y: u64) -> (u64, i32) {
    let mut quotient = 0;
    let value = raw::pk_remquo64(x, y, &mut quotient);
    (value, quotient)
}

/// [`remquo64`] on numbers.
pub fn remquo(x: f64, y: f64) -> (f64, i32) {
    let (value, quotient) = remquo64(x.to_bits(), y.to_bits());
    (f64::from_bits(value), quotient)
}
