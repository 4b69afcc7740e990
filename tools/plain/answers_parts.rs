// modf, frexp, ilogb and nextafter by the words of ISO C (7.12.6, 7.12.11), on exact values.

use crate::answers::{scalbn, trunc};
use crate::big::Big;
use crate::format::Format;
use crate::operations::Flags;
use crate::rounding::{exact, greatest, last_before};
use std::cmp::Ordering;

/// FP_ILOGB0 and FP_ILOGBNAN, which ISO C leaves open and libm has.
const NO_EXPONENT: i32 = i32::MIN;

/// What is behind the point and what is before it, each with the sign of x.
pub fn modf(format: Format, x: u64) -> [u64; 2] {
    let (whole, _) = trunc(format, x);
    if format.is_nan(x) {
        return [whole, whole];
    }
    if format.is_infinite(x) {
        return [format.sign(x), x];
    }
    let fraction = format.units(x).sub(&format.units(whole));
    [format.sign(x) | exact(format, &fraction), whole]
}

/// A number of magnitude at least 1/2 and below 1, and the power of two that
/// makes it x. Of infinities and NaNs ISO C leaves the power open; libm has 0.
pub fn frexp(format: Format, x: u64) -> (u64, i32) {
    if format.is_nan(x) {
        return (format.canonical_nan(), 0);
    }
    if format.is_infinite(x) || format.is_zero(x) {
        return (x, 0);
    }
    let exponent = ilogb(format, x) + 1;
    let (fraction, flags) = scalbn(format, x, -exponent);
    assert!(flags == Flags::NONE, "a fraction is not a number of the format");
    (fraction, exponent)
}

/// The n with 2^n <= |x| < 2^(n + 1), found by comparing x with powers of two.
pub fn ilogb(format: Format, x: u64) -> i32 {
    if format.is_nan(x) || format.is_zero(x) {
        return NO_EXPONENT;
    }
    if format.is_infinite(x) {
        return i32::MAX;
    }
    let units = format.units(x);
    let unit_shift = format.unit_shift();
    // Every number is at least one unit, and below 2^(emax + 1).
    let end = unit_shift + format.bias() + 1;
    let power = last_before(end as u64, |power| Big::placed(1, power as u32) <= units);
    power as i32 - unit_shift as i32
}

/// The next number after x in the direction of y, and y where the two are equal.
pub fn nextafter(format: Format, x: u64, y: u64) -> u64 {
    if format.is_nan(x) || format.is_nan(y) {
        return format.canonical_nan();
    }
    let flip = format.sign_bit();
    match order(format, x, y) {
        Ordering::Equal => y,
        Ordering::Less => next_up(format, x),
        // IEEE 754 has nextDown(x) as -nextUp(-x).
        Ordering::Greater => next_up(format, x ^ flip) ^ flip,
    }
}

/// How two numbers compare; an infinity is past all others, and -0 is +0.
fn order(format: Format, x: u64, y: u64) -> Ordering {
    if format.is_zero(x) && format.is_zero(y) {
        return Ordering::Equal;
    }
    let magnitude = |pattern: u64| match format.is_infinite(pattern) {
        true => (true, Big::zero()),
        false => (false, format.units(pattern)),
    };
    match (format.is_negative(x), format.is_negative(y)) {
        (false, false) => magnitude(x).cmp(&magnitude(y)),
        (true, true) => magnitude(y).cmp(&magnitude(x)),
        (true, false) => Ordering::Less,
        (false, true) => Ordering::Greater,
    }
}

/// The least number above x, which is not +infinity, by IEEE 754-2019 (5.3.1):
/// below zero it keeps the sign, and so -0 follows the last negative number.
fn next_up(format: Format, x: u64) -> u64 {
    if format.is_zero(x) {
        return 1;
    }
    if format.is_infinite(x) {
        return format.sign_bit() | format.largest_finite();
    }
    let units = format.units(x);
    match format.is_negative(x) {
        true => format.sign_bit() | greatest(format, |pattern| format.units(pattern) < units),
        false => greatest(format, |pattern| format.units(pattern) <= units) + 1,
    }
}
