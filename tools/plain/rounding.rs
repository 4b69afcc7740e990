// The nearest pattern to an exact value, found by a search among neighbours, and its flags.

use crate::attributes::Attribute;
use crate::big::Big;
use crate::format::Format;
use crate::operations::Flags;
use std::cmp::Ordering;

/// The last number below the end for which it holds, found by halving. It must
/// hold for zero and, once it fails, fail from there on.
pub fn last_before(end: u64, holds: impl Fn(u64) -> bool) -> u64 {
    let (mut low, mut high) = (0, end);
    while high - low > 1 {
        let middle = low + (high - low) / 2;
        if holds(middle) {
            low = middle;
        } else {
            high = middle;
        }
    }
    low
}

/// The greatest finite magnitude that is not above the value: magnitudes are
/// ordered as their patterns are.
pub fn greatest(format: Format, not_above: impl Fn(u64) -> bool) -> u64 {
    last_before(format.infinity(), not_above)
}

/// Of two neighbours, the one on the nearer side; the even one on a tie.
fn choose(low: u64, low_to_value_against_value_to_high: Ordering) -> u64 {
    match low_to_value_against_value_to_high {
        Ordering::Less => low,
        Ordering::Greater => low + 1,
        Ordering::Equal => low + (low & 1),
    }
}

/// The magnitude nearest to value / 2^shift smallest units, ties to even.
pub fn nearest(format: Format, value: &Big, shift: u32) -> u64 {
    if *value >= format.scaled_overflow(shift) {
        return format.infinity();
    }
    let low = greatest(format, |pattern| format.scaled_units(pattern, shift) <= *value);
    if low == format.largest_finite() {
        return low;
    }
    let below = value.sub(&format.scaled_units(low, shift));
    let above = format.scaled_units(low + 1, shift).sub(value);
    choose(low, below.cmp(&above))
}

/// The same, and what IEEE 754 raises for it (7.4 to 7.6).
pub fn nearest_with_flags(format: Format, value: &Big, shift: u32) -> (u64, Flags) {
    let result = nearest(format, value, shift);
    if result == format.infinity() {
        return (result, Flags::OVERFLOW.and(Flags::INEXACT));
    }
    if format.scaled_units(result, shift) == *value {
        return (result, Flags::NONE);
    }
    // With no least exponent the digits just below 2^emin would be those that
    // the format has just below twice that, so twice the value tells.
    let turn = format.smallest_normal();
    let is_tiny = result <= turn && nearest(format, &value.shl(1), shift) < 2 * turn;
    let tiny = if is_tiny { Flags::UNDERFLOW } else { Flags::NONE };
    (result, tiny.and(Flags::INEXACT))
}

/// The magnitude that an attribute gives for value / 2^shift smallest units, by
/// the numbers on either side of it (4.3, 7.4).
pub fn by_neighbours(
    format: Format,
    attribute: Attribute,
    negative: bool,
    (value, shift): (&Big, u32),
) -> u64 {
    let low = greatest(format, |pattern| format.scaled_units(pattern, shift) <= *value);
    let below = value.sub(&format.scaled_units(low, shift));
    if below.is_zero() {
        return low;
    }
    // Past the largest number infinity is in the place of the next power of two.
    let next = format.scaled_units(low + 1, shift);
    let above = if next > *value { next.sub(value) } else { Big::zero() };
    match attribute {
        Attribute::Even => choose(low, below.cmp(&above)),
        Attribute::Away => low + (below >= above) as u64,
        Attribute::Zero => low,
        Attribute::Down => low + negative as u64,
        Attribute::Up => low + !negative as u64,
    }
}

/// The magnitude nearest to the square root of a magnitude that is not zero,
/// ties to even. No root of 64, 32 or 16 bits is tiny or near overflow.
pub fn nearest_root(format: Format, magnitude: u64) -> (u64, Flags) {
    // r units is the root of x units when r * r = x * 2^unit_shift.
    let square = format.scaled_units(magnitude, format.unit_shift());
    let low = greatest(format, |pattern| {
        let units = format.units(pattern);
        units.mul(&units) <= square
    });
    // The root is past the midpoint (u + v) / 2 when four times its square is
    // past (u + v)^2. A root is far below overflow, so v is finite.
    let ends = format.units(low).add(&format.units(low + 1));
    let root = choose(low, square.shl(2).cmp(&ends.mul(&ends)));
    let units = format.units(root);
    (root, if units.mul(&units) == square { Flags::NONE } else { Flags::INEXACT })
}

/// The pattern of a magnitude known to be a number of the format.
pub fn exact(format: Format, units: &Big) -> u64 {
    let pattern = nearest(format, units, 0);
    assert!(format.units(pattern) == *units, "an exact result is not a number of the format");
    pattern
}
