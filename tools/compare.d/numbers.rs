//! Magnitudes built from digits and a place, which is counted from the smallest unit.

use crate::format::Format;
use crate::random::Random;

/// The place of the leading digit of the largest finite number, counted from the smallest unit.
pub fn highest(format: Format) -> u32 {
    2 * format.bias() - 1 + format.fraction_bits
}

/// The pattern of the number whose leading digits are those of `digits`, the first of them at the place `top`: all of
/// them where the format has room, else as many as it has.
pub fn placed(format: Format, digits: u128, top: u32) -> u64 {
    let room = format.fraction_bits.min(top);
    let length = digits.ilog2();
    let fitted =
        if length > room { digits >> (length - room) } else { digits << (room - length) } as u64;
    // Among the least numbers a pattern is its count of units; above, the leading digit adds one to the field.
    if top <= format.fraction_bits {
        fitted
    } else {
        (u64::from(top - room) << format.fraction_bits) + fitted
    }
}

/// Digits as long as a significand: any, few of them set, a run of ones, or beside a power of two.
pub fn digits(format: Format, random: &mut Random) -> u128 {
    let one = 1u64 << format.fraction_bits;
    let low = 1u64 << random.below(format.fraction_bits.into());
    let any = random.below(one);
    (one | random.pick(&[any, any, low, one - low, low - 1, 0, 1, one - 1])).into()
}

pub fn with_top(format: Format, top: u32, random: &mut Random) -> u64 {
    placed(format, digits(format, random), top)
}

/// Any finite number but zero, every place of its leading digit alike often.
pub fn finite(format: Format, random: &mut Random) -> u64 {
    let top = random.below(u64::from(highest(format)) + 1) as u32;
    with_top(format, top, random)
}

/// A subnormal number of so many digits.
pub fn subnormal(length: u64, random: &mut Random) -> u64 {
    let one = 1u64 << (length - 1);
    let any = random.below(one);
    one | random.pick(&[any, any, 0, one - 1, 1 & (one - 1)])
}

/// The pattern of `digits` times 2^exponent, where the format has that number.
pub fn scaled(format: Format, digits: u64, exponent: i32) -> u64 {
    let top = exponent + digits.ilog2() as i32 + format.unit_shift() as i32;
    placed(format, digits.into(), top as u32)
}

/// Two numbers of these digits whose product is the digits' product times 2^exponent, one of the two as large as it may
/// be, or as small, or anything between. Where there are no such two, those that come nearest.
pub fn factors(format: Format, digits: [u64; 2], exponent: i32, random: &mut Random) -> [u64; 2] {
    let least = -(format.unit_shift() as i32);
    let most = digits.map(|one| format.bias() as i32 - one.ilog2() as i32);
    let (low, high) = (least.max(exponent - most[1]), most[0].min(exponent - least));
    let first = match low < high {
        true => random.between(low, high),
        false => (exponent / 2).clamp(least, most[0]),
    };
    let second = (exponent - first).clamp(least, most[1]);
    [scaled(format, digits[0], first), scaled(format, digits[1], second)]
}

/// The exponent of the last place of a finite number.
pub fn last_place(format: Format, x: u64) -> i32 {
    format.exponent_field(x).max(1) as i32 - 1 - format.unit_shift() as i32
}

/// A magnitude so many places further, as far as finite numbers go.
pub fn moved(format: Format, magnitude: u64, places: i32) -> u64 {
    magnitude.saturating_add_signed(places.into()).min(format.largest_finite())
}
