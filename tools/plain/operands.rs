// Single operands: the classes, and patterns where rounding and ranges turn.

use crate::attributes::{round, Attribute, Exact};
use crate::big::Big;
use crate::format::Format;
use crate::random::Random;

/// Ten magnitudes with either sign, then quiet and signalling NaN.
pub const CLASSES: usize = 22;
pub const QUIET: usize = 20;
pub const SIGNALLING: usize = 21;

/// A pattern of a class; classes with more than one number give any of them.
pub fn of_class(format: Format, class: usize, random: &mut Random) -> u64 {
    let payload = format.smallest_normal() - 1;
    let quiet_bit = format.canonical_nan() ^ format.infinity();
    let magnitude = match class % CLASSES {
        QUIET => format.canonical_nan() | random.word() & payload,
        SIGNALLING => format.infinity() | random.below(quiet_bit - 1) + 1,
        class => of_magnitude(format, class / 2, random),
    };
    let negative = if class >= QUIET { random.coin() } else { class % 2 == 1 };
    signed(format, negative, magnitude)
}

fn of_magnitude(format: Format, kind: usize, random: &mut Random) -> u64 {
    let smallest_normal = format.smallest_normal();
    match kind {
        0 => 0,
        1 => 1,
        2 => 2 + random.below(smallest_normal - 3),
        3 => smallest_normal - 1,
        4 => smallest_normal,
        5 => smallest_normal + random.below(format.infinity() - smallest_normal),
        6 => neighbour(format, format.one(), random.between(-4, 4)),
        7 => {
            let whole = random.up_to_bits(format.fraction_bits + 1);
            placed(format, false, whole, 0)
        }
        8 => format.largest_finite(),
        _ => format.infinity(),
    }
}

pub fn signed(format: Format, negative: bool, magnitude: u64) -> u64 {
    if negative { magnitude | format.sign_bit() } else { magnitude }
}

/// The pattern nearest to number * 2^exponent.
pub fn placed(format: Format, negative: bool, number: u64, exponent: i32) -> u64 {
    placed_big(format, negative, &Big::from(number), exponent)
}

pub fn placed_big(format: Format, negative: bool, number: &Big, exponent: i32) -> u64 {
    if number.is_zero() {
        return signed(format, negative, 0);
    }
    let value = Exact { negative, number: number.clone(), exponent: exponent as i64 };
    round(format, Attribute::Even, &value).0
}

/// The finite pattern this many places further from zero, as far as they go.
pub fn neighbour(format: Format, pattern: u64, places: i32) -> u64 {
    let moved = format.magnitude(pattern) as i128 + places as i128;
    let magnitude = moved.clamp(0, format.largest_finite() as i128) as u64;
    format.sign(pattern) | magnitude
}

/// The exponent of the leading digit of a finite nonzero pattern.
pub fn top(format: Format, pattern: u64) -> i32 {
    format.units(pattern).bits() as i32 - 1 - format.unit_shift() as i32
}

/// The exponent of the last place of a finite pattern.
pub fn last_place(format: Format, pattern: u64) -> i32 {
    format.exponent_field(pattern).max(1) as i32 - 1 - format.unit_shift() as i32
}

/// The largest exponent a leading digit can have: 1023, 127 or 15.
pub fn highest(format: Format) -> i32 {
    format.bias() as i32
}

/// The exponent of the smallest unit: -1074, -149 or -24.
pub fn lowest(format: Format) -> i32 {
    -(format.unit_shift() as i32)
}

/// A digit run that makes trouble: random, few digits set, long runs of ones
/// or zeros, or the next to a power of two; always a full significand.
pub fn significand(format: Format, random: &mut Random) -> u64 {
    let bits = format.fraction_bits + 1;
    let one = 1u64 << (bits - 1);
    let low = random.below(bits as u64 - 1) as u32;
    match random.below(5) {
        0 => one | random.below(one),
        1 => one | 1 << low,
        2 => one | random.up_to_bits(4) << low.min(bits - 5),
        3 => (one << 1) - (1 << low),
        _ => one + random.below(4),
    }
}

/// Any pattern at all, with the awkward ones made frequent.
pub fn any(format: Format, random: &mut Random) -> u64 {
    let class = random.below(CLASSES as u64) as usize;
    match random.below(6) {
        0 => random.word() & format.all_ones(),
        1 => of_class(format, class, random),
        _ => finite(format, random),
    }
}

/// A finite nonzero pattern, with the awkward ones made frequent.
pub fn finite(format: Format, random: &mut Random) -> u64 {
    let negative = random.coin();
    let magnitude = match random.below(5) {
        0 => 1 + random.below(format.largest_finite()),
        1 => near_power_of_two(format, random),
        2 => random.up_to_bits(format.fraction_bits),
        3 => of_magnitude(format, 1 + random.below(8) as usize, random),
        _ => {
            let field = 1 + random.below(format.exponent_field(format.infinity()) as u64 - 1);
            let fraction = significand(format, random) - format.smallest_normal();
            field << format.fraction_bits | fraction
        }
    };
    signed(format, negative, magnitude.max(1))
}

/// A power of two of the whole range, or one of its neighbours.
pub fn near_power_of_two(format: Format, random: &mut Random) -> u64 {
    let exponent = random.between(lowest(format), highest(format));
    let power = placed(format, false, 1, exponent);
    neighbour(format, power, random.between(-2, 2)).max(1)
}
