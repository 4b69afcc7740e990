// Drawn operands for fma under an attribute: kinds by where the exact value lies.

use crate::draws_several::*;
use crate::format::Format;
use crate::operands::*;
use crate::random::Random;

/// A kind of drawn operands: its name, and how one is drawn.
pub type Drawn<T> = (&'static str, fn(Format, &mut Random) -> T);

pub const FMA_KINDS: [Drawn<[u64; 3]>; 18] = [
    ("special operands", specials),
    ("a NaN in each place", nan_in_place),
    ("about the least normal number", least_normal),
    ("tiny before rounding and not after", tiny_before),
    ("about the largest number", largest),
    ("about half and quarter of the smallest unit", half_unit),
    ("exact subnormal results", exact_subnormal),
    ("inexact subnormal results", inexact_subnormal),
    ("ties and beside ties", tie),
    ("ties with a far tail", tie_with_tail),
    ("at powers of two", power_of_two),
    ("zero sums", zero_sum),
    ("exact normal results", exact_normal),
    ("cancellations", cancellation),
    ("far-apart terms", far_apart),
    ("overflow by far", far_above),
    ("underflow by far", far_below),
    ("all classes", all_classes),
];

/// A zero, an infinity or a NaN of either kind, or now and then a number.
pub fn special(format: Format, random: &mut Random) -> u64 {
    match random.below(5) {
        0 => signed(format, random.coin(), 0),
        1 => signed(format, random.coin(), format.infinity()),
        2 => of_class(format, QUIET, random),
        3 => of_class(format, SIGNALLING, random),
        _ => finite(format, random),
    }
}

fn specials(format: Format, random: &mut Random) -> [u64; 3] {
    let infinity = |random: &mut Random| signed(format, random.coin(), format.infinity());
    match random.below(4) {
        0 => {
            let zero = signed(format, random.coin(), 0);
            let (x, y) = (zero, infinity(random));
            let (x, y) = if random.coin() { (x, y) } else { (y, x) };
            [x, y, special(format, random)]
        }
        1 => [infinity(random), finite(format, random), infinity(random)],
        _ => [special(format, random), special(format, random), special(format, random)],
    }
}

/// A NaN, quiet or signalling, at one place, or at two of them; a number, a
/// zero or an infinity at the others.
fn nan_in_place(format: Format, random: &mut Random) -> [u64; 3] {
    let nan = |random: &mut Random| {
        let class = if random.coin() { QUIET } else { SIGNALLING };
        of_class(format, class, random)
    };
    let class = |random: &mut Random| of_class(format, random.below(QUIET as u64) as usize, random);
    let mut operands = [class(random), class(random), class(random)];
    operands[random.below(3) as usize] = nan(random);
    if random.below(4) == 0 {
        operands[random.below(3) as usize] = nan(random);
    }
    operands
}

/// Two factors of first * second * 2^sum, whose product has this sign.
fn split(
    format: Format,
    random: &mut Random,
    negative: bool,
    (first, second): (u64, u64),
    sum: i32,
) -> [u64; 2] {
    let lean = random.between(-highest(format) / 8, highest(format) / 8);
    let exponent = sum / 2 + lean;
    let flip = random.coin();
    let x = placed(format, flip, first, exponent);
    let y = placed(format, flip != negative, second, sum - exponent);
    if random.coin() { [x, y] } else { [y, x] }
}

/// Two factors of number * 2^place, exactly, or a little to either side: by a
/// digit near below, or by one as far below as two factors can reach.
fn near(format: Format, random: &mut Random, number: i64, place: i32) -> [u64; 2] {
    let digits = format.fraction_bits;
    let (negative, whole) = (number < 0, number.unsigned_abs());
    let room = digits - (64 - whole.leading_zeros());
    match random.below(6) {
        0 | 1 => split(format, random, negative, (whole, 1), place),
        2 | 3 => {
            let gap = 1 + random.below(room as u64) as u32;
            let beside = (number << gap) + if random.coin() { 1 } else { -1 };
            let factors = (beside.unsigned_abs(), 1);
            split(format, random, beside < 0, factors, place - gap as i32)
        }
        // n (2^a + 1) (2^a - 1) = n 2^2a - n
        4 => {
            let power = room - random.below(room.min(3) as u64) as u32;
            let factors = (whole * ((1 << power) + 1), (1 << power) - 1);
            split(format, random, negative, factors, place - 2 * power as i32)
        }
        // n (2^a + 1) (2^2a - 2^a + 1) = n 2^3a + n
        _ => {
            let power = longest_gap(format).min(room);
            let factors = (whole * ((1 << power) + 1), (1 << (2 * power)) - (1 << power) + 1);
            split(format, random, negative, factors, place - 3 * power as i32)
        }
    }
}

/// The sum is base + eighths * 2^place, or beside it, where z is the pattern
/// `steps` below base and each step is eight times 2^place; of either sign.
fn about(
    format: Format,
    random: &mut Random,
    base: u64,
    (steps, eighths): (i64, i64),
    place: i32,
) -> [u64; 3] {
    let [x, y] = near(format, random, eighths + 8 * steps, place);
    let flip = signed(format, random.coin(), 0);
    [x ^ flip, y, (base as i64 - steps) as u64 ^ flip]
}

/// A few steps, or as many as leave room for a digit below the eighths.
fn some_steps(format: Format, random: &mut Random) -> i64 {
    match random.coin() {
        true => random.below(4) as i64,
        false => random.up_to_bits(format.fraction_bits / 2 - 3) as i64,
    }
}

/// Eighths of the smallest unit around 2^emin, where tininess turns.
fn least_normal(format: Format, random: &mut Random) -> [u64; 3] {
    let steps = some_steps(format, random);
    let steps = if random.coin() { steps } else { -steps };
    // To nearest tininess turns at -2 and the answer at -4; else it is -4 and 0.
    let eighths = if random.coin() { random.between(-5, 1) } else { random.between(-12, 12) };
    let place = lowest(format) - 3;
    about(format, random, format.smallest_normal(), (steps, eighths as i64), place)
}

/// Below 2^emin by a quarter of the smallest unit or less: to nearest, with no
/// least exponent, that is 2^emin. By a power of two of any size, by digits of
/// their own, or as near below the quarter as two factors reach.
fn tiny_before(format: Format, random: &mut Random) -> [u64; 3] {
    let (digits, place) = (format.fraction_bits, lowest(format) - 2);
    let [x, y] = match random.below(4) {
        0 => split(format, random, true, (1, 1), place),
        1 => {
            let down = random.below(2 * digits as u64) as i32;
            split(format, random, true, (1, 1), place - down)
        }
        2 => {
            let factors = (significand(format, random), significand(format, random));
            split(format, random, true, factors, place - 2 * digits as i32 - 2)
        }
        _ => {
            let power = random.between(1, digits as i32) as u32;
            let factors = ((1 << power) + 1, (1 << power) - 1);
            split(format, random, true, factors, place - 2 * power as i32)
        }
    };
    let flip = signed(format, random.coin(), 0);
    [x ^ flip, y, format.smallest_normal() ^ flip]
}

/// Eighths of a gap around the largest finite number and the next above.
fn largest(format: Format, random: &mut Random) -> [u64; 3] {
    let place = highest(format) - format.fraction_bits as i32 - 3;
    let part = |random: &mut Random, most: i32| {
        let eighths = random.between(1, most) as u64;
        neighbour(format, placed(format, false, eighths, place), random.between(-1, 1))
    };
    let flip = signed(format, random.coin(), 0);
    match random.below(4) {
        0 => {
            // From above: 2^(emax + 1) is a product, and no number.
            let [x, y] = split(format, random, false, (1, 1), highest(format) + 1);
            [x ^ flip, y, part(random, 28) ^ format.sign_bit() ^ flip]
        }
        1 => {
            let x = neighbour(format, format.largest_finite(), random.between(-1, 0));
            [x ^ flip, format.one(), part(random, 20) ^ flip]
        }
        _ => {
            // To nearest overflow begins at 4, toward zero at 8, outward above 0.
            let turn = random.pick(&[0, 4, 8]);
            let eighths = if random.coin() { turn } else { random.between(-12, 20) };
            let steps = some_steps(format, random);
            about(format, random, format.largest_finite(), (steps, eighths as i64), place)
        }
    }
}

/// Eighths below the smallest unit, where the answer is it or zero.
fn half_unit(format: Format, random: &mut Random) -> [u64; 3] {
    let eighths = random.pick(&[2, 4, 4, 6]);
    let place = lowest(format) - 3;
    match random.below(3) {
        0 => about(format, random, 0, (0, eighths), place),
        1 => about(format, random, 1, (0, -eighths), place),
        _ => about(format, random, 1, (0, eighths - 8), place),
    }
}

fn exact_subnormal(format: Format, random: &mut Random) -> [u64; 3] {
    let half = format.fraction_bits / 2;
    let factors = (random.up_to_bits(half), random.up_to_bits(half - 1));
    let negative = random.coin();
    let [x, y] = split(format, random, negative, factors, lowest(format));
    let z = random.up_to_bits(format.fraction_bits - 1);
    [x, y, signed(format, random.coin(), z)]
}

fn inexact_subnormal(format: Format, random: &mut Random) -> [u64; 3] {
    let digits = format.fraction_bits as i32;
    let factors = (significand(format, random), significand(format, random));
    let top = lowest(format) + random.between(-1, digits - 1);
    let negative = random.coin();
    let [x, y] = split(format, random, negative, factors, top - 2 * digits);
    let z = match random.below(3) {
        0 => 0,
        _ => random.up_to_bits(format.fraction_bits),
    };
    [x, y, signed(format, random.coin(), z)]
}

/// Half a last place beside a normal number, exactly or nearly.
fn tie(format: Format, random: &mut Random) -> [u64; 3] {
    match random.below(4) {
        0 => tie_by_sum(format, random),
        1 => tie_by_product(format, random),
        _ => {
            let range = format.largest_finite() - format.smallest_normal();
            let z = format.smallest_normal() + random.below(range);
            let place = last_place(format, z) - 3;
            let eighths = random.pick(&[4, 4, -4, 12]);
            about(format, random, z, (0, eighths), place)
        }
    }
}

fn tie_with_tail(format: Format, random: &mut Random) -> [u64; 3] {
    match random.coin() {
        true => tie_with_far_tail(format, random),
        false => tie_with_far_tail_above(format, random),
    }
}

/// Eighths of the gap below a power of two, on both of its sides.
fn power_of_two(format: Format, random: &mut Random) -> [u64; 3] {
    let digits = format.fraction_bits as i32;
    let exponent = random.between(2 - highest(format), highest(format));
    let power = placed(format, false, 1, exponent);
    let (steps, eighths) = (random.below(3) as i64, random.between(-12, 20) as i64);
    about(format, random, power, (steps, eighths), exponent - digits - 4)
}

/// The product taken away from itself, or zeros added.
fn zero_sum(format: Format, random: &mut Random) -> [u64; 3] {
    let negative = random.coin();
    if random.below(3) == 0 {
        let zero = signed(format, negative, 0);
        let (x, y) = (zero, if random.coin() { zero } else { finite(format, random) });
        let z = signed(format, random.coin(), 0);
        return if random.coin() { [x, y, z] } else { [y, x, z] };
    }
    let half = (format.fraction_bits + 1) / 2;
    let (first, second) = (random.up_to_bits(half), random.up_to_bits(half));
    let sum = random.between(lowest(format), highest(format) - 2 * half as i32);
    let [x, y] = split(format, random, negative, (first, second), sum);
    [x, y, placed(format, !negative, first * second, sum)]
}

fn exact_normal(format: Format, random: &mut Random) -> [u64; 3] {
    let digits = format.fraction_bits;
    let factors = (random.up_to_bits(digits / 2), random.up_to_bits(digits / 2));
    let sum = random.between(1 - highest(format), highest(format) - digits as i32 - 1);
    let negative = random.coin();
    let [x, y] = split(format, random, negative, factors, sum);
    [x, y, placed(format, random.coin(), random.up_to_bits(digits), sum)]
}

/// A number whose leading digit has an exponent in the range.
fn with_top(format: Format, random: &mut Random, first: i32, last: i32) -> u64 {
    let exponent = random.between(first, last) - format.fraction_bits as i32;
    placed(format, random.coin(), significand(format, random), exponent)
}

fn far_above(format: Format, random: &mut Random) -> [u64; 3] {
    let (first, last) = (highest(format) / 2 + 1, highest(format));
    let (x, y) = (with_top(format, random, first, last), with_top(format, random, first, last));
    let zero = signed(format, random.coin(), 0);
    [x, y, if random.coin() { zero } else { finite(format, random) }]
}

fn far_below(format: Format, random: &mut Random) -> [u64; 3] {
    let (first, last) = (1 - highest(format), lowest(format) / 2 - 1);
    let (x, y) = (with_top(format, random, first, last), with_top(format, random, first, last));
    let zero = signed(format, random.coin(), 0);
    [x, y, if random.coin() { zero } else { finite(format, random) }]
}

fn all_classes(format: Format, random: &mut Random) -> [u64; 3] {
    [any(format, random), any(format, random), any(format, random)]
}
