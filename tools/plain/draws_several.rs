// Drawn operands for fma, fmod, remquo, the reduction and the list call.

use crate::answers_flags::fma;
use crate::attributes::Attribute;
use crate::format::{Format, WIDTH_64};
use crate::operands::*;
use crate::random::Random;

/// Operands for fma. `turn` picks the kind, so that all kinds come.
pub fn for_fma(format: Format, turn: usize, random: &mut Random) -> [u64; 3] {
    match turn % 10 {
        0 => [any(format, random), any(format, random), any(format, random)],
        1 => tie_by_sum(format, random),
        2 => tie_with_far_tail(format, random),
        3 => tie_with_far_tail_above(format, random),
        4 => tie_by_product(format, random),
        5 => cancellation(format, random),
        6 => far_apart(format, random),
        7 | 8 => subnormal_result(format, random),
        _ => near_overflow(format, random),
    }
}

/// Two factors whose exponents add up to the one given, with random signs.
fn factors(format: Format, random: &mut Random, first: u64, second: u64, sum: i32) -> (u64, u64) {
    let lean = random.between(-highest(format) / 8, highest(format) / 8);
    let exponent = sum / 2 + lean;
    let x = placed(format, random.coin(), first, exponent);
    let y = placed(format, random.coin(), second, sum - exponent);
    if random.coin() { (x, y) } else { (y, x) }
}

/// The last digit of the product stands half a last place below z.
pub fn tie_by_sum(format: Format, random: &mut Random) -> [u64; 3] {
    let z = finite(format, random);
    let half = format.fraction_bits / 2;
    let (first, second) = (random.up_to_bits(half) | 1, random.up_to_bits(half) | 1);
    let (x, y) = factors(format, random, first, second, last_place(format, z) - 1);
    [x, y, z]
}

/// The product is half a last place of z but for a digit far below. Under a
/// power of two the places are half as wide, so a quarter is taken as well.
pub fn tie_with_far_tail(format: Format, random: &mut Random) -> [u64; 3] {
    let z = finite(format, random);
    let digits = format.fraction_bits;
    let one = 1u64 << digits;
    let digit = 1 << random.below(digits as u64);
    let tail = random.pick(&[1, 2, 3, digit]);
    let (first, second) = random.pick(&[
        (one + tail, one - tail),
        (one + tail, one),
        (one - tail, one),
        (one + tail, 2 * one - 2 * tail - 1),
        (one + tail, one + 1),
    ]);
    let place = last_place(format, z) - random.between(1, 2) - 2 * digits as i32;
    let (x, y) = factors(format, random, first, second, place);
    [x, y, z]
}

/// As before, but with nothing except zeros between the tie and its tail.
pub fn tie_with_far_tail_above(format: Format, random: &mut Random) -> [u64; 3] {
    let z = finite(format, random);
    let most = longest_gap(format);
    let spread = if random.coin() { 5 } else { most as u64 };
    let power = most - random.below(spread) as u32;
    let times = random.up_to_bits(format.fraction_bits - power) | 1;
    let times = if random.coin() { times } else { 1 };
    far_tail_above(format, random, z, power, times)
}

/// The greatest power that far_tail_above can take.
pub fn longest_gap(format: Format) -> u32 {
    (format.fraction_bits + 1) / 2
}

/// c (2^a + 1) (2^2a - 2^a + 1) = c 2^3a + c, placed so that c 2^3a is c
/// halves of the last place of z, or now and then c quarters.
pub fn far_tail_above(
    format: Format,
    random: &mut Random,
    z: u64,
    power: u32,
    times: u64,
) -> [u64; 3] {
    let (first, second) = (times * ((1 << power) + 1), (1 << (2 * power)) - (1 << power) + 1);
    let part = random.pick(&[1, 1, 1, 2]);
    let place = last_place(format, z) - part - 3 * power as i32;
    let (x, y) = factors(format, random, first, second, place);
    [x, y, z]
}

/// The product alone is a tie: odd, and one digit longer than a significand.
pub fn tie_by_product(format: Format, random: &mut Random) -> [u64; 3] {
    let long = format.fraction_bits + 2;
    let (mut first, mut second) = (1, 1);
    while (first as u128 * second as u128) >> (long - 1) != 1 {
        let bits = 1 + random.below(long as u64 - 2) as u32;
        first = random.of_bits(bits) | 1;
        second = random.of_bits(long - bits) | 1;
    }
    let room = highest(format) - long as i32;
    let (x, y) = {
        let sum = random.between(lowest(format) / 2, room);
        factors(format, random, first, second, sum)
    };
    // Nothing, or the least that can be, decides the tie.
    let digit = 1 << random.below(format.width as u64 - 2);
    let tail = random.pick(&[0, 0, 1, 2, format.smallest_normal(), digit]);
    [x, y, signed(format, random.coin(), tail)]
}

/// z is the rounded product with the other sign, or close to that.
pub fn cancellation(format: Format, random: &mut Random) -> [u64; 3] {
    let (first, second) = (significand(format, random), significand(format, random));
    let sum = random.between(lowest(format) - 60, highest(format)) - format.fraction_bits as i32;
    let (x, y) = factors(format, random, first, second, sum - format.fraction_bits as i32);
    let (product, _) = fma(format, Attribute::Even, [x, y, 0]);
    let z = neighbour(format, product ^ format.sign_bit(), random.between(-2, 2));
    [x, y, z]
}

/// Product and z stand a chosen number of digits apart.
pub fn far_apart(format: Format, random: &mut Random) -> [u64; 3] {
    let z = finite(format, random);
    let gap = match random.below(3) {
        0 => random.between(-140, 140),
        1 => random.between(-4, 4) + random.pick(&[-128, -64, -53, -24, 24, 53, 64, 128]),
        _ => random.between(-2 * highest(format), 2 * highest(format)),
    };
    let product_top = (top(format, z) + gap).clamp(lowest(format) - 80, highest(format) + 2);
    let sum = product_top - 2 * format.fraction_bits as i32;
    let (first, second) = (significand(format, random), significand(format, random));
    let (x, y) = factors(format, random, first, second, sum);
    [x, y, z]
}

/// The product lies among the subnormals or just outside, z as well or zero.
fn subnormal_result(format: Format, random: &mut Random) -> [u64; 3] {
    let digits = format.fraction_bits;
    let (first, second) = match random.below(3) {
        0 => (significand(format, random), significand(format, random)),
        1 => (random.up_to_bits(digits / 2) | 1, random.up_to_bits(digits / 2) | 1),
        _ => ((1 << digits) + random.below(2), (1 << digits) - random.below(2)),
    };
    let length = (128 - (first as u128 * second as u128).leading_zeros()) as i32;
    let sum = match random.coin() {
        // The last digit stands at half the smallest unit: ties and near ties.
        true => lowest(format) - 1 - random.between(0, 1) * (length - 1),
        false => lowest(format) - length + random.between(-2, digits as i32 + 3),
    };
    let (x, y) = factors(format, random, first, second, sum);
    let z = match random.below(4) {
        0 => 0,
        1 => random.pick(&[1, 2, 3]),
        2 => random.up_to_bits(digits),
        _ => neighbour(format, format.smallest_normal(), random.between(-3, 3)),
    };
    [x, y, signed(format, random.coin(), z)]
}

/// The sum lies around the first value that rounds to infinity.
fn near_overflow(format: Format, random: &mut Random) -> [u64; 3] {
    let digits = format.fraction_bits as i32;
    let half = placed(format, false, 1, highest(format) - digits - 1);
    let step = random.between(-2, 2);
    let negative = random.coin();
    let flip = if negative { format.sign_bit() } else { 0 };
    match random.below(4) {
        0 => {
            let x = neighbour(format, format.largest_finite(), random.between(-2, 0));
            let y = neighbour(format, format.one(), random.between(-2, 2));
            let z = random.pick(&[0, half, neighbour(format, half, step), 1]);
            [x ^ flip, y, signed(format, random.coin(), z)]
        }
        1 => {
            // 2^(highest + 1) from the product, taken back by about half a place.
            let (x, y) = factors(format, random, 1, 1, highest(format) + 1);
            let sign = format.sign(x) ^ format.sign(y) ^ format.sign_bit();
            [x, y, sign | neighbour(format, half, step)]
        }
        2 => {
            let one = 1u64 << digits;
            let tail = random.below(4);
            let (first, second) = random.pick(&[(one + tail, one - tail), (one + tail, one)]);
            let sum = highest(format) - 3 * digits - 1;
            let (x, y) = factors(format, random, first, second, sum);
            let z = neighbour(format, format.largest_finite(), random.between(-1, 0));
            [x, y, format.sign(x) ^ format.sign(y) | z]
        }
        _ => {
            let (first, second) = (significand(format, random), significand(format, random));
            let sum = highest(format) + random.between(-1, 1) - 2 * digits;
            let (x, y) = factors(format, random, first, second, sum);
            [x, y, finite(format, random)]
        }
    }
}

/// Operands for fmod and remquo.
pub fn for_remainder(format: Format, turn: usize, random: &mut Random) -> [u64; 2] {
    let x = finite(format, random);
    let sign = signed(format, random.coin(), 0);
    match turn % 10 {
        0 => [any(format, random), any(format, random)],
        1 => [x, sign ^ neighbour(format, x, random.between(-2, 2))],
        2 => [x, finite(format, random)],
        3 => {
            let power = placed(format, false, 1, random.between(lowest(format), highest(format)));
            [x, sign | power]
        }
        4 => [x, sign | random.up_to_bits(format.fraction_bits)],
        5 | 6 => multiple_of_half(format, random, true),
        7 | 8 => multiple_of_half(format, random, false),
        _ => {
            // x beside half of y, where the nearest quotient turns from 0 to 1.
            let y = sign ^ finite(format, random);
            let halved = placed_big(format, random.coin(), &format.units(y), lowest(format) - 1);
            [neighbour(format, halved, random.between(-1, 1)), y]
        }
    }
}

/// x is k / 2 times y, exactly or nearly; with small k, or k around a power.
fn multiple_of_half(format: Format, random: &mut Random, small: bool) -> [u64; 2] {
    let digits = format.fraction_bits;
    let halves = if small {
        random.up_to_bits(digits / 2)
    } else {
        let other = 1 + random.below(digits as u64 - 2) as u32;
        let power = random.pick(&[31, 32, 33, other]);
        let middle = 1u64 << power.min(digits - 1);
        (middle as i64 + random.between(-5, 5) as i64).max(1) as u64
    };
    let used = 64 - halves.leading_zeros();
    let divisor = random.up_to_bits((digits + 1 - used.min(digits)).max(1));
    let exponent = random.between(lowest(format) + 1, highest(format) - digits as i32 - 6);
    let x = placed(format, random.coin(), halves.saturating_mul(divisor), exponent - 1);
    let y = placed(format, random.coin(), divisor, exponent);
    let moved = if random.coin() { 0 } else { random.between(-1, 1) };
    [neighbour(format, x, moved), y]
}

/// Operands for the reduction: x, the shift, y.
pub fn for_reduction(width: u32, turn: usize, random: &mut Random) -> (u64, u32, u64) {
    let bound = (1u64 << (width - 2)) - 1;
    let fit = |number: u64| number & (u64::MAX >> (64 - width));
    let step = random.between(-2, 2) as i64 as u64;
    let y = match turn % 7 {
        0 | 1 => random.up_to_bits(width - 2),
        2 => bound.wrapping_add(step),
        3 => (1u64 << random.below(width as u64)).wrapping_add(step.wrapping_add(2) % 3),
        4 => 1 << random.below(width as u64 - 2),
        5 => random.below(4),
        _ => random.word(),
    };
    let y = fit(y);
    let x = match random.below(4) {
        0 => y.wrapping_mul(2).wrapping_sub(1 + random.below(3)),
        1 => y.wrapping_mul(2).wrapping_add(random.below(2)),
        2 => random.below(y.saturating_mul(2).max(1)),
        _ if turn % 7 == 6 => random.word(),
        _ => y.wrapping_add(step),
    };
    let shift = match random.below(6) {
        0 => random.pick(&[0, 1, 2, 31, 32, 33, 63, 64, 65, 127, 128]),
        1 => random.pick(&[4094, 4095, 4096, 4097, 4098, u32::MAX]),
        2 => random.word() as u32 >> random.below(32),
        _ => random.below(4097) as u32,
    };
    (fit(x), shift, y)
}

/// Operands for the list call: the operation number, the input, the output.
pub fn for_list(turn: usize, random: &mut Random) -> (u32, Vec<u64>, Vec<u64>) {
    let number = match random.below(8) {
        0 => random.pick(&[0, 4, 5, 1 << 31, u32::MAX]),
        _ => 1 + random.below(3) as u32,
    };
    let length = turn % 13;
    let other = match random.below(8) {
        0 => random.below(13) as usize,
        _ => length,
    };
    let place = |random: &mut Random| {
        let kind = random.below(16) as usize;
        match number {
            1 => for_root(random, kind),
            _ => crate::draws_single::for_integer(WIDTH_64, kind, random),
        }
    };
    let input = (0..length).map(|_| place(random)).collect();
    (number, input, (0..other).map(|_| random.word()).collect())
}

/// Under the root a third of the places are negative.
fn for_root(random: &mut Random, kind: usize) -> u64 {
    let x = crate::draws_single::for_root(WIDTH_64, kind, random);
    signed(WIDTH_64, random.below(3) == 0, x)
}
