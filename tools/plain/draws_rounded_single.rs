// Drawn operands for sqrt and scalbn under an attribute, and for floor, trunc and ceil with flags.

use crate::draws_rounded::{special, Drawn};
use crate::draws_single::{for_integer, for_root};
use crate::format::Format;
use crate::operands::*;
use crate::random::Random;

pub const ROOT_KINDS: [Drawn<u64>; 11] = [
    ("special operands", special),
    ("exact squares", |format, random| for_root(format, 1, random)),
    ("beside squares", |format, random| for_root(format, 2, random)),
    ("near midpoints", |format, random| for_root(format, 3, random)),
    ("near numbers", |format, random| for_root(format, 4, random)),
    ("subnormals", |format, random| for_root(format, 5, random)),
    ("near powers of two", |format, random| for_root(format, 6, random)),
    ("ends of the range", |format, random| for_root(format, 7, random)),
    ("every exponent", every_exponent),
    ("negative", |format, random| finite(format, random) | format.sign_bit()),
    ("all classes", any),
];

pub const INTEGER_KINDS: [Drawn<u64>; 9] = [
    ("special operands", special),
    ("beside integers", |format, random| for_integer(format, 1, random)),
    ("beside halves", |format, random| for_integer(format, 2, random)),
    ("about one and below", |format, random| for_integer(format, 3, random)),
    ("where fractions end", |format, random| for_integer(format, 4, random)),
    ("subnormals", |format, random| for_integer(format, 5, random)),
    ("digits on both sides of the point", |format, random| for_integer(format, 6, random)),
    ("integers with a far digit", |format, random| for_integer(format, 7, random)),
    ("all classes", any),
];

pub const SCALING_KINDS: [Drawn<(u64, i32)>; 13] = [
    ("special operands", |format, random| (special(format, random), power(format, random))),
    ("about the least normal number", least_normal),
    ("about the largest number", largest),
    ("about half and quarter of the smallest unit", half_unit),
    ("exact subnormal results", exact_subnormal),
    ("inexact subnormal results", inexact_subnormal),
    ("ties among subnormals", tie),
    ("beside ties among subnormals", beside_tie),
    ("exact normal results", exact_normal),
    ("overflow by far", far_above),
    ("underflow by far", far_below),
    ("every power", |format, random| (any(format, random), every_power(random))),
    ("all classes", |format, random| (any(format, random), power(format, random))),
];

fn every_exponent(format: Format, random: &mut Random) -> u64 {
    let exponent = random.between(1 - highest(format), highest(format));
    placed(format, false, significand(format, random), exponent - format.fraction_bits as i32)
}

/// An N for which 2^N is a number of the format.
fn power(format: Format, random: &mut Random) -> i32 {
    random.between(lowest(format), highest(format))
}

fn every_power(random: &mut Random) -> i32 {
    let end = random.pick(&[i32::MIN, i32::MIN + 1, i32::MAX - 1, i32::MAX]);
    if random.below(8) == 0 { end } else { random.word() as i32 >> random.below(32) }
}

/// A normal x of these digits and N, so that the leading digit of x * 2^N has
/// the exponent `top`, and 2^N is a number of the format.
fn scaled(format: Format, random: &mut Random, digits: u64, top: i32) -> (u64, i32) {
    let first = lowest(format).max(top - highest(format));
    let last = highest(format).min(top - (1 - highest(format)));
    let n = random.between(first, last);
    let last_digit = digits.ilog2() as i32;
    (placed(format, random.coin(), digits, top - n - last_digit), n)
}

/// Digits next to a power of two, below or above.
fn edge(format: Format, random: &mut Random) -> u64 {
    let one = format.smallest_normal();
    match random.coin() {
        true => 2 * one - 1 - random.below(8),
        false => one + random.below(8),
    }
}

fn least_normal(format: Format, random: &mut Random) -> (u64, i32) {
    let top = 1 - highest(format) - random.pick(&[0, 1, 1, 2]);
    let digits = edge(format, random);
    scaled(format, random, digits, top)
}

fn largest(format: Format, random: &mut Random) -> (u64, i32) {
    let top = highest(format) + random.between(0, 1);
    let digits = edge(format, random);
    scaled(format, random, digits, top)
}

fn half_unit(format: Format, random: &mut Random) -> (u64, i32) {
    let top = lowest(format) - random.between(1, 2);
    let digits = edge(format, random);
    scaled(format, random, digits, top)
}

fn exact_subnormal(format: Format, random: &mut Random) -> (u64, i32) {
    let units = random.up_to_bits(format.fraction_bits);
    scaled(format, random, units, lowest(format) + units.ilog2() as i32)
}

fn inexact_subnormal(format: Format, random: &mut Random) -> (u64, i32) {
    let top = random.between(lowest(format), -highest(format));
    let digits = significand(format, random);
    scaled(format, random, digits, top)
}

/// An odd number of half units.
fn tie(format: Format, random: &mut Random) -> (u64, i32) {
    let halves = random.up_to_bits(format.fraction_bits + 1) | 1;
    scaled(format, random, halves, lowest(format) - 1 + halves.ilog2() as i32)
}

fn beside_tie(format: Format, random: &mut Random) -> (u64, i32) {
    let bits = 1 + random.below(format.fraction_bits as u64) as u32;
    let gap = 1 + random.below((format.fraction_bits + 1 - bits) as u64) as u32;
    let halves = (random.of_bits(bits) | 1) << gap;
    let digits = if random.coin() { halves + 1 } else { halves - 1 };
    scaled(format, random, digits, lowest(format) - 1 - gap as i32 + digits.ilog2() as i32)
}

fn exact_normal(format: Format, random: &mut Random) -> (u64, i32) {
    let to = random.between(1 - highest(format), highest(format));
    if random.coin() {
        let digits = significand(format, random);
        return scaled(format, random, digits, to);
    }
    let x = signed(format, random.coin(), random.up_to_bits(format.fraction_bits));
    (x, (to - top(format, x)).min(highest(format)))
}

fn far_above(format: Format, random: &mut Random) -> (u64, i32) {
    let top = random.between(highest(format) + 1, 2 * highest(format));
    let digits = significand(format, random);
    scaled(format, random, digits, top)
}

fn far_below(format: Format, random: &mut Random) -> (u64, i32) {
    let top = lowest(format) - random.between(3, highest(format) - 1);
    let digits = significand(format, random);
    scaled(format, random, digits, top)
}
