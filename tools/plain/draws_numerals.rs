// Drawn texts for the reader, and patterns with rooms for the writer, each kind built on purpose.

use crate::big::Big;
use crate::draws_rounded::{special, Drawn};
use crate::format::Format;
use crate::numerals::written;
use crate::operands::*;
use crate::random::Random;

/// The most bytes of a text, and the largest exponent that one can spell.
const MOST: usize = 64;
const FARTHEST: i64 = 99999;

pub const TEXT_KINDS: [Drawn<String>; 15] = [
    ("numbers of the format", |format, random| at_places(format, random, 1, 0)),
    ("halfway between two numbers", |format, random| at_places(format, random, 2, 1)),
    ("beside a number", beside_number),
    ("beside halfway", beside_halfway),
    ("about the largest number", about_largest),
    ("about the least normal number", about_least_normal),
    ("about the smallest unit", about_unit),
    ("zeros", zeros),
    ("a few digits among zeros", among_zeros),
    ("any digits, in the range", in_range),
    ("any digits, far exponents", far),
    ("about 64 bytes", about_longest),
    ("words", |_, random| random.pick(&WORDS).to_string()),
    ("one character wrong", one_wrong),
    ("any characters", |_, random| characters(random)),
];

pub const WRITING_KINDS: [Drawn<(u64, u32)>; 7] = [
    ("special operands", |format, random| with_room(format, random, special)),
    ("few digits behind the point", |format, random| with_room(format, random, few_digits)),
    ("subnormals", |format, random| {
        with_room(format, random, |format, random| {
            signed(format, random.coin(), random.up_to_bits(format.fraction_bits))
        })
    }),
    ("ends of the range", |format, random| with_room(format, random, at_an_end)),
    ("every exponent", |format, random| with_room(format, random, finite)),
    ("near powers of two", |format, random| with_room(format, random, near_power_of_two)),
    ("all classes", |format, random| with_room(format, random, any)),
];

/// Words that are numerals, and others that strtod or a reader takes them for.
const WORDS: [&str; 24] = [
    "inf", "-inf", "nan", "+inf", "-nan", "+nan", "infinity", "-infinity", "INF", "Inf", "NaN",
    "NAN", "in", "na", "i", "inff", "nann", "nan()", "nan(1)", "snan", "inf ", " nan", "- inf",
    "0xinf",
];

/// What stands in the place of a character that belongs there: bytes of the
/// grammar, letters of the wrong case, and characters of several bytes.
const CHARACTERS: [char; 28] = [
    '0', '1', '9', 'a', 'f', 'x', 'p', '.', '+', '-', 'A', 'F', 'X', 'P', 'g', 'e', 'i', 'n', ' ',
    ',', '_', '/', ':', '`', '\t', '\u{7f}', 'é', '\u{2212}',
];

/// number * 2^exponent in one of many spellings, of at most 64 bytes where the
/// number has at most 50 digits.
fn spelt(negative: bool, number: &Big, exponent: i64, random: &mut Random) -> String {
    let raise = random.below(4) as u32;
    let (number, mut exponent) = (number.shl(raise), exponent - raise as i64);
    let mut digits = hex_digits(&number);
    let free = MOST.saturating_sub(digits.len() + 11) as u64;
    let ahead = some_zeros(random, free);
    let behind = some_zeros(random, free - ahead);
    digits.insert_str(0, &"0".repeat(ahead as usize));
    digits.push_str(&"0".repeat(behind as usize));
    exponent -= 4 * behind as i64;
    if random.below(4) > 0 {
        let place = random.below(digits.len() as u64 + 1) as usize;
        exponent += 4 * (digits.len() - place) as i64;
        digits.insert(place, '.');
    }
    let sign = if negative { "-" } else { random.pick(&["", "", "+"]) };
    format!("{sign}0x{digits}p{}", power(random, exponent))
}

/// The digits of a number, `0` for zero.
pub fn hex_digits(number: &Big) -> String {
    let places = number.bits().div_ceil(4).max(1);
    (0..places).rev().map(|place| format!("{:x}", number.word_from(4 * place) & 15)).collect()
}

fn some_zeros(random: &mut Random, most: u64) -> u64 {
    match random.below(3) {
        0 => 0,
        1 => random.below(4).min(most),
        _ => random.below(most + 1),
    }
}

/// An exponent, with a sign where it needs none and with zeros ahead at times.
fn power(random: &mut Random, exponent: i64) -> String {
    let sign = match exponent.signum() {
        -1 => "-",
        0 => random.pick(&["", "+", "-"]),
        _ => random.pick(&["", "+"]),
    };
    let digits = exponent.abs().min(FARTHEST).to_string();
    let width = if random.coin() { 0 } else { random.between(1, 5) as usize };
    format!("{sign}{digits:0>width$}")
}

/// A number of the format or zero, times `by`, plus `more`, in halves of a place
/// where `by` is two.
fn at_places(format: Format, random: &mut Random, by: u64, more: u64) -> String {
    let x = finite(format, random);
    let (significand, exponent) = format.significand(x);
    let number = Big::from(by * significand + more);
    spelt(format.is_negative(x), &number, exponent - (by as i64 - 1), random)
}

/// The same number but for one digit far below, added or taken off.
fn nudged(negative: bool, number: &Big, exponent: i64, random: &mut Random) -> String {
    let below = random.between(1, 130) as u32;
    let (number, one) = (number.shl(below), Big::from(1));
    let moved = match random.coin() && !number.is_zero() {
        true => number.sub(&one),
        false => number.add(&one),
    };
    spelt(negative, &moved, exponent - below as i64, random)
}

fn beside_number(format: Format, random: &mut Random) -> String {
    let x = finite(format, random);
    let (significand, exponent) = format.significand(x);
    nudged(format.is_negative(x), &Big::from(significand), exponent, random)
}

fn beside_halfway(format: Format, random: &mut Random) -> String {
    let x = finite(format, random);
    let (significand, exponent) = format.significand(x);
    nudged(format.is_negative(x), &Big::from(2 * significand + 1), exponent - 1, random)
}

/// Eighths of a place from a magnitude, exactly or nudged.
fn by_eighths(format: Format, random: &mut Random, magnitude: u64, eighths: i32) -> String {
    let (significand, exponent) = format.significand(magnitude);
    let number = Big::from((8 * significand).saturating_add_signed(eighths as i64));
    match random.coin() {
        true => spelt(random.coin(), &number, exponent - 3, random),
        false => nudged(random.coin(), &number, exponent - 3, random),
    }
}

fn about_largest(format: Format, random: &mut Random) -> String {
    let eighths = random.between(-8, 16);
    by_eighths(format, random, format.largest_finite(), eighths)
}

fn about_least_normal(format: Format, random: &mut Random) -> String {
    let eighths = random.between(-16, 8);
    by_eighths(format, random, format.smallest_normal(), eighths)
}

fn about_unit(format: Format, random: &mut Random) -> String {
    let eighths = random.between(-8, 16);
    by_eighths(format, random, 1, eighths)
}

fn zeros(_: Format, random: &mut Random) -> String {
    let exponent = random.between(-99999, 99999) >> random.below(17);
    spelt(random.coin(), &Big::zero(), exponent as i64, random)
}

/// Zeros before the digits and behind them, on both sides of the point, and an
/// exponent that brings the number into the range.
fn among_zeros(format: Format, random: &mut Random) -> String {
    let few = Big::from(random.up_to_bits(12));
    let (ahead, behind) = (random.below(22) as u32, random.below(22) as u32);
    let digits = "0".repeat(ahead as usize) + &hex_digits(&few.shl(4 * behind));
    let place = random.below(digits.len() as u64 + 1) as usize;
    let top = random.between(lowest(format) - 4, highest(format) + 4) as i64;
    let exponent = top - 4 * place as i64 + 4 * ahead as i64;
    let sign = random.pick(&["", "+", "-"]);
    format!("{sign}0x{}.{}p{}", &digits[..place], &digits[place..], power(random, exponent))
}

/// As many as fifty digits, of which any may come.
fn any_digits(random: &mut Random) -> Big {
    let mut number = Big::zero();
    for _ in 0..random.below(4) {
        number = number.shl(random.below(50) as u32).add(&Big::from(random.up_to_bits(50)));
    }
    number.shl(random.below(4) as u32).add(&Big::from(random.up_to_bits(16)))
}

fn in_range(format: Format, random: &mut Random) -> String {
    let number = any_digits(random);
    let top = random.between(lowest(format) - 4, highest(format) + 4) as i64;
    spelt(random.coin(), &number, top - number.bits() as i64, random)
}

fn far(_: Format, random: &mut Random) -> String {
    let number = any_digits(random);
    let exponent = random.between(-99999, 99999) >> random.below(7);
    spelt(random.coin(), &number, exponent as i64, random)
}

/// A numeral with as many zeros before its digits as make it 62 to 66 bytes long.
fn about_longest(format: Format, random: &mut Random) -> String {
    let kind = random.below(7) as usize;
    let mut text = (TEXT_KINDS[kind].1)(format, random);
    let wanted = random.between(62, 66) as usize;
    let start = text.find('x').map_or(0, |place| place + 1);
    text.insert_str(start, &"0".repeat(wanted.saturating_sub(text.len())));
    text
}

/// A numeral with a character taken out, put in, put in another's place, or
/// doubled.
fn one_wrong(format: Format, random: &mut Random) -> String {
    let kind = random.below(11) as usize;
    let mut text: Vec<char> = (TEXT_KINDS[kind].1)(format, random).chars().collect();
    let place = random.below(text.len() as u64) as usize;
    let other = random.pick(&CHARACTERS);
    match random.below(4) {
        0 => drop(text.remove(place)),
        1 => text.insert(place, other),
        2 => text[place] = other,
        _ => text.insert(place, text[place]),
    }
    text.into_iter().collect()
}

fn characters(random: &mut Random) -> String {
    let most = 6 << random.below(5);
    let length = random.below(most).min(70);
    (0..length).map(|_| random.pick(&CHARACTERS)).collect()
}

/// A pattern, and a room about the length of its text: too small at times.
fn with_room(
    format: Format,
    random: &mut Random,
    draw: impl Fn(Format, &mut Random) -> u64,
) -> (u64, u32) {
    let x = draw(format, random);
    let length = written(format, x).len() as u32;
    let below = random.below(length as u64) as u32;
    (x, random.pick(&[length, length, length - 1, length - 1, length + 1, below, 0, MOST as u32]))
}

/// A normal number whose last so many bits are zeros.
fn few_digits(format: Format, random: &mut Random) -> u64 {
    let kept = random.below(format.fraction_bits as u64 + 1) as u32;
    let x = finite(format, random);
    x >> (format.fraction_bits - kept) << (format.fraction_bits - kept)
}

/// The ends of the range, and the powers at which the exponent gets a digit more.
fn at_an_end(format: Format, random: &mut Random) -> u64 {
    let turns = [0, -9, 9, -10, 10, -99, 99, -100, 100, -999, 999, -1000, 1000];
    let (low, high) = (1 - highest(format), highest(format));
    let power = placed(format, false, 1, random.pick(&turns).clamp(low, high));
    let ends = [1, format.smallest_normal(), format.largest_finite(), power];
    let near = neighbour(format, random.pick(&ends), random.between(-1, 1));
    signed(format, random.coin(), near)
}
