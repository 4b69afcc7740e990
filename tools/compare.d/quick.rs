//! Drawn operands made by shifts and masks alone, so that millions take a moment. Each kind is built on purpose and has a
//! name, under which a run counts it. Here are the kinds of the operations on one pattern, and what all kinds draw from.

use crate::ends::{OF_ONE, OF_SCALING};
use crate::format::Format;
use crate::random::Random;
use crate::request::Request;

/// One kind of operands: its name, and how the next of them is drawn. The turn counts those of the kind.
#[derive(Clone, Copy)]
pub struct Draw {
    pub kind: &'static str,
    pub make: fn(Format, u64, &mut Random) -> Request,
}

pub const fn draw(kind: &'static str, make: fn(Format, u64, &mut Random) -> Request) -> Draw {
    Draw { kind, make }
}

/// Two lists of kinds as one.
pub const fn joined<const A: usize, const B: usize, const N: usize>(
    first: [Draw; A],
    second: [Draw; B],
) -> [Draw; N] {
    assert!(A + B == N);
    let mut all = [first[0]; N];
    let mut place = 1;
    while place < N {
        all[place] = if place < A { first[place] } else { second[place - A] };
        place += 1;
    }
    all
}

/// The first so many requests of one kind.
#[cfg(test)]
pub fn drawn(draws: &[Draw], kind: &str, format: Format, count: u64) -> Vec<Request> {
    let mut random = Random::new(1, 1);
    let make = draws.iter().find(|draw| draw.kind == kind).expect("a kind of the list").make;
    (0..count).map(|turn| make(format, turn, &mut random)).collect()
}

/// Operands of floor, ceil and trunc: those of the known difference and their neighbours first, so that the shortest run meets
/// it; then numbers about the integers at every exponent, and patterns of all classes.
pub static FOR_WHOLE: [Draw; 6] = joined(WHOLES, OF_ONE);
pub const WHOLES: [Draw; 3] = [
    draw("about powers of two below one", |f, turn, random| {
        Request::word(about_power_below_one(f, turn, random))
    }),
    draw("beside an integer", |f, turn, random| Request::word(near_integer(f, turn, random))),
    draw("all classes", |f, turn, random| Request::word(pattern(f, turn, random))),
];

/// Operands of scalbn: every class of x, and powers that send it to where something changes.
pub static FOR_SCALING: [Draw; 14] = joined(SCALED, OF_SCALING);
const SCALED: [Draw; 9] = [
    draw("n about 0", |f, turn, random| scaled(f, turn, random, about_zero)),
    draw("n of the format's range", |f, turn, random| scaled(f, turn, random, as_far_as_the_field)),
    draw("subnormal results", |f, turn, random| scaled(f, turn, random, to_the_subnormals)),
    draw("ties, and beside them", |f, turn, random| scaled(f, turn, random, to_a_tie)),
    draw("ties with a tail", |f, turn, random| scaled(f, turn, random, to_a_tie_with_a_tail)),
    draw("about the greatest exponent", |f, turn, random| scaled(f, turn, random, to_the_greatest)),
    draw("steps of a routine", |f, turn, random| scaled(f, turn, random, by_steps)),
    draw("n at its ends", |f, turn, random| scaled(f, turn, random, to_the_ends)),
    draw("n of every length", |f, turn, random| scaled(f, turn, random, of_every_length)),
];

/// x of any class, and the power that `power` gives for the exponents of its first and its last digit.
fn scaled(
    format: Format,
    turn: u64,
    random: &mut Random,
    power: fn(Format, (i32, i32), &mut Random) -> i32,
) -> Request {
    let x = if random.coin() { near_step(format, random) } else { pattern(format, turn, random) };
    Request::word_and_number(x, power(format, ends(format, x), random))
}

fn half_unit(format: Format) -> i32 {
    -(format.unit_shift() as i32) - 1
}

fn about_zero(_: Format, _: (i32, i32), random: &mut Random) -> i32 {
    random.between(-3, 3)
}

fn to_the_ends(_: Format, _: (i32, i32), random: &mut Random) -> i32 {
    random.pick(&[i32::MIN, i32::MIN + 1, i32::MAX, i32::MAX - 1, 1 << 30, -1 << 16])
}

fn of_every_length(_: Format, _: (i32, i32), random: &mut Random) -> i32 {
    random.word() as i32 >> random.below(32)
}

/// As far as the field reaches, and a little further.
fn as_far_as_the_field(format: Format, _: (i32, i32), random: &mut Random) -> i32 {
    let far = 2 * format.bias() as i32 + format.fraction_bits as i32 + 4;
    random.between(-far, far)
}

/// The result is subnormal, or has just ceased to be.
fn to_the_subnormals(format: Format, (top, _): (i32, i32), random: &mut Random) -> i32 {
    half_unit(format) + random.between(-2, format.fraction_bits as i32 + 3) - top
}

/// The last digit set comes to stand at half the smallest unit, or next to it: ties and what is beside them.
fn to_a_tie(format: Format, (_, last): (i32, i32), random: &mut Random) -> i32 {
    half_unit(format) + random.pick(&[-1, 0, 0, 1]) - last
}

/// So does another digit, with what is set below it for a tail.
fn to_a_tie_with_a_tail(format: Format, (top, last): (i32, i32), random: &mut Random) -> i32 {
    half_unit(format) - random.between(last.min(top), top)
}

fn to_the_greatest(format: Format, (top, _): (i32, i32), random: &mut Random) -> i32 {
    format.bias() as i32 + random.between(-1, 2) - top
}

/// Steps in which a routine may scale.
fn by_steps(format: Format, _: (i32, i32), random: &mut Random) -> i32 {
    let (bias, digits) = (format.bias() as i32, format.fraction_bits as i32);
    random.between(-3, 3) * bias + random.between(-digits - 2, digits + 2)
}

/// A number about the least, the middle or the greatest exponent: a routine that scales in steps of the whole range then
/// has its last step among the subnormals, where a step too many rounds twice.
fn near_step(format: Format, random: &mut Random) -> u64 {
    let (bias, digits) = (format.bias() as i32, format.fraction_bits as i32);
    let field = random.pick(&[0, bias, 2 * bias]) + random.between(-digits - 3, digits + 3);
    let field = field.clamp(0, 2 * bias) as u64;
    sign(format, random) | field << format.fraction_bits | fraction(format, random)
}

/// The exponents of the first and the last digit set; those of a zero, infinity or NaN mean nothing.
fn ends(format: Format, x: u64) -> (i32, i32) {
    let (field, fraction) = (format.exponent_field(x), format.fraction_field(x));
    let number = if field == 0 { fraction } else { fraction | format.smallest_normal() };
    let place = field.max(1) as i32 - 1 - format.unit_shift() as i32;
    (place + 63 - number.leading_zeros() as i32, place + number.trailing_zeros() as i32)
}

/// Every normal power of two below one in turn, of either sign, from one half down: itself, a place or two above and below
/// it, and with one digit more.
fn about_power_below_one(format: Format, turn: u64, random: &mut Random) -> u64 {
    let (power, greatest) = (turn / 4, u64::from(format.bias()) - 1);
    let field = greatest - power / 2 % greatest;
    let power = power % 2 * format.sign_bit() | field << format.fraction_bits;
    match turn % 4 {
        0 => power,
        1 => power + 1 + random.below(2),
        2 => power - 1 - random.below(2),
        _ => power | 1 << random.below(format.fraction_bits.into()),
    }
}

/// A number whose digits below the point are none, the least, one half, its neighbours, or all of them.
fn near_integer(format: Format, turn: u64, random: &mut Random) -> u64 {
    let digits = format.fraction_bits;
    let above = (turn % (digits as u64 + 5)) as i32 - 2;
    let below = (digits as i32 - above).clamp(0, digits as i32) as u32;
    let ones = (1u64 << below) - 1;
    let half = (1u64 << below) >> 1;
    let any = random.word();
    let tail = random.pick(&[0, 1, half, half.saturating_sub(1), half + 1, ones, any]) & ones;
    let whole = fraction(format, random) & !ones;
    let field = (format.bias() as i32 + above) as u64;
    sign(format, random) | field << digits | whole | tail
}

/// Any pattern, the awkward ones made frequent: every class, every exponent, subnormals of every length.
pub fn pattern(format: Format, turn: u64, random: &mut Random) -> u64 {
    let fields = format.exponent_field(format.infinity()) as u64;
    let field = random.below(fields) << format.fraction_bits;
    let magnitude = match turn % 5 {
        0 => return random.word() & format.all_ones(),
        1 => special(format, random),
        2 => random.up_to_bits(format.fraction_bits),
        3 => field.saturating_add_signed(random.between(-2, 2).into()),
        _ => field | fraction(format, random),
    };
    sign(format, random) | magnitude
}

/// Magnitudes at the ends of the classes, and NaNs of both sorts.
pub fn special(format: Format, random: &mut Random) -> u64 {
    let (infinity, normal) = (format.infinity(), format.smallest_normal());
    let quiet = format.canonical_nan();
    let payload = random.word() & (normal - 1);
    random.pick(&[
        0,
        1,
        normal - 1,
        normal,
        normal + 1,
        format.one() - 1,
        format.one(),
        format.one() + 1,
        format.largest_finite(),
        infinity,
        infinity + 1,
        quiet - 1,
        quiet,
        quiet | payload,
        infinity | payload & !(quiet ^ infinity) | 1,
        infinity | normal - 1,
    ])
}

/// A fraction field: none, one digit, runs of ones from either end, or any.
pub fn fraction(format: Format, random: &mut Random) -> u64 {
    let all = format.smallest_normal() - 1;
    let place = random.below(format.fraction_bits.into());
    let low = (1u64 << place) - 1;
    let any = random.word() & all;
    random.pick(&[0, 1, all, 1 << place, low, all & !low, any, any & !low])
}

pub fn sign(format: Format, random: &mut Random) -> u64 {
    if random.coin() { format.sign_bit() } else { 0 }
}

#[cfg(test)]
mod tests {
    use super::*;
    use crate::format::{WIDTH_32, WIDTH_64};
    use crate::halves::is_power_below_one;
    use std::collections::BTreeSet;

    #[test]
    fn every_power_of_two_below_one_comes_before_any_comes_again() {
        for (format, count) in [(WIDTH_32, 2 * 126), (WIDTH_64, 2 * 1022)] {
            let about = drawn(&FOR_WHOLE, "about powers of two below one", format, 4 * count);
            let (powers, others): (Vec<_>, Vec<_>) =
                about.iter().map(Request::x).partition(|x| is_power_below_one(format, *x));
            assert_eq!((powers.len() as u64, others.len() as u64), (count, 3 * count));
            assert_eq!(powers.iter().collect::<BTreeSet<_>>().len() as u64, count);
        }
    }
}
