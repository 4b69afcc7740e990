//! Operands at the ends of the range, where flags turn: sums and scaled numbers about the least normal number and about the
//! largest, by sixteenths of a place, and NaNs, infinities and zeros in every position.

use crate::format::Format;
use crate::fused_ties::split;
use crate::numbers::{factors, last_place, moved, scaled, subnormal};
use crate::plain::fma_of_kind;
use crate::quick::{Draw, draw, fraction, pattern, sign, special};
use crate::random::Random;
use crate::request::Request;

/// Of fma; they come after the other kinds of its operands.
pub const OF_FUSED: [Draw; 12] = [
    draw("sums about the least normal number, by sixteenths", about_the_least),
    draw("sums about the largest number, by sixteenths", about_the_largest),
    draw("products about the least normal number", product_about_the_least),
    draw("least normal number, of the plain program", |f, _, random| {
        fma_of_kind("about the least normal number", f, random)
    }),
    draw("largest number, of the plain program", |f, _, random| {
        fma_of_kind("about the largest number", f, random)
    }),
    draw("half and quarter of the smallest unit", |f, _, random| {
        fma_of_kind("about half and quarter of the smallest unit", f, random)
    }),
    draw("exact subnormal results", |f, _, random| {
        fma_of_kind("exact subnormal results", f, random)
    }),
    draw("inexact subnormal results", |f, _, random| {
        fma_of_kind("inexact subnormal results", f, random)
    }),
    draw("a NaN in each position", nan_in_each),
    draw("zero times infinity, z of every class", zero_times_infinity),
    draw("infinities against each other", infinities),
    draw("exact normal results", |f, _, random| fma_of_kind("exact normal results", f, random)),
];

/// Of scalbn.
pub const OF_SCALING: [Draw; 5] = [
    draw("about the least normal number, every last digit", |f, turn, random| {
        to_the_end(f, turn, random, 1 - f.bias() as i32)
    }),
    draw("about the largest number, every last digit", |f, turn, random| {
        to_the_end(f, turn, random, f.bias() as i32)
    }),
    draw("about the smallest unit, every last digit", |f, turn, random| {
        to_the_end(f, turn, random, -(f.unit_shift() as i32))
    }),
    draw("exact subnormal results", exact_subnormal),
    draw("NaNs", |f, turn, random| {
        Request::word_and_number(nan(f, turn, random), random.between(-9, 9))
    }),
];

/// Of the operations on one pattern.
pub const OF_ONE: [Draw; 3] = [
    draw("about the least normal number", |f, turn, random| {
        Request::word(sign(f, random) | moved(f, f.smallest_normal(), (turn % 17) as i32 - 8))
    }),
    draw("about the largest number", |f, turn, random| {
        Request::word(sign(f, random) | (f.largest_finite() - turn % 8))
    }),
    draw("NaNs", |f, turn, random| Request::word(nan(f, turn, random))),
];

/// A NaN of either sort and sign, every digit of its fraction in turn.
pub fn nan(format: Format, turn: u64, random: &mut Random) -> u64 {
    let quiet = format.canonical_nan() ^ format.infinity();
    let digit = 1 << (turn / 2 % u64::from(format.fraction_bits - 1));
    let any = (random.word() & (quiet - 1)).max(1);
    let payload = random.pick(&[digit, digit, quiet - 1, any]);
    let sort = if turn % 2 == 0 { 0 } else { quiet };
    let empty = turn % 16 == 15;
    sign(format, random) | format.infinity() | sort | if empty { 0 } else { payload }
}

fn nan_in_each(format: Format, turn: u64, random: &mut Random) -> Request {
    let mut words = [0; 3].map(|_| match random.coin() {
        true => sign(format, random) | special(format, random),
        false => pattern(format, 4, random),
    });
    words[(turn % 3) as usize] = nan(format, turn / 3, random);
    Request::three_words(words)
}

/// A NaN of either sort is z half the time.
fn zero_times_infinity(format: Format, turn: u64, random: &mut Random) -> Request {
    let (zero, infinity) = (sign(format, random), sign(format, random) | format.infinity());
    let [x, y] = if random.coin() { [zero, infinity] } else { [infinity, zero] };
    let z = match turn % 2 {
        0 => nan(format, turn / 2, random),
        _ => pattern(format, turn / 2, random),
    };
    Request::three_words([x, y, z])
}

/// An infinite product and an infinite z, of one sign or of two; now and then one of them finite.
fn infinities(format: Format, _: u64, random: &mut Random) -> Request {
    let infinity = |random: &mut Random| sign(format, random) | format.infinity();
    let finite = |random: &mut Random| sign(format, random) | fraction(format, random) | format.one();
    let [x, y] = [infinity(random), if random.coin() { infinity(random) } else { finite(random) }];
    let z = if random.below(4) == 0 { finite(random) } else { infinity(random) };
    let [x, y] = if random.coin() { [x, y] } else { [y, x] };
    Request::three_words([x, y, z])
}

/// The base, and so many sixteenths of the place there: z is some places off the base, and the product is the rest, with
/// or without a digit as far below as there is room for, by one of the tails.
pub fn by_sixteenths(
    format: Format,
    (base, sixteenths): (u64, i64),
    tails: &[i64],
    random: &mut Random,
) -> Request {
    let places = random.pick(&[0, 0, 1, -1, 2, -2, 5, -7, 16, -31]);
    let z = base.saturating_add_signed(places).min(format.largest_finite());
    let off = base as i64 - z as i64;
    let gap = 1 + random.below(u64::from(format.fraction_bits) - 12) as u32;
    let rest = ((sixteenths + 16 * off) << gap) + random.pick(tails);
    let place = last_place(format, base) - 4 - gap as i32;
    let flip = sign(format, random);
    if rest == 0 {
        return Request::three_words([sign(format, random), format.one(), z ^ flip]);
    }
    let digits = rest.unsigned_abs();
    let twos = digits.trailing_zeros();
    let [x, y] = factors(format, split(digits >> twos), place + twos as i32, random);
    let against = if rest < 0 { format.sign_bit() } else { 0 };
    let (one, other) = (sign(format, random), flip);
    Request::three_words([x ^ one, y ^ one ^ against ^ flip, z ^ other])
}

/// Tininess turns at -4 sixteenths, the answer at -8.
fn about_the_least(format: Format, turn: u64, random: &mut Random) -> Request {
    by_sixteenths(format, (format.smallest_normal(), (turn % 41) as i64 - 28), &[-1, 0, 1], random)
}

/// Overflow begins at 8.
fn about_the_largest(format: Format, turn: u64, random: &mut Random) -> Request {
    by_sixteenths(format, (format.largest_finite(), (turn % 49) as i64 - 16), &[-1, 0, 1], random)
}

/// (2^p - i) (2^(p - 1) + j) with i about 2j: the product is a power of two less 2 j^2, so that j of every length brings it
/// every part of the smallest unit below the least normal number; z is nothing, or a unit or two.
fn product_about_the_least(format: Format, turn: u64, random: &mut Random) -> Request {
    let p = format.fraction_bits + 1;
    let j = random.of_bits(1 + (turn % u64::from(p / 2)) as u32);
    let i = 2 * j + random.below(3) - 1;
    let exponent = 1 - format.bias() as i32 - 2 * p as i32 + 1;
    let [x, y] = factors(format, [(1 << p) - i, (1 << (p - 1)) + j], exponent, random);
    let z = random.pick(&[0, 0, 1, 2]) | sign(format, random);
    Request::three_words([x ^ sign(format, random), y ^ sign(format, random), z])
}

/// The leading digit of the result comes to stand about this exponent; the digits are all ones but for the last four, or
/// a power of two and the last four, each pattern of these in turn, and the number is of any size.
fn to_the_end(format: Format, turn: u64, random: &mut Random, top: i32) -> Request {
    let (last, one) = (turn % 16, format.smallest_normal());
    let digits = if turn / 16 % 2 == 0 { 2 * one - 16 + last } else { one + last };
    let length = format.fraction_bits as i32;
    let at = random.between(-(format.bias() as i32) + 1, format.bias() as i32);
    // One in eight is subnormal: as many of its first digits as there is room for.
    let x = match turn / 32 % 8 {
        7 => digits >> 1 >> random.below(format.fraction_bits.into()),
        _ => scaled(format, digits, at - length),
    };
    let x = x.max(1);
    let leading = last_place(format, x) + (63 - (format.significand(x).0).leading_zeros() as i32);
    Request::word_and_number(x | sign(format, random), top + random.pick(&[-3, -2, -1, -1, -1, 0, 0, 1, 2]) - leading)
}

/// A subnormal number of every length, brought there by n from another place.
fn exact_subnormal(format: Format, turn: u64, random: &mut Random) -> Request {
    let units = subnormal(1 + turn % u64::from(format.fraction_bits), random);
    let unit = format.unit_shift() as i32;
    let n = random.between(-unit - format.bias() as i32 + units.ilog2() as i32, 0);
    Request::word_and_number(scaled(format, units, -unit - n) | sign(format, random), n)
}

#[cfg(test)]
mod tests {
    use super::*;
    use crate::format::{WIDTH_32, WIDTH_64};
    use crate::operations::find;
    use crate::places::{place_of, places_of};
    use crate::plain::exact;
    use crate::quick::drawn;
    use std::collections::BTreeMap;

    /// How often each place is met by so many of a kind.
    fn met(draws: &[Draw], kind: &str, name: &str, count: u64) -> BTreeMap<&'static str, u64> {
        let operation = find(name).unwrap();
        let mut met = BTreeMap::new();
        for request in drawn(draws, kind, operation.format, count) {
            let place = place_of(operation, &request, &exact(operation, &request));
            *met.entry(places_of(operation)[place]).or_default() += 1;
        }
        met
    }
    fn has(met: &BTreeMap<&'static str, u64>, least: u64, places: &[&str]) {
        for place in places {
            assert!(met.get(place).is_some_and(|count| *count >= least), "{place}: {met:?}");
        }
    }

    #[test]
    fn sums_about_the_least_normal_number_are_on_both_sides_of_every_turn() {
        for name in ["fma64", "fma32"] {
            let kind = "sums about the least normal number, by sixteenths";
            has(&met(&OF_FUSED, kind, name, 20_000), 100, &[
                "past three quarters of the way to the least normal number",
                "three quarters of the way to the least normal number",
                "from half to three quarters of the way to the least normal number",
                "beside the largest subnormal number, inexact",
                "just above the least normal number",
                "the least normal number, exactly",
            ]);
            let kind = "products about the least normal number";
            has(&met(&OF_FUSED, kind, name, 20_000), 100, &[
                "past three quarters of the way to the least normal number",
                "from half to three quarters of the way to the least normal number",
            ]);
        }
    }
    #[test]
    fn sums_about_the_largest_number_are_on_both_sides_of_the_turn_and_on_it() {
        for name in ["fma64", "fma32"] {
            let kind = "sums about the largest number, by sixteenths";
            has(&met(&OF_FUSED, kind, name, 20_000), 100, &[
                "the largest number and less than half a place",
                "the largest number and half a place",
                "the largest number and more than half a place",
                "the largest number, exactly",
                "overflow, further up",
            ]);
        }
    }
    #[test]
    fn nans_of_both_sorts_are_in_every_position() {
        for name in ["fma64", "fma32"] {
            has(&met(&OF_FUSED, "a NaN in each position", name, 20_000), 100, &[
                "x a signalling NaN",
                "y a signalling NaN",
                "z a signalling NaN",
                "x a quiet NaN",
                "y a quiet NaN",
                "z a quiet NaN",
            ]);
            has(&met(&OF_FUSED, "zero times infinity, z of every class", name, 20_000), 100, &[
                "zero times infinity plus a quiet NaN",
                "zero times infinity plus a signalling NaN",
                "zero times infinity",
            ]);
            has(&met(&OF_FUSED, "infinities against each other", name, 2000), 100, &[
                "infinity less infinity",
                "infinite, exact",
            ]);
        }
    }
    #[test]
    fn scaled_numbers_are_on_both_sides_of_the_ends() {
        for name in ["scalbn64", "scalbn32"] {
            let of = |kind: &str| met(&OF_SCALING, kind, name, 20_000);
            has(&of("about the least normal number, every last digit"), 100, &[
                "half way from the largest subnormal to the least normal number",
                "the least normal number, exactly",
                "subnormal result, exact",
                "subnormal result, inexact",
            ]);
            has(&of("about the largest number, every last digit"), 100, &[
                "the largest number, exactly",
                "overflow, the first binade past the largest number",
                "overflow, further up",
            ]);
            let kind = "about the smallest unit, every last digit";
            has(&of(kind), 100, &["rounded to zero", "subnormal result, inexact"]);
            has(&of("exact subnormal results"), 15_000, &["subnormal result, exact"]);
        }
    }
    #[test]
    fn every_digit_of_a_nan_is_met() {
        for format in [WIDTH_64, WIDTH_32] {
            let nans = drawn(&OF_ONE, "NaNs", format, 2000);
            assert!(nans.iter().all(|request| format.is_nan(request.x())));
            for digit in 0..format.fraction_bits - 1 {
                let alone = format.infinity() | 1 << digit;
                assert!(nans.iter().any(|request| format.magnitude(request.x()) == alone));
            }
            assert!(nans.iter().any(|request| request.x() == format.canonical_nan()));
        }
    }
}
