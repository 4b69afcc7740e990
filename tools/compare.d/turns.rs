//! Operands at which an attribute turns: results on the points about the largest number, the least normal and the least
//! subnormal one, and a digit off them; numbers with a digit far below; sums that cancel, and zero products.

use crate::ends::by_sixteenths;
use crate::format::Format;
use crate::fused::any_signs;
use crate::fused_ties::split;
use crate::numbers::{factors, finite, highest, last_place, moved, placed, scaled, with_top};
use crate::quick::{Draw, draw, sign};
use crate::random::Random;
use crate::request::Request;
use crate::roots::nearest_to;

pub const OF_ROOTS: [Draw; 1] = [draw("roots as near to a number as there are", |f, turn, random| {
    nearest_to(f, f.fraction_bits + 1, turn, random)
})];

pub const OF_SCALED: [Draw; 1] = [draw("results where an attribute turns", scaled_to_a_point)];

pub const OF_FUSED: [Draw; 4] = [
    draw("sums where an attribute turns", sum_at_a_point),
    draw("a number, and a digit far below", digit_below),
    draw("terms that cancel, zeros among them", cancelling),
    draw("a zero product, z of every size", zero_product),
];

/// Sixteenths of a place off the largest number, the least normal and the least subnormal one: on each point, mostly, and by
/// a digit far below on both sides.
fn sum_at_a_point(format: Format, turn: u64, random: &mut Random) -> Request {
    let (largest, least) = (format.largest_finite(), format.smallest_normal());
    let points = [
        (largest, 0),
        (largest, 8),
        (largest, 16),
        (least, 0),
        (least, -4),
        (least, -8),
        (least, -16),
        (1, 0),
        (1, 8),
        (1, -8),
    ];
    by_sixteenths(format, points[turn as usize % points.len()], &[-1, 0, 0, 0, 1], random)
}

/// The exact result is one of the points, or its last digit is one off.
fn scaled_to_a_point(format: Format, turn: u64, random: &mut Random) -> Request {
    let (unit, bias, length) = (format.unit_shift() as i32, format.bias() as i32, format.fraction_bits as i32 + 1);
    let ones = 2 * format.smallest_normal() - 1;
    // Digits, and the exponent of the last of them.
    let points = [
        (1, bias + 1),
        (ones, bias + 1 - length),
        (1, 1 - bias),
        (ones, 1 - bias - length),
        (ones >> 1, -unit),
        (3, -unit - 1),
        (1, -unit),
        (ones, -unit - length),
        (1 + format.smallest_normal(), -unit - length),
        (1, -unit - 1),
        (ones, -unit - 1 - length),
    ];
    let (digits, exponent) = points[turn as usize % points.len()];
    let top = digits.ilog2() as i32;
    let from = random.between(-unit, bias - top);
    let x = moved(format, scaled(format, digits, from), random.pick(&[0, 0, -1, 1]));
    Request::word_and_number(x.max(1) | sign(format, random), exponent - from)
}

/// A number of any size, powers of two and the ends made frequent, and a digit far below: z is the number and the product
/// the digit, or the other way round.
fn digit_below(format: Format, turn: u64, random: &mut Random) -> Request {
    let unit = format.unit_shift() as i32;
    let top = random.below(u64::from(highest(format)) + 1) as u32;
    let any = with_top(format, top, random);
    let least = format.smallest_normal();
    let number = random.pick(&[any, any, placed(format, 1, top), least, least - 1, format.largest_finite(), 1]);
    let against = sign(format, random);
    // Beneath a power of two the places are half as wide.
    let below = last_place(format, number) - 2;
    if turn % 2 == 1 && below >= -unit {
        let (digits, exponent) = odd(format, number);
        let [x, y] = factors(format, split(digits), exponent, random);
        let z = scaled(format, 1, random.between(-unit, below));
        return any_signs(format, [x, y, z | against], random);
    }
    let [x, y] = factors(format, [1, 1], random.between(-2 * unit, below), random);
    any_signs(format, [x, y, number | against], random)
}

/// A number as an odd one times a power of two.
fn odd(format: Format, number: u64) -> (u64, i32) {
    let (digits, exponent) = format.significand(number);
    let twos = digits.trailing_zeros();
    (digits >> twos, exponent as i32 + twos as i32)
}

/// z is the product with the other sign, at every exponent in turn; one in four times all are zeros, of like or unlike
/// signs.
fn cancelling(format: Format, turn: u64, random: &mut Random) -> Request {
    if turn % 4 == 3 {
        let other = zero_or_not(format, random);
        return any_signs(format, [0, other, sign(format, random)], random);
    }
    let top = (turn / 4 % (u64::from(highest(format)) + 1)) as u32;
    // A product of two has a digit less than both together, or as many.
    let more = random.below(format.fraction_bits.min(top).max(1).into());
    let of_first = random.below(more + 1);
    let [first, second] = [of_first, more - of_first].map(|digits| random.of_bits(1 + digits as u32));
    let product = first * second;
    let exponent = (top - product.ilog2()) as i32 - format.unit_shift() as i32;
    let [x, y] = factors(format, [first, second], exponent, random);
    any_signs(format, [x, y, format.sign_bit() | scaled(format, product, exponent)], random)
}

fn zero_or_not(format: Format, random: &mut Random) -> u64 {
    if random.coin() { 0 } else { finite(format, random) }
}

/// z is the answer, whatever the signs are.
fn zero_product(format: Format, turn: u64, random: &mut Random) -> Request {
    let z = with_top(format, (turn % (u64::from(highest(format)) + 1)) as u32, random);
    let ends = [format.largest_finite(), format.smallest_normal(), format.smallest_normal() - 1, 1];
    let z = if turn % 8 == 0 { random.pick(&ends) } else { z };
    let other = zero_or_not(format, random);
    any_signs(format, [0, other, z | sign(format, random)], random)
}

#[cfg(test)]
mod tests {
    use super::*;
    use crate::format::{WIDTH_32, WIDTH_64};
    use crate::plain::exact;
    use crate::quick::drawn;
    use crate::rounded_places::{names, places_met};
    use crate::run::operation_of;
    use crate::table::find;
    use std::collections::BTreeMap;

    /// How often each place is met by so many of a kind.
    fn met(draws: &[Draw], kind: &str, name: &str, count: u64) -> BTreeMap<&'static str, u64> {
        let operation = operation_of(find(name).unwrap());
        let mut met = BTreeMap::new();
        for request in drawn(draws, kind, operation.format, count) {
            let places = places_met(operation, &request, &exact(operation, &request));
            places.into_iter().flatten().for_each(|place| *met.entry(names()[place]).or_default() += 1);
        }
        met
    }
    fn has(met: &BTreeMap<&'static str, u64>, least: u64, places: &[&str]) {
        for place in places.iter().flat_map(|place| [place.to_string(), format!("{place}, below zero")]) {
            assert!(met.get(place.as_str()).is_some_and(|count| *count >= least), "{place}: {met:?}");
        }
    }

    #[test]
    fn roots_are_as_near_to_a_number_as_there_are_on_both_sides() {
        for name in ["sqrt64.up", "sqrt32.down"] {
            let met = met(&OF_ROOTS, "roots as near to a number as there are", name, 2000);
            let of = |place| met.get(place).copied().unwrap_or_default();
            let [above, below, whole] = [
                "a normal number and a sixteenth of a place or less",
                "a normal number but for a sixteenth of a place or less",
                "a normal number, exactly",
            ]
            .map(of);
            let small = of("the root of a subnormal number, exactly") + of("the root of a subnormal number, inexact");
            assert!(above > 500 && below > 500 && above + below + whole + small == 2000, "{met:?}");
        }
    }
    #[test]
    fn sums_and_scaled_numbers_are_on_every_point_and_on_both_sides() {
        for name in ["fma64.zero", "fma32.away"] {
            has(&met(&OF_FUSED, "sums where an attribute turns", name, 20_000), 50, &[
                "past the next number that would be",
                "the next number that would be, exactly",
                "the largest number and more than half a place",
                "the largest number and half a place",
                "the largest number and less than half a place",
                "the largest number, exactly",
                "the least normal number and part of a place",
                "the least normal number, exactly",
                "the largest subnormal number and more than three quarters of a place",
                "the largest subnormal number and three quarters of a place",
                "the largest subnormal number and from half to three quarters of a place",
                "the largest subnormal number and half a place",
                "the largest subnormal number and less than half a place",
                "the largest subnormal number, exactly",
                "more than half of the least subnormal number",
                "half of the least subnormal number",
                "less than half of the least subnormal number",
            ]);
        }
        for name in ["scalbn64.zero", "scalbn32.away"] {
            has(&met(&OF_SCALED, "results where an attribute turns", name, 20_000), 50, &[
                "past the next number that would be",
                "the next number that would be, exactly",
                "the largest number, exactly",
                "the least normal number, exactly",
                "the largest subnormal number and half a place",
                "the largest subnormal number, exactly",
                "a subnormal number and half a place",
                "more than half of the least subnormal number",
                "half of the least subnormal number",
                "less than half of the least subnormal number",
            ]);
        }
    }
    #[test]
    fn a_digit_far_below_leaves_no_sum_exact() {
        for name in ["fma64.up", "fma32.down"] {
            let met = met(&OF_FUSED, "a number, and a digit far below", name, 20_000);
            assert!(met.keys().all(|place| !place.contains("exact")), "{met:?}");
            has(&met, 100, &["the largest number and less than half a place", "the least normal number and part of a place"]);
        }
    }
    #[test]
    fn sums_cancel_at_every_exponent_and_zeros_are_among_them() {
        for (name, format) in [("fma64.down", WIDTH_64), ("fma32.down", WIDTH_32)] {
            let kind = "terms that cancel, zeros among them";
            let met = met(&OF_FUSED, kind, name, 20_000);
            assert_eq!(met["a zero sum of terms of unlike signs"], 15_000);
            assert!(met["a zero sum of zeros of unlike signs"] > 2000 && met["a zero sum of zeros of one sign"] > 1000);
            let fields = drawn(&OF_FUSED, kind, format, 20_000).into_iter().map(|r| format.exponent_field(r.z()));
            let fields: std::collections::BTreeSet<u32> = fields.collect();
            assert!(fields.into_iter().eq(0..format.exponent_field(format.infinity())));
            let kind = "a zero product, z of every size";
            has(&self::met(&OF_FUSED, kind, name, 2000), 900, &["a zero product, and z not zero", "the exact value"]);
        }
    }
}
