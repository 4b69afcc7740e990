//! Operands of modf, frexp and ilogb: numbers by where their point stands, and by where their leading digit does.

use crate::ends::OF_ONE;
use crate::format::Format;
use crate::numbers::{highest, moved, placed, scaled, subnormal, with_top};
use crate::quick::{Draw, WHOLES, draw, joined, pattern, sign};
use crate::random::Random;
use crate::request::Request;

/// Of modf: those of the operations to an integer, and a few that make the fraction short or small.
pub static FOR_PARTS: [Draw; 8] = joined(PARTS, joined::<3, 3, 6>(WHOLES, OF_ONE));
const PARTS: [Draw; 2] = [
    draw("one digit behind the point", |f, turn, random| {
        Request::word(one_digit_behind(f, turn, random) | sign(f, random))
    }),
    SUBNORMALS,
];

/// Of frexp and ilogb.
pub static FOR_LEADING: [Draw; 7] = joined(LEADING, OF_ONE);
const LEADING: [Draw; 4] = [
    SUBNORMALS,
    draw("about every power of two", |f, turn, random| {
        Request::word(about_power(f, turn) | sign(f, random))
    }),
    draw("every exponent, digits of all sorts", |f, turn, random| {
        let top = (turn % u64::from(highest(f) + 1)) as u32;
        Request::word(with_top(f, top, random) | sign(f, random))
    }),
    draw("all classes", |f, turn, random| Request::word(pattern(f, turn, random))),
];

const SUBNORMALS: Draw = draw("subnormal numbers of every length", |f, turn, random| {
    Request::word(subnormal(1 + turn % u64::from(f.fraction_bits), random) | sign(f, random))
});

/// A whole number of any length that leaves room, and each digit behind the point in turn.
fn one_digit_behind(format: Format, turn: u64, random: &mut Random) -> u64 {
    let behind = 1 + (turn % u64::from(format.fraction_bits)) as u32;
    let whole = random.up_to_bits(format.fraction_bits + 1 - behind);
    scaled(format, whole << behind | 1, -(behind as i32))
}

/// Every power of two in turn, from the least subnormal number up, and its neighbours.
pub fn about_power(format: Format, turn: u64) -> u64 {
    let power = placed(format, 1, (turn / 3 % u64::from(highest(format) + 1)) as u32);
    moved(format, power, (turn % 3) as i32 - 1)
}

#[cfg(test)]
mod tests {
    use super::*;
    use crate::format::{WIDTH_32, WIDTH_64};
    use crate::quick::drawn;
    use std::collections::BTreeSet;

    #[test]
    fn subnormal_numbers_have_every_leading_digit() {
        for (f, draws) in [WIDTH_64, WIDTH_32].into_iter().flat_map(|f| [(f, &FOR_PARTS[..]), (f, &FOR_LEADING[..])]) {
            let kind = "subnormal numbers of every length";
            let met: BTreeSet<u32> = drawn(draws, kind, f, 2000).iter().map(|r| f.magnitude(r.x()).ilog2()).collect();
            assert!(met.into_iter().eq(0..f.fraction_bits));
        }
    }
    #[test]
    fn every_power_of_two_is_met_and_both_its_neighbours() {
        for f in [WIDTH_64, WIDTH_32] {
            let powers = u64::from(highest(f) + 1);
            let met: BTreeSet<u64> = (0..3 * powers).map(|turn| about_power(f, turn)).collect();
            for power in 0..powers {
                let power = placed(f, 1, power as u32);
                assert!(met.contains(&power) && met.contains(&(power - 1)) && met.contains(&(power + 1)));
            }
        }
    }
    #[test]
    fn one_digit_stands_behind_the_point_at_every_place() {
        for f in [WIDTH_64, WIDTH_32] {
            let mut met = BTreeSet::new();
            for request in drawn(&FOR_PARTS, "one digit behind the point", f, 2000) {
                let (digits, exponent) = f.significand(request.x());
                let behind = digits.trailing_zeros() as i64 + exponent;
                assert!(behind < 0 && digits >> -exponent > 0);
                assert_eq!((digits & ((1 << -exponent) - 1)).count_ones(), 1);
                met.insert(-behind);
            }
            assert!(met.into_iter().eq(1..=i64::from(f.fraction_bits)));
        }
    }
}
