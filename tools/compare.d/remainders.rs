//! The kinds of operands of fmod and remquo. Products are exact; where one is too long for the format, its first digits
//! are taken.

use crate::format::Format;
use crate::numbers::{digits, finite, highest, placed, subnormal, with_top};
use crate::quick::{Draw, draw, pattern, sign, special};
use crate::random::Random;
use crate::request::Request;

pub static FOR_REMAINDERS: [Draw; 16] = [
    draw("every gap of exponents", gap),
    draw("y a power of two", power_of_two),
    draw("y subnormal, every length", subnormal_y),
    draw("x subnormal, every length", subnormal_x),
    draw("both subnormal, every two lengths", subnormal_both),
    draw("exact ties", |f, turn, random| pair(f, tie(f, turn, random), random)),
    draw("beside a tie", |f, turn, random| beside(f, tie(f, turn, random), random)),
    draw("exact multiples", |f, turn, random| pair(f, multiple(f, turn, random), random)),
    draw("quotients about each power of two", about_a_power),
    draw("quotients about 2^31", about_the_wrap),
    draw("ties about 2^31", |f, turn, random| pair(f, tie_at_the_wrap(f, turn, random), random)),
    draw("x beside y", x_beside_y),
    draw("x beside half of y", x_beside_half),
    draw("top binade", top_binade),
    draw("zeros, infinities, NaNs", specials),
    draw("all classes", all_classes),
];

/// The two magnitudes with any signs.
fn pair(format: Format, (x, y): (u64, u64), random: &mut Random) -> Request {
    Request::two_words(sign(format, random) | x, sign(format, random) | y)
}

/// One of the two magnitudes moved by a place or two.
fn beside(format: Format, (x, y): (u64, u64), random: &mut Random) -> Request {
    let step = random.pick(&[-2, -1, 1, 2]);
    let moved = |number: u64| number.saturating_add_signed(step).clamp(1, format.largest_finite());
    let two = if random.below(4) == 0 { (x, moved(y)) } else { (moved(x), y) };
    pair(format, two, random)
}

/// The leading digits stand apart by every number of places: x by two below y, up to the largest above the smallest.
fn gap(format: Format, turn: u64, random: &mut Random) -> Request {
    let most = i64::from(highest(format));
    let apart = (turn % (most as u64 + 3)) as i64 - 2;
    let (least, last) = ((-apart).max(0), most - apart.max(0));
    let top = least + random.below((last - least + 1) as u64) as i64;
    let y = with_top(format, top as u32, random);
    pair(format, (with_top(format, (top + apart) as u32, random), y), random)
}

fn power_of_two(format: Format, turn: u64, random: &mut Random) -> Request {
    let y = placed(format, 1, (turn % (u64::from(highest(format)) + 1)) as u32);
    pair(format, (finite(format, random), y), random)
}

fn subnormal_y(format: Format, turn: u64, random: &mut Random) -> Request {
    let y = subnormal(1 + turn % u64::from(format.fraction_bits), random);
    pair(format, (finite(format, random), y), random)
}

/// y has its leading digit about where that of x is.
fn subnormal_x(format: Format, turn: u64, random: &mut Random) -> Request {
    let length = 1 + turn % u64::from(format.fraction_bits);
    let top = (length as i32 + random.between(-4, 2)).max(0) as u32;
    let y = with_top(format, top, random);
    pair(format, (subnormal(length, random), y), random)
}

fn subnormal_both(format: Format, turn: u64, random: &mut Random) -> Request {
    let most = u64::from(format.fraction_bits);
    let x = subnormal(1 + turn % most, random);
    pair(format, (x, subnormal(1 + turn / most % most, random)), random)
}

/// `times` halves of y, exactly: y has as many digits as leave room for the product.
fn halves(format: Format, times: u128, random: &mut Random) -> (u64, u64) {
    let room = format.fraction_bits.saturating_sub(times.ilog2());
    let by = u128::from(random.up_to_bits(room.max(1)));
    let product = times * by;
    // y is at least two units, so that a half of it is a number.
    let most = highest(format) + 1 - product.ilog2().max(by.ilog2() + 1);
    let any = random.below(most.into()) as u32;
    let place = random.pick(&[0, any, any, most - 1]);
    (placed(format, product, product.ilog2() + place), placed(format, by, by.ilog2() + 1 + place))
}

/// (k + 1/2) y, with k of every length that has an exact product, even and odd.
fn tie(format: Format, turn: u64, random: &mut Random) -> (u64, u64) {
    let length = 1 + turn % u64::from(format.fraction_bits);
    halves(format, (random.of_bits(length as u32) | 1).into(), random)
}

fn multiple(format: Format, turn: u64, random: &mut Random) -> (u64, u64) {
    let length = 1 + turn % u64::from(format.fraction_bits - 1);
    halves(format, u128::from(random.of_bits(length as u32)) << 1, random)
}

/// k + 1/2 times y, with k about 2^31 or a multiple of it. At 32 bits the first digits alone have room.
fn tie_at_the_wrap(format: Format, turn: u64, random: &mut Random) -> (u64, u64) {
    halves(format, 2 * about_2_to_31(turn, random) + 1, random)
}

fn about_2_to_31(turn: u64, random: &mut Random) -> u128 {
    let times = if turn % 2 == 0 { 1 } else { random.up_to_bits(18) };
    ((times << 31) as i64 + i64::from(random.between(-3, 3))) as u128
}

/// x is about `quotient` times y, a full significand.
fn near_product(format: Format, quotient: u128, random: &mut Random) -> Request {
    let by = digits(format, random);
    let product = quotient * by;
    let apart = product.ilog2() - by.ilog2();
    let top = random.below(u64::from(highest(format) - apart) + 1) as u32;
    let (x, y) = (placed(format, product, top + apart), placed(format, by, top));
    if random.coin() { beside(format, (x, y), random) } else { pair(format, (x, y), random) }
}

fn about_a_power(format: Format, turn: u64, random: &mut Random) -> Request {
    let power = 1u64 << (turn % (u64::from(format.fraction_bits) + 1));
    let quotient = u128::from(power.saturating_add_signed(random.between(-2, 2).into()).max(1));
    match random.coin() {
        true => near_product(format, quotient, random),
        false => {
            let exact = halves(format, 2 * quotient, random);
            beside(format, exact, random)
        }
    }
}

fn about_the_wrap(format: Format, turn: u64, random: &mut Random) -> Request {
    near_product(format, about_2_to_31(turn, random), random)
}

fn x_beside_y(format: Format, _: u64, random: &mut Random) -> Request {
    let y = finite(format, random);
    if random.below(4) == 0 { pair(format, (y, y), random) } else { beside(format, (y, y), random) }
}

fn x_beside_half(format: Format, _: u64, random: &mut Random) -> Request {
    let top = 1 + random.below(highest(format).into()) as u32;
    let by = digits(format, random);
    beside(format, (placed(format, by, top - 1), placed(format, by, top)), random)
}

/// x among the largest numbers; y is infinite, as large, or as small as numbers get.
fn top_binade(format: Format, turn: u64, random: &mut Random) -> Request {
    let x = with_top(format, highest(format), random);
    let large = with_top(format, highest(format) - random.below(3) as u32, random);
    let y = match turn % 4 {
        0 => format.infinity(),
        1 | 2 => large,
        _ => random.pick(&[1, 2, 3, format.smallest_normal() - 1, format.smallest_normal()]),
    };
    pair(format, (x, y), random)
}

fn specials(format: Format, turn: u64, random: &mut Random) -> Request {
    let (one, other) = (special(format, random), pattern(format, turn / 4, random));
    let two = match turn % 4 {
        0 | 1 => (one, special(format, random)),
        2 => (one, other),
        _ => (other, one),
    };
    pair(format, two, random)
}

fn all_classes(format: Format, turn: u64, random: &mut Random) -> Request {
    let x = pattern(format, turn % 5, random);
    Request::two_words(x, pattern(format, turn / 5, random))
}

#[cfg(test)]
mod tests {
    use super::*;
    use crate::big::Big;
    use crate::format::{WIDTH_32, WIDTH_64};
    use crate::quick::drawn;
    use std::collections::BTreeSet;

    /// The magnitudes of the first so many of a kind, with what `of` makes of each pair.
    fn made<T: Ord>(
        format: Format,
        kind: &str,
        count: u64,
        of: impl Fn(u64, u64) -> T,
    ) -> BTreeSet<T> {
        let pair = |r: &Request| of(format.magnitude(r.x()), format.magnitude(r.y()));
        drawn(&FOR_REMAINDERS, kind, format, count).iter().map(pair).collect()
    }
    fn leading(format: Format, x: u64) -> i64 {
        i64::from(format.units(x).bits()) - 1
    }
    /// How often half of y goes into x, and whether something is left.
    fn halves_in(format: Format, x: u64, y: u64) -> (u64, bool) {
        let (halves, rest) = format.units(x).shl(1).div_rem(&format.units(y));
        assert!(halves.bits() <= 64);
        (halves.low_word(), rest == Big::zero())
    }

    #[test]
    fn every_gap_is_met() {
        for format in [WIDTH_64, WIDTH_32] {
            let most = i64::from(highest(format));
            let apart = |x, y| leading(format, x) - leading(format, y);
            let met = made(format, "every gap of exponents", most as u64 + 3, apart);
            assert!(met.into_iter().eq(-2..=most));
        }
    }
    #[test]
    fn every_power_of_two_divides() {
        for format in [WIDTH_64, WIDTH_32] {
            let count = u64::from(highest(format)) + 1;
            let met = made(format, "y a power of two", count, |_, y| format.units(y).twos());
            assert!(met.into_iter().eq(0..=highest(format)));
            let one = |_, y| format.units(y).bits() - format.units(y).twos();
            assert!(made(format, "y a power of two", count, one).into_iter().eq([1]));
        }
    }
    #[test]
    fn subnormals_of_every_length_are_met_on_either_side() {
        for format in [WIDTH_64, WIDTH_32] {
            let most = i64::from(format.fraction_bits);
            let (x, y) = (|x, _| leading(format, x) + 1, |_, y| leading(format, y) + 1);
            let of_x = made(format, "x subnormal, every length", most as u64, x);
            let of_y = made(format, "y subnormal, every length", most as u64, y);
            assert!(of_x.into_iter().eq(1..=most) && of_y.into_iter().eq(1..=most));
            let both = |x, y| (leading(format, x) + 1, leading(format, y) + 1);
            let met = made(format, "both subnormal, every two lengths", (most * most) as u64, both);
            assert_eq!(met.len() as i64, most * most);
        }
    }
    #[test]
    fn ties_are_exact_with_quotients_of_every_length_even_and_odd() {
        for format in [WIDTH_64, WIDTH_32] {
            let met = made(format, "exact ties", 3000, |x, y| halves_in(format, x, y));
            assert!(met.iter().all(|(halves, is_whole)| halves % 2 == 1 && *is_whole));
            let tails: BTreeSet<_> = met
                .iter()
                .map(|(halves, _)| (64 - halves.leading_zeros(), halves / 2 % 2))
                .collect();
            // One half of y is the only one of one digit; (1 + 1/2) y of two.
            assert_eq!(tails.len() as u32, 2 * format.fraction_bits - 2);
        }
    }
    #[test]
    fn ties_and_quotients_stand_about_the_wrap() {
        let near =
            |whole: u64| (whole.wrapping_add(4) & 0x7fff_ffff) <= 8 && whole >= (1 << 31) - 4;
        let ties = made(WIDTH_64, "ties about 2^31", 2000, |x, y| halves_in(WIDTH_64, x, y));
        assert!(ties.iter().all(|(n, is_whole)| *is_whole && n % 2 == 1 && near(n / 2)));
        let all =
            made(WIDTH_64, "quotients about 2^31", 2000, |x, y| halves_in(WIDTH_64, x, y).0 / 2);
        assert!((-3i64..=3).all(|step| all.contains(&((1i64 << 31) + step).cast_unsigned())));
    }
    #[test]
    fn multiples_leave_nothing() {
        for format in [WIDTH_64, WIDTH_32] {
            let met = made(format, "exact multiples", 2000, |x, y| halves_in(format, x, y));
            assert!(met.iter().all(|(halves, is_whole)| halves % 2 == 0 && *is_whole));
        }
    }
    #[test]
    fn quotients_stand_about_each_power_of_two() {
        for format in [WIDTH_64, WIDTH_32] {
            let kind = "quotients about each power of two";
            let met = made(format, kind, 20_000, |x, y| halves_in(format, x, y).0 / 2);
            for power in 0..=format.fraction_bits {
                let middle = 1u64 << power;
                assert!(
                    (middle - 1..=middle + 1).all(|quotient| met.contains(&quotient)),
                    "2^{power}"
                );
            }
        }
    }
    #[test]
    fn every_class_meets_every_class_and_the_top_binade_infinity() {
        for format in [WIDTH_64, WIDTH_32] {
            let quiet = |x| u8::from(x >= format.canonical_nan());
            let class = |x| match x {
                0 => 0,
                x if format.is_nan(x) => 2 + quiet(x),
                x if format.is_infinite(x) => 4,
                _ => 1,
            };
            let kind = "zeros, infinities, NaNs";
            assert_eq!(made(format, kind, 2000, |x, y| (class(x), class(y))).len(), 25);
            let top = |x, y| (leading(format, x), format.is_infinite(y));
            let met = made(format, "top binade", 100, top);
            assert!(met.into_iter().eq([false, true].map(|is| (i64::from(highest(format)), is))));
        }
    }
}
