//! The kinds of operands of fma: how far z stands from the product, what cancels, and what is no sum of two numbers.
//! Ties, and results at the ends of the range, are in `fused_ties`; the known faults in `known`.

use crate::ends::OF_FUSED;
use crate::format::Format;
use crate::fused_ties::{
    beside_a_tie, by_the_product, by_z, overflow, product_alone, subnormal_result, subnormal_tie,
    tail_of_the_product,
};
use crate::known::at_the_fault;
use crate::numbers::{digits, factors, finite, highest, moved, placed, scaled, with_top};
use crate::quick::{Draw, draw, joined, pattern, sign, special};
use crate::random::Random;
use crate::request::Request;

/// The known fault comes first, so that the shortest run meets it.
const OTHERS: [Draw; 20] = [
    draw("at the known fault", at_the_fault),
    draw("every gap of exponents", every_gap),
    draw("gaps within two words", near_gap),
    draw("z the product taken back, rounded", cancelling),
    draw("z the product taken back, exactly", cancelling_exactly),
    draw("z a power of two", power_of_two),
    draw("ties, the last digit the product's", |f, turn, random| {
        any_signs(f, by_the_product(f, turn, random), random)
    }),
    draw("ties, the last digit z's", |f, turn, random| any_signs(f, by_z(f, turn, random), random)),
    draw("beside a tie", |f, turn, random| any_signs(f, beside_a_tie(f, turn, random), random)),
    draw("ties of the product, z at every place below", |f, turn, random| {
        any_signs(f, product_alone(f, turn, random), random)
    }),
    draw("near ties by a tail of the product", |f, turn, random| {
        any_signs(f, tail_of_the_product(f, turn, random), random)
    }),
    draw("subnormal results", |f, turn, random| {
        any_signs(f, subnormal_result(f, turn, random), random)
    }),
    draw("ties of subnormal results, and beside them", |f, turn, random| {
        any_signs(f, subnormal_tie(f, turn, random), random)
    }),
    draw("about the overflow threshold", |f, turn, random| {
        any_signs(f, overflow(f, turn, random), random)
    }),
    draw("zero z", zero_z),
    draw("zero product", zero_product),
    draw("one operand of any class", one_of_any_class),
    draw("zeros, infinities, NaNs", specials),
    draw("three finite numbers", three_finite),
    draw("all classes", all_classes),
];
pub static FOR_FUSED: [Draw; 32] = joined(OTHERS, OF_FUSED);

/// The three with their signs turned in such a way that x y and z keep theirs against each other.
pub fn any_signs(format: Format, [x, y, z]: [u64; 3], random: &mut Random) -> Request {
    let (first, second) = (sign(format, random), sign(format, random));
    let (x, y) = if random.coin() { (x, y) } else { (y, x) };
    Request::three_words([x ^ first, y ^ second, z ^ first ^ second])
}

/// z with its leading digit so many places above that of a product of any two significands, shorter ones where the
/// product is so small that there is no room for them.
fn apart(format: Format, places: i32, random: &mut Random) -> [u64; 3] {
    let (unit, bias) = (format.unit_shift() as i32, format.bias() as i32);
    // The leading digit of z: one for which there are such a product and such a z.
    let (least, most) = ((-unit).max(places - 2 * unit), bias.min(places + 2 * bias));
    let top = random.between(least, most);
    let room = ((top - places + 2 * unit - 1) / 2).clamp(0, format.fraction_bits as i32) as u32;
    let two = [0; 2].map(|_| digits(format, random) as u64 >> (format.fraction_bits - room));
    let length = (u128::from(two[0]) * u128::from(two[1])).ilog2() as i32;
    let [x, y] = factors(format, two, top - places - length, random);
    [x, y, sign(format, random) | with_top(format, (top + unit) as u32, random)]
}

fn every_gap(format: Format, turn: u64, random: &mut Random) -> Request {
    let (unit, bias) = (format.unit_shift() as i32, format.bias() as i32);
    let (least, most) = (-unit - 2 * bias, bias + 2 * unit);
    let places = least + (turn % (most - least + 1) as u64) as i32;
    let three = apart(format, places, random);
    any_signs(format, three, random)
}

fn near_gap(format: Format, turn: u64, random: &mut Random) -> Request {
    let far = 2 * format.width as i32;
    let three = apart(format, (turn % (2 * far as u64 + 1)) as i32 - far, random);
    any_signs(format, three, random)
}

/// The first digits of the product with the other sign, and a place or two beside them.
fn cancelling(format: Format, turn: u64, random: &mut Random) -> Request {
    let two = [digits(format, random) as u64, digits(format, random) as u64];
    let product = u128::from(two[0]) * u128::from(two[1]);
    let top = (turn % (u64::from(highest(format)) + 1)) as u32;
    let exponent = top as i32 - format.unit_shift() as i32 - product.ilog2() as i32;
    let [x, y] = factors(format, two, exponent, random);
    let z = moved(format, placed(format, product, top), random.between(-2, 2));
    any_signs(format, [x, y, format.sign_bit() | z], random)
}

/// The product is a number, and z the same with the other sign; now and then a place beside it.
fn cancelling_exactly(format: Format, turn: u64, random: &mut Random) -> Request {
    let first = random.of_bits(1 + (turn % u64::from(format.fraction_bits)) as u32);
    let second = random.of_bits(format.fraction_bits - first.ilog2());
    let length = (u128::from(first) * u128::from(second)).ilog2() as i32;
    let exponent = random.between(-(format.unit_shift() as i32), format.bias() as i32 - length);
    let [x, y] = factors(format, [first, second], exponent, random);
    let z = moved(format, scaled(format, first * second, exponent), random.pick(&[0, 0, 0, -1, 1]));
    any_signs(format, [x, y, format.sign_bit() | z], random)
}

/// Beneath a power of two the places are half as wide. The product is taken off it, at every gap.
fn power_of_two(format: Format, turn: u64, random: &mut Random) -> Request {
    let two = [digits(format, random) as u64, digits(format, random) as u64];
    let length = (u128::from(two[0]) * u128::from(two[1])).ilog2() as i32;
    let top = random.below(u64::from(highest(format)) + 1) as u32;
    let below = (turn % (2 * u64::from(format.width))) as i32;
    let [x, y] =
        factors(format, two, top as i32 - format.unit_shift() as i32 - below - length, random);
    let apart = if random.below(4) == 0 { 0 } else { format.sign_bit() };
    any_signs(format, [x, y, apart | placed(format, 1, top)], random)
}

/// A product of every size, those that round to the smallest unit or to zero made frequent.
fn zero_z(format: Format, turn: u64, random: &mut Random) -> Request {
    let (unit, bias) = (format.unit_shift() as i32, format.bias() as i32);
    let two = [digits(format, random) as u64, digits(format, random) as u64];
    let length = (u128::from(two[0]) * u128::from(two[1])).ilog2() as i32;
    let top = match turn % 3 {
        0 => random.between(-unit - 3, -unit + 1),
        1 => random.between(-unit - 3, -bias + 2),
        _ => random.between(-2 * unit, 2 * bias),
    };
    let [x, y] = factors(format, two, top - length, random);
    any_signs(format, [x, y, sign(format, random)], random)
}

fn zero_product(format: Format, turn: u64, random: &mut Random) -> Request {
    let other = pattern(format, turn % 5, random);
    let z = if random.coin() { sign(format, random) } else { pattern(format, turn / 5, random) };
    any_signs(format, [sign(format, random), other, z], random)
}

fn one_of_any_class(format: Format, turn: u64, random: &mut Random) -> Request {
    let mut words = [0; 3].map(|_| sign(format, random) | finite(format, random));
    words[(turn % 3) as usize] = sign(format, random) | special(format, random);
    Request::three_words(words)
}

fn specials(format: Format, _: u64, random: &mut Random) -> Request {
    Request::three_words([0; 3].map(|_| sign(format, random) | special(format, random)))
}

fn three_finite(format: Format, _: u64, random: &mut Random) -> Request {
    Request::three_words([0; 3].map(|_| sign(format, random) | finite(format, random)))
}

fn all_classes(format: Format, turn: u64, random: &mut Random) -> Request {
    Request::three_words([turn, turn / 5, turn / 25].map(|class| pattern(format, class, random)))
}

#[cfg(test)]
mod tests {
    use super::*;
    use crate::plain::fma;
    use crate::faults_rounded::gap;
    use crate::format::{WIDTH_32, WIDTH_64};
    use crate::quick::drawn;
    use std::collections::BTreeSet;

    const WIDTHS: [Format; 2] = [WIDTH_64, WIDTH_32];

    fn made<T: Ord>(
        format: Format,
        kind: &str,
        count: u64,
        of: impl Fn([u64; 3]) -> T,
    ) -> BTreeSet<T> {
        drawn(&FOR_FUSED, kind, format, count).iter().map(|r| of(r.words)).collect()
    }
    fn answer(format: Format, [x, y, z]: [u64; 3]) -> u64 {
        fma(format, x, y, z)
    }

    #[test]
    fn every_gap_is_met() {
        for format in WIDTHS {
            let (unit, bias) = (format.unit_shift() as i32, format.bias() as i32);
            let (least, most) = (-unit - 2 * bias, bias + 2 * unit);
            let met =
                made(format, "every gap of exponents", 3 * (most - least + 1) as u64, |three| {
                    gap(format, &Request::three_words(three))
                });
            assert!((least..=most).all(|places| met.contains(&Some(places))));
            let far = 2 * format.width as i32;
            let met = made(format, "gaps within two words", 8 * far as u64 + 4, |three| {
                gap(format, &Request::three_words(three))
            });
            assert!((-far..=far).all(|places| met.contains(&Some(places))));
        }
    }
    #[test]
    fn what_is_taken_back_leaves_little_or_nothing() {
        for format in WIDTHS {
            let kind = "z the product taken back, exactly";
            let met = made(format, kind, 3000, |three| answer(format, three));
            assert!(met.contains(&0) && met.len() > 100);
            let kind = "z the product taken back, rounded";
            let lost = |three: [u64; 3]| {
                let (left, z) = (answer(format, three), three[2]);
                format.units(z).bits().saturating_sub(format.units(left).bits()) + 2
                    >= format.fraction_bits
            };
            let met =
                drawn(&FOR_FUSED, kind, format, 3000).iter().filter(|r| lost(r.words)).count();
            assert!(met > 1000, "{met}");
        }
    }
    #[test]
    fn zeros_come_of_products_of_either_sign_and_of_none() {
        for format in WIDTHS {
            let zero = |three: [u64; 3]| {
                let result = answer(format, three);
                (format.is_zero(result), format.sign(result) != 0)
            };
            assert_eq!(made(format, "zero z", 2000, zero).len(), 4);
            assert_eq!(made(format, "zero product", 2000, zero).len(), 4);
            let class = |[x, y, z]: [u64; 3]| {
                [x, y, z]
                    .map(|one| (format.is_nan(one), format.is_infinite(one), format.is_zero(one)))
            };
            assert_eq!(made(format, "zeros, infinities, NaNs", 40_000, class).len(), 64);
        }
    }
}
