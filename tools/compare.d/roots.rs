//! The kinds of operands of sqrt. Squares are exact; where one is too long for the format, its first digits are taken.

use crate::ends::OF_ONE;
use crate::format::Format;
use crate::numbers::{digits, highest, moved, placed, subnormal, with_top};
use crate::quick::{Draw, draw, joined, pattern, sign, special};
use crate::random::Random;
use crate::request::Request;

const OTHERS: [Draw; 11] = [
    draw("exact squares", |f, turn, random| Request::word(exact_square(f, turn, random))),
    draw("beside an exact square", beside_exact),
    draw("squares of whole significands", square_of_a_number),
    draw("squares of midpoints", square_of_a_midpoint),
    draw("roots as near to a tie as there are", nearest_to_a_tie),
    draw("every exponent", every_exponent),
    draw("subnormal, every length", every_length),
    draw("ends of the binades", ends),
    draw("negative", negative),
    draw("zeros, infinities, NaNs", specials),
    draw("all classes", |f, turn, random| Request::word(pattern(f, turn, random))),
];
pub static FOR_ROOTS: [Draw; 14] = joined(OTHERS, OF_ONE);

/// `number` times a power of two of the parity that is asked for: any for which there is a number that begins with all
/// its digits, or with as many as a significand has.
fn at_a_place(format: Format, number: u128, parity: u32, random: &mut Random) -> u64 {
    let (unit, length) = (format.unit_shift() as i32, number.ilog2() as i32);
    let least = -unit - (length - format.fraction_bits as i32).max(0);
    let least = least + (least - parity as i32).rem_euclid(2);
    let most = format.bias() as i32 - length;
    let exponent = least + 2 * random.between(0, (most - least) / 2);
    placed(format, number, (exponent + length + unit) as u32)
}

/// The square of a number of so many digits that the format has it.
fn exact_square(format: Format, turn: u64, random: &mut Random) -> u64 {
    let longest = u64::from((format.fraction_bits + 1) / 2);
    let root = u128::from(random.of_bits(1 + (turn % longest) as u32));
    at_a_place(format, root * root, 0, random)
}

fn beside_exact(format: Format, turn: u64, random: &mut Random) -> Request {
    let square = exact_square(format, turn, random);
    Request::word(moved(format, square, random.pick(&[-2, -1, 1, 2])))
}

/// The root is close to a number.
fn square_of_a_number(format: Format, _: u64, random: &mut Random) -> Request {
    let root = digits(format, random);
    let square = at_a_place(format, root * root, 0, random);
    Request::word(moved(format, square, random.between(-1, 1)))
}

/// The root is close to the middle between two numbers.
fn square_of_a_midpoint(format: Format, _: u64, random: &mut Random) -> Request {
    let middle = 2 * digits(format, random) + 1;
    let square = at_a_place(format, middle * middle, 0, random);
    Request::word(moved(format, square, random.between(-1, 1)))
}

fn nearest_to_a_tie(format: Format, turn: u64, random: &mut Random) -> Request {
    nearest_to(format, format.fraction_bits + 2, turn, random)
}

/// x 2^p = n^2 - c, n a number of so many digits, a significand or a midpoint, and c as small as it can be: the squares of
/// odd numbers are 1 modulo 8, so that each such c has a root modulo 2^p, and n is one of those.
pub fn nearest_to(format: Format, length: u32, turn: u64, random: &mut Random) -> Request {
    let c = 1 + 8 * i64::from(random.between(-4, 4));
    let mut roots = Vec::new();
    let most = 2 * length - format.fraction_bits - 1;
    for p in [most - 1, most] {
        let root = root_modulo(c, p);
        let modulus = 1u64 << p;
        for low in [
            root,
            modulus - root,
            (root + modulus / 2) % modulus,
            modulus - (root + modulus / 2) % modulus,
        ] {
            // Where p is less than the length, the first digit stands above the root.
            let n = if p < length { low | modulus } else { low };
            let x = ((u128::from(n) * u128::from(n)) as i128 - i128::from(c)) >> p;
            let fits = n >> (length - 1) == 1 && x >> format.fraction_bits == 1;
            roots.extend(fits.then_some((x as u128, p)));
        }
    }
    let (x, p) = roots[turn as usize % roots.len()];
    Request::word(at_a_place(format, x, p % 2, random))
}

/// The root of c modulo 2^p, c being 1 modulo 8: a digit at a time, since n^2 modulo 2^(i+1) turns with the digit i of n.
fn root_modulo(c: i64, p: u32) -> u64 {
    let c = c as u64;
    let mut root = 1u64;
    for place in 3..p {
        let off = root.wrapping_mul(root).wrapping_sub(c) >> place & 1;
        root |= off << (place - 1);
    }
    root
}

fn every_exponent(format: Format, turn: u64, random: &mut Random) -> Request {
    let top = turn % (u64::from(highest(format)) + 1);
    Request::word(with_top(format, top as u32, random))
}

fn every_length(format: Format, turn: u64, random: &mut Random) -> Request {
    Request::word(subnormal(1 + turn % u64::from(format.fraction_bits), random))
}

fn ends(format: Format, turn: u64, random: &mut Random) -> Request {
    let power = placed(format, 1, (turn % (u64::from(highest(format)) + 1)) as u32);
    Request::word(moved(format, power, random.between(-3, 3)))
}

fn negative(format: Format, turn: u64, random: &mut Random) -> Request {
    Request::word(format.sign_bit() | pattern(format, turn, random))
}

fn specials(format: Format, _: u64, random: &mut Random) -> Request {
    Request::word(sign(format, random) | special(format, random))
}

#[cfg(test)]
mod tests {
    use super::*;
    use crate::faults_rounded::{is_near_a_tie, square};
    use crate::format::{WIDTH_32, WIDTH_64};
    use crate::plain::sqrt;
    use crate::quick::drawn;
    use std::collections::BTreeSet;

    const WIDTHS: [Format; 2] = [WIDTH_64, WIDTH_32];

    /// What `of` makes of the first so many of a kind.
    fn made<T: Ord>(format: Format, kind: &str, count: u64, of: impl Fn(u64) -> T) -> BTreeSet<T> {
        drawn(&FOR_ROOTS, kind, format, count).iter().map(|r| of(r.x())).collect()
    }
    fn is_exact(format: Format, x: u64) -> bool {
        let root = format.units(sqrt(format, x));
        root.mul(&root) == square(format, x)
    }
    #[test]
    fn squares_are_exact_and_of_every_length() {
        for format in WIDTHS {
            assert!(
                made(format, "exact squares", 3000, |x| is_exact(format, x)).into_iter().eq([true])
            );
            let length = |x: u64| {
                let root = format.units(sqrt(format, x));
                root.bits() - root.twos()
            };
            let lengths = made(format, "exact squares", 3000, length);
            assert!(lengths.into_iter().eq(1..=(format.fraction_bits + 1) / 2));
            let beside = made(format, "beside an exact square", 3000, |x| is_exact(format, x));
            assert!(beside.contains(&false));
        }
    }
    #[test]
    fn roots_stand_next_to_ties() {
        for format in WIDTHS {
            let kind = "roots as near to a tie as there are";
            // A tie itself is never met: its square has more digits than a number has.
            let part = format.fraction_bits - 5;
            let near = |x| is_near_a_tie(format, x, sqrt(format, x), part);
            let met = made(format, kind, 3000, |x| (near(x), format.exponent_field(x) % 2));
            assert!(met.iter().copied().eq([(true, 0), (true, 1)]), "{met:?}");
            assert!(!near(format.one() + 4));
        }
    }
    #[test]
    fn every_exponent_and_every_length_is_met() {
        for format in WIDTHS {
            let fields = format.exponent_field(format.infinity());
            let count = u64::from(highest(format)) + 1;
            assert_eq!(
                made(format, "every exponent", count, |x| format.exponent_field(x)).len() as u32,
                fields
            );
            let lengths = made(format, "subnormal, every length", count, |x| x.ilog2() + 1);
            assert!(lengths.into_iter().eq(1..=format.fraction_bits));
        }
    }
    #[test]
    fn negatives_of_every_class_are_met() {
        for format in WIDTHS {
            let class = |x| {
                (
                    format.is_nan(x),
                    format.is_infinite(x),
                    format.is_zero(x),
                    format.exponent_field(x) == 0,
                )
            };
            assert_eq!(made(format, "negative", 1000, class).len(), 5);
            assert!(
                made(format, "negative", 1000, |x| format.is_negative(x)).into_iter().eq([true])
            );
        }
    }
}
