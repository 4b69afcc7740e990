//! The two known differences of fma from the standard: which operands they strike, and operands built to be struck.
//!
//! Random operands do not meet them. At 64 bits the product must be k 2^m + t, k odd, with 63 or 64 zeros between the
//! tie 2^m and the tail t; so products of that form are built from two factors. At 32 bits the product must be half a
//! smallest unit but for a tail that 53 digits have no room for beside z.

use crate::format::{Format, WIDTH_32, WIDTH_64};
use crate::numbers::{factors, last_place, moved, placed, scaled, with_top};
use crate::quick::sign;
use crate::random::Random;
use crate::request::Request;
use std::sync::OnceLock;

/// Operands at which the later text of fmaf, or the given text of fma, is known to go wrong, and the same with the tie
/// going the other way.
pub fn at_the_fault(format: Format, turn: u64, random: &mut Random) -> Request {
    match format == WIDTH_64 {
        true if turn % 16 == 9 => lost_status(random),
        true => lost_bits(turn, random),
        false => rounded_twice(turn, random),
    }
}

/// x y = k 2^m + t in digits: x, y and m.
type Product = ([u64; 2], u32);

/// 2^64 + 1 and 2^65 + 1, the least products there are of the kind.
const LEAST: [Product; 2] =
    [([274_177, 67_280_421_310_721], 64), ([3_358_236_963, 10_985_969_291], 65)];

/// A product, and z at such a place that 2^m is half of z's last place: a tie but for the tail. Beneath a power of two
/// the places are half as wide, so that there a quarter is taken.
fn lost_bits(turn: u64, random: &mut Random) -> Request {
    let f = WIDTH_64;
    let power_of_two = turn % 3 == 0;
    let (digits, m) = match turn % 4 {
        0 => LEAST[usize::from(!power_of_two)],
        1 | 2 => random.pick(found()),
        _ => of_a_cube(random),
    };
    let z = match power_of_two {
        // The first of all is the least, so that the shortest run meets the fault.
        true if turn == 0 => scaled(f, 1, 118),
        true => placed(f, 1, 200 + random.below(1800) as u32),
        false if random.below(4) == 0 => (1 << 50) + random.below(1 << 50),
        false => with_top(f, 200 + random.below(1800) as u32, random),
    };
    let part = if power_of_two { 2 } else { 1 };
    let exponent = last_place(f, z) - part - m as i32;
    let [x, y] = match turn {
        0 => digits.map(|one| scaled(f, one, 0)),
        _ => factors(f, digits, exponent, random),
    };
    let flip = sign(f, random);
    let apart = if power_of_two || random.coin() { f.sign_bit() } else { 0 };
    Request::three_words([x ^ flip, y, z ^ flip ^ apart])
}

/// A product of whole units but for the tail, and z in the last binade of subnormal numbers: without its tail the sum is
/// exact, and libm, which has a status there, says OK.
fn lost_status(random: &mut Random) -> Request {
    let f = WIDTH_64;
    let a = 24 + random.below(3) as u32;
    let digits = [(1 << a) + 1, (1 << 2 * a) - (1 << a) + 1];
    let exponent = random.below(u64::from(3 * a) - 66) as i32 - (f.unit_shift() + 3 * a) as i32;
    let [x, y] = factors(f, digits, exponent, random);
    let half = f.smallest_normal() / 2;
    let z = half + (1 << 12) + random.below(half - (1 << 13));
    Request::three_words([x ^ sign(f, random), y, z ^ sign(f, random)])
}

/// c (2^a + 1) (2^2a - 2^a + 1) = c 2^3a + c.
fn of_a_cube(random: &mut Random) -> Product {
    let a = 22 + random.below(5) as u32;
    let times = if random.coin() { 1 } else { random.up_to_bits((3 * a - 64).min(14)) | 1 };
    ([times * ((1 << a) + 1), (1 << 2 * a) - (1 << a) + 1], 3 * a)
}

/// Factors of k 2^65 + 1, of every length, found once: y is the inverse of x modulo 2^65, and one x in some thousands
/// has one that is short enough for a significand.
fn found() -> &'static [Product] {
    static FOUND: OnceLock<Vec<Product>> = OnceLock::new();
    FOUND.get_or_init(|| {
        let mut random = Random::new(65, 65);
        let mut all = vec![LEAST[1]];
        for length in 13..=53 {
            for _ in 0..1 << 15 {
                let x = random.of_bits(length) | 1;
                let y = inverse(x.into()) & ((1 << 65) - 1);
                all.extend((y >> 53 == 0).then_some(([x, y as u64], 65)));
            }
        }
        all
    })
}

/// The inverse of an odd number modulo 2^128: each step doubles the digits that are right, from three on.
fn inverse(x: u128) -> u128 {
    let mut y = x;
    for _ in 0..6 {
        y = y.wrapping_mul(2u128.wrapping_sub(x.wrapping_mul(y)));
    }
    y
}

/// The given text at 64 bits: z is aligned a word above, the product is shifted down by less than a word, what is left
/// of its low word is a tie or nothing, and something was shifted out.
pub fn is_lost(request: &Request) -> bool {
    let Some([(x, ex), (y, ey), (z, ez)]) = numbers(WIDTH_64, request) else { return false };
    let up = |number: u64| number << (number.leading_zeros() - 11);
    let shifts = [x, y, z].map(|number| number.leading_zeros() as i32 - 11);
    // Each significand with a guard digit, as the routine has them.
    let product = u128::from(up(x)) * u128::from(up(y)) << 2;
    let apart = (ez - shifts[2]) - (ex - shifts[0]) - (ey - shifts[1]) + 1;
    let down = apart - 64;
    (1..64).contains(&down) && {
        let lost = product & ((1 << down) - 1);
        let low = (product >> down) as u64;
        lost != 0 && low << 1 == 0
    }
}

/// 2^47 - 1, the product of two significands that comes nearest to a power of two from below, and 2^47 - 2.
const NEAREST: [([u64; 2], u32); 2] =
    [([10_610_063, 13_264_529], 47), ([(1 << 23) + 1, (1 << 24) - 2], 47)];

/// Half a smallest unit but for a tail, beside a subnormal z long enough to push the tail out of 53 digits.
fn rounded_twice(turn: u64, random: &mut Random) -> Request {
    let f = WIDTH_32;
    let (digits, m) = NEAREST[(turn % 2) as usize];
    let exponent = -(f.unit_shift() as i32) - 1 - m as i32;
    let [x, y] = factors(f, digits, exponent, random);
    let length = 6 + (turn / 2 % 18) as u32;
    let z = if turn == 0 { 33 } else { moved(f, random.of_bits(length), random.between(0, 1)) };
    let flip = sign(f, random);
    Request::three_words([x ^ flip, y, z ^ sign(f, random)])
}

/// The later text at 32 bits: the result is subnormal, 53 digits do not hold it, and rounded to 53 digits it is a tie.
pub fn is_rounded_twice(request: &Request) -> bool {
    let Some([(x, ex), (y, ey), (z, ez)]) = numbers(WIDTH_32, request) else { return false };
    let place = ex + ey;
    let f = WIDTH_32;
    let (half, up) = (-(f.unit_shift() as i32) - 1, ez - place);
    if !(0..=100).contains(&up) {
        return false;
    }
    let signed =
        |magnitude: u128, negative| if negative { -(magnitude as i128) } else { magnitude as i128 };
    let product = signed((x * y).into(), f.is_negative(request.x() ^ request.y()));
    let sum = (product + signed(u128::from(z) << up, f.is_negative(request.z()))).unsigned_abs();
    let length = sum.checked_ilog2().map_or(0, |last| last as i32 + 1);
    if length <= 53 || length + place > 1 - f.bias() as i32 {
        return false;
    }
    let unit = 1u128 << (length - 53);
    let (down, over) = (sum / unit, sum % unit);
    let rounded = match (2 * over).cmp(&unit) {
        std::cmp::Ordering::Less => down,
        std::cmp::Ordering::Equal => down + down % 2,
        std::cmp::Ordering::Greater => down + 1,
    } * unit;
    rounded != sum && rounded.trailing_zeros() as i32 + place == half
}

/// Digits and exponents of three finite numbers, none of them zero.
fn numbers(format: Format, request: &Request) -> Option<[(u64, i32); 3]> {
    let usual = |x: u64| format.is_finite(x) && !format.is_zero(x);
    let number = |x: u64| {
        let implied = u64::from(format.exponent_field(x) != 0) << format.fraction_bits;
        (format.fraction_field(x) | implied, last_place(format, x))
    };
    request.words.iter().all(|word| usual(*word)).then(|| request.words.map(number))
}

#[cfg(test)]
mod tests {
    use super::*;
    use crate::plain::fma;
    use oracle::api;
    use std::collections::BTreeSet;

    fn built(format: Format, count: u64) -> Vec<Request> {
        let mut random = Random::new(1, 1);
        (0..count).map(|turn| at_the_fault(format, turn, &mut random)).collect()
    }
    fn crate_is_wrong_at_64(r: &Request) -> bool {
        api::fma64(r.x(), r.y(), r.z()).0 != fma(WIDTH_64, r.x(), r.y(), r.z())
    }
    fn later_text_is_wrong_at_32(r: &Request) -> bool {
        u64::from(api::fma32(r.x32(), r.y32(), r.z32()).0) != fma(WIDTH_32, r.x(), r.y(), r.z())
    }
    /// By how many places the routine shifts the product down.
    fn shifted_by(r: &Request) -> i32 {
        let top = |x: u64| WIDTH_64.units(x).bits() as i32;
        top(r.z()) - top(r.x()) - top(r.y()) + 1074 + 53 + 1 - 64
    }

    #[test]
    fn the_first_that_is_built_is_struck() {
        assert!(crate_is_wrong_at_64(&built(WIDTH_64, 1)[0]));
        assert!(later_text_is_wrong_at_32(&built(WIDTH_32, 1)[0]));
    }
    #[test]
    fn a_third_of_what_is_built_is_struck_and_all_that_is_struck_is_of_the_kind() {
        let at_64 = built(WIDTH_64, 6000);
        let wrong: Vec<_> = at_64.iter().filter(|r| crate_is_wrong_at_64(r)).collect();
        assert!(wrong.len() > 1900 && wrong.iter().all(|r| is_lost(r)), "{}", wrong.len());
        let at_32 = built(WIDTH_32, 6000);
        let wrong: Vec<_> = at_32.iter().filter(|r| later_text_is_wrong_at_32(r)).collect();
        assert!(wrong.len() > 2000 && wrong.iter().all(|r| is_rounded_twice(r)), "{}", wrong.len());
    }
    #[test]
    fn every_shift_that_can_lose_a_tail_is_met_and_subnormal_results_are() {
        let wrong: Vec<_> =
            built(WIDTH_64, 60_000).into_iter().filter(crate_is_wrong_at_64).collect();
        let shifts: BTreeSet<_> = wrong.iter().map(shifted_by).collect();
        assert!(shifts.iter().copied().eq(3..=44), "{shifts:?}");
        assert!(wrong.iter().any(|r| WIDTH_64.exponent_field(r.z()) == 0));
    }
    #[test]
    fn a_tail_is_lost_to_the_status_too() {
        let operation = crate::operations::find("fma64").unwrap();
        let mut random = Random::new(1, 1);
        for _ in 0..2000 {
            let r = lost_status(&mut random);
            let exact = crate::plain::exact(operation, &r);
            assert!(is_lost(&r) && exact.number == 16 + 32, "{r:x?}");
            assert_eq!(api::fma64(r.x(), r.y(), r.z()), (exact.word, 0), "{r:x?}");
        }
    }
    #[test]
    fn other_operands_are_not_of_the_kinds() {
        let one = WIDTH_64.one();
        assert!(!is_lost(&Request::three_words([one, one, one])));
        // 2^67 - 1: the digits below the tie are ones.
        let [x, y] = [193_707_721, 761_838_257_287].map(|n| scaled(WIDTH_64, n, 0));
        assert!(!is_lost(&Request::three_words([x, y, scaled(WIDTH_64, 1, 120)])));
        let short = Request::three_words([0x3321e58f, 0x00ca6691, 31]);
        assert!(!is_rounded_twice(&short));
    }
}
