//! Operands of fma whose sum is a tie or stands beside one, and those whose sum is at an end of the range. Each is x, y
//! and z with the signs that make the sum; `fused` turns the signs.

use crate::format::Format;
use crate::numbers::{digits, factors, finite, last_place, moved, scaled, subnormal, with_top};
use crate::random::Random;

/// An odd number of half places: the middle between two significands.
fn middle(format: Format, random: &mut Random) -> u64 {
    2 * digits(format, random) as u64 + 1
}

/// An exponent for the last digit of a middle, with finite numbers on both sides of it.
fn half_place(format: Format, random: &mut Random) -> i32 {
    let (unit, bias) = (format.unit_shift() as i32, format.bias() as i32);
    random.between(-unit - 1, bias - format.fraction_bits as i32 - 2)
}

/// Two factors of a number: a small one, where it has one.
pub fn split(number: u64) -> [u64; 2] {
    let small = [13, 11, 7, 5, 3].into_iter().find(|one| number % one == 0 && number > *one);
    small.map_or([number, 1], |one| [number / one, one])
}

/// The product has the last digit of the tie, and is of every length.
pub fn by_the_product(format: Format, turn: u64, random: &mut Random) -> [u64; 3] {
    let (tie, exponent) = (middle(format, random), half_place(format, random));
    let product = random.of_bits(1 + (turn % u64::from(format.fraction_bits + 1)) as u32) | 1;
    let [x, y] = factors(format, split(product), exponent, random);
    let taken_off = random.coin() && (tie + product) >> (format.fraction_bits + 2) == 0;
    let z = if taken_off { tie + product } else { tie - product };
    let turned = if taken_off { format.sign_bit() } else { 0 };
    [x ^ turned, y, scaled_or_zero(format, z / 2, exponent + 1)]
}

/// z has the last digit of the tie, and is of every length.
pub fn by_z(format: Format, turn: u64, random: &mut Random) -> [u64; 3] {
    let unit = format.unit_shift() as i32;
    let (tie, exponent) = (middle(format, random), half_place(format, random).max(-unit));
    let z = random.of_bits(1 + (turn % u64::from(format.fraction_bits + 1)) as u32) | 1;
    let fits =
        |product: u64| product >> product.trailing_zeros() >> (format.fraction_bits + 1) == 0;
    let taken_off = random.coin() && fits(tie + z);
    let product = if taken_off { tie + z } else { tie - z };
    if product == 0 {
        return [0, format.one(), scaled(format, z, exponent)];
    }
    let twos = product.trailing_zeros();
    let [x, y] = factors(format, split(product >> twos), exponent + twos as i32, random);
    let turned = if taken_off { format.sign_bit() } else { 0 };
    [x, y, turned | scaled(format, z, exponent)]
}

fn scaled_or_zero(format: Format, digits: u64, exponent: i32) -> u64 {
    if digits == 0 { 0 } else { scaled(format, digits, exponent) }
}

/// One of the operands of a tie moved by a place.
pub fn beside_a_tie(format: Format, turn: u64, random: &mut Random) -> [u64; 3] {
    let mut three = match turn % 2 {
        0 => by_the_product(format, turn / 2, random),
        _ => by_z(format, turn / 2, random),
    };
    let one = &mut three[(turn % 3) as usize];
    *one = format.sign(*one) | moved(format, format.magnitude(*one), random.pick(&[-1, 1]));
    three
}

/// The product is a middle by itself; z is nothing, or stands at every place below its last digit, and decides.
pub fn product_alone(format: Format, turn: u64, random: &mut Random) -> [u64; 3] {
    let (unit, length) = (format.unit_shift() as i32, format.fraction_bits + 2);
    let two = loop {
        let first = 1 + random.below(u64::from(length) - 2) as u32;
        let two = [random.of_bits(first) | 1, random.of_bits(length - first) | 1];
        if (two[0] * two[1]).ilog2() + 1 == length {
            break two;
        }
    };
    let most = format.bias() as i32 - length as i32;
    let below = 1 + (turn % (most + unit) as u64) as i32;
    let exponent = random.between((below - unit).min(most), most);
    let [x, y] = factors(format, two, exponent, random);
    let top = (exponent - below + unit) as u32;
    let any = with_top(format, top, random);
    let z = random.pick(&[0, scaled(format, 1, exponent - below), any]);
    [x, y, if random.coin() { z } else { z | format.sign_bit() }]
}

/// Half a last place of z, or a quarter, but for a tail of the product at many distances below.
pub fn tail_of_the_product(format: Format, _: u64, random: &mut Random) -> [u64; 3] {
    let z = finite(format, random);
    let one = 1u64 << format.fraction_bits;
    let digit = 1 << random.below(format.fraction_bits.into());
    let tail = random.pick(&[1, 2, 3, digit]);
    let a = 1 + random.below(u64::from(format.fraction_bits + 1) / 2) as u32;
    let (square, whole) = (2 * format.fraction_bits, 1u64 << a);
    let (two, tie) = random.pick(&[
        ([one + tail, one - tail], square),
        ([one + tail, one], square),
        ([one - tail, one], square),
        ([whole + 1, (whole << a) - whole + 1], 3 * a),
        ([whole - 1, (whole << a) + whole + 1], 3 * a),
    ]);
    let times = if random.coin() { 1 } else { 1 + 2 * random.below(8) };
    let first = if two[0] * times <= 2 * one { two[0] * times } else { two[0] };
    let exponent = last_place(format, z) - random.between(1, 2) - tie as i32;
    let [x, y] = factors(format, [first, two[1]], exponent, random);
    [x, y, if random.coin() { z } else { z | format.sign_bit() }]
}

/// z beside which a product is subnormal: none, the least, a subnormal one of any length, or about the least normal one.
fn small_z(format: Format, random: &mut Random) -> u64 {
    let any = subnormal(1 + random.below(format.fraction_bits.into()), random);
    let normal = moved(format, format.smallest_normal(), random.between(-3, 3));
    let z = random.pick(&[0, 1, 2, 3, any, any, any, normal]);
    if random.coin() { z } else { z | format.sign_bit() }
}

/// The product is among the subnormal numbers, or just outside.
pub fn subnormal_result(format: Format, turn: u64, random: &mut Random) -> [u64; 3] {
    let two = [digits(format, random) as u64, digits(format, random) as u64];
    let length = (u128::from(two[0]) * u128::from(two[1])).ilog2() as i32;
    let place = (turn % u64::from(format.fraction_bits + 6)) as i32 - 3;
    let exponent = place - format.unit_shift() as i32 - length;
    let [x, y] = factors(format, two, exponent, random);
    [x, y, small_z(format, random)]
}

/// The last digit of the product stands at half the smallest unit; every other time another one does, with what is
/// below it for a tail.
pub fn subnormal_tie(format: Format, turn: u64, random: &mut Random) -> [u64; 3] {
    let most = format.fraction_bits + 1;
    let two = [0; 2].map(|_| random.up_to_bits(most) | 1);
    let length = (u128::from(two[0]) * u128::from(two[1])).ilog2();
    let least = length.saturating_sub(format.fraction_bits);
    let below =
        if turn % 2 == 0 { least } else { random.between(least as i32, length as i32) as u32 };
    let exponent = -(format.unit_shift() as i32) - 1 - below as i32;
    let [x, y] = factors(format, two, exponent, random);
    [x, y, small_z(format, random)]
}

/// The sum stands about the first value that rounds to infinity, half a place above the largest number.
pub fn overflow(format: Format, turn: u64, random: &mut Random) -> [u64; 3] {
    let (bias, bits) = (format.bias() as i32, format.fraction_bits as i32);
    let half = scaled(format, 1, bias - bits - 1);
    let near_half = moved(format, half, random.between(-2, 2));
    let largest = moved(format, format.largest_finite(), random.between(-2, 0));
    match turn % 4 {
        0 => {
            let z = random.pick(&[0, half, near_half, 1]);
            let z = if random.coin() { z } else { z | format.sign_bit() };
            [largest, moved(format, format.one(), random.between(-2, 2)), z]
        }
        1 => {
            // The power of two above them all, and about half a place off it.
            let [x, y] = factors(format, [1, 1], bias + 1, random);
            [x, y, format.sign_bit() | near_half]
        }
        2 => {
            let (one, tail) = (1u64 << bits, random.below(4));
            let two =
                random.pick(&[[one + tail, one - tail], [one + tail, one], [one - tail, one]]);
            let [x, y] = factors(format, two, bias - 3 * bits - 1, random);
            [x, y, largest]
        }
        _ => {
            let two = [digits(format, random) as u64, digits(format, random) as u64];
            let [x, y] = factors(format, two, bias - 2 * bits + random.between(-2, 1), random);
            let z = finite(format, random);
            [x, y, if random.coin() { z } else { z | format.sign_bit() }]
        }
    }
}

#[cfg(test)]
mod tests {
    use super::*;
    use crate::faults_rounded::is_tie;
    use crate::plain::fma;
    use crate::format::{WIDTH_32, WIDTH_64};
    use crate::fused::FOR_FUSED;
    use crate::fused_places::sum;
    use crate::quick::drawn;
    use std::collections::BTreeSet;

    const WIDTHS: [Format; 2] = [WIDTH_64, WIDTH_32];

    fn of_kind(format: Format, kind: &str, count: u64) -> Vec<[u64; 3]> {
        drawn(&FOR_FUSED, kind, format, count).iter().map(|r| r.words).collect()
    }
    fn counts(format: Format, kind: &str, count: u64) -> (usize, BTreeSet<u32>) {
        let ties: Vec<_> = of_kind(format, kind, count)
            .into_iter()
            .filter(|three| is_tie(format, *three))
            .collect();
        let digits = |x: u64| format.units(x).bits() - format.units(x).twos();
        let lengths = ties.iter().map(|[x, y, z]| match kind.ends_with("z's") {
            true => digits(*z),
            false => {
                format.units(*x).mul(&format.units(*y)).bits()
                    - format.units(*x).mul(&format.units(*y)).twos()
            }
        });
        (ties.len(), lengths.collect())
    }

    #[test]
    fn ties_are_ties_with_a_last_digit_from_numbers_of_every_length() {
        for format in WIDTHS {
            for kind in ["ties, the last digit the product's", "ties, the last digit z's"] {
                let (ties, lengths) = counts(format, kind, 4000);
                assert!(ties > 3800, "{kind}: {ties}");
                assert!(
                    (1..=format.fraction_bits + 1).all(|length| lengths.contains(&length)),
                    "{kind}"
                );
            }
            let beside = of_kind(format, "beside a tie", 4000);
            assert!(beside.iter().filter(|three| !is_tie(format, **three)).count() > 2000);
        }
    }
    #[test]
    fn a_tie_of_the_product_has_z_at_every_place_below() {
        for format in WIDTHS {
            let kind = "ties of the product, z at every place below";
            let three = of_kind(format, kind, 20_000);
            assert!(
                three
                    .iter()
                    .filter(|[_, _, z]| format.is_zero(*z))
                    .all(|three| is_tie(format, *three))
            );
            let below = |[x, y, z]: &[u64; 3]| {
                let last = format.units(*x).mul(&format.units(*y)).twos();
                last as i32 - (format.units(*z).bits() + format.unit_shift()) as i32 + 1
            };
            let met: BTreeSet<_> =
                three.iter().filter(|[_, _, z]| !format.is_zero(*z)).map(below).collect();
            let most = format.bias() + format.unit_shift() - format.fraction_bits - 2;
            assert!((1..=most as i32).all(|place| met.contains(&place)));
        }
    }
    #[test]
    fn subnormal_sums_are_ties_or_beside_them_and_round_to_zero_too() {
        for format in WIDTHS {
            let kind = "ties of subnormal results, and beside them";
            let three = of_kind(format, kind, 4000);
            let small = |three: &&[u64; 3]| {
                sum(format, **three).bits() <= format.unit_shift() + format.fraction_bits
            };
            let ties = three.iter().filter(small).filter(|three| is_tie(format, **three)).count();
            assert!(ties > 500 && ties < 3500, "{ties}");
            let answers: BTreeSet<_> =
                three.iter().map(|[x, y, z]| format.magnitude(fma(format, *x, *y, *z))).collect();
            assert!([0, 1, 2, format.smallest_normal()].iter().all(|one| answers.contains(one)));
        }
    }
    #[test]
    fn sums_stand_on_both_sides_of_the_threshold_and_on_it() {
        for format in WIDTHS {
            let threshold = format.scaled_overflow(format.unit_shift());
            let three = of_kind(format, "about the overflow threshold", 4000);
            let sides: BTreeSet<_> =
                three.iter().map(|three| sum(format, *three).cmp(&threshold)).collect();
            assert_eq!(sides.len(), 3);
            let answers = three.iter().map(|[x, y, z]| format.magnitude(fma(format, *x, *y, *z)));
            let met: BTreeSet<_> = answers.collect();
            assert!(met.contains(&format.infinity()) && met.contains(&format.largest_finite()));
        }
    }
}
