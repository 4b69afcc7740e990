//! The sets of operands: how one operand of each set is drawn, at every width.
//!
//! The line before each `pub fn` says what the set holds; `tools/bench --list` and the report show it.

use crate::format::{Format, WIDTH_32, WIDTH_64};
use crate::random::Random;

/// A bit pattern of one of the widths.
pub trait Word: Copy {
    const FORMAT: Format;
    const WIDTH: u32 = Self::FORMAT.width;
    const FRACTION_BITS: u32 = Self::FORMAT.fraction_bits;
    const BIAS: i32 = (1 << (Self::WIDTH - Self::FRACTION_BITS - 2)) - 1;
    /// The exponent of the smallest normal number; the greatest is the bias.
    const SMALLEST: i32 = 1 - Self::BIAS;
    fn of(bits: u64) -> Self;
}
impl Word for u64 {
    const FORMAT: Format = WIDTH_64;
    fn of(bits: u64) -> u64 {
        bits
    }
}
impl Word for u32 {
    const FORMAT: Format = WIDTH_32;
    fn of(bits: u64) -> u32 {
        bits as u32
    }
}

/// One, two or three patterns, for the operations that take so many.
pub trait Patterns {
    fn draw(random: &mut Random) -> Self;
}
impl<W: Word> Patterns for W {
    fn draw(random: &mut Random) -> W {
        W::of(random.word() >> (64 - W::WIDTH))
    }
}
impl<W: Word> Patterns for (W,) {
    fn draw(random: &mut Random) -> (W,) {
        (W::draw(random),)
    }
}
impl<W: Word> Patterns for (W, W) {
    fn draw(random: &mut Random) -> (W, W) {
        (W::draw(random), W::draw(random))
    }
}
impl<W: Word> Patterns for (W, W, W) {
    fn draw(random: &mut Random) -> (W, W, W) {
        (W::draw(random), W::draw(random), W::draw(random))
    }
}

/// A normal number of this exponent, of either sign, with any fraction.
fn number<W: Word>(random: &mut Random, exponent: i32) -> W {
    let sign = (random.coin() as u64) << (W::WIDTH - 1);
    let field = ((exponent + W::BIAS) as u64) << W::FRACTION_BITS;
    W::of(sign | field | random.below(1 << W::FRACTION_BITS))
}

/// any pattern, each alike often
pub fn patterns<T: Patterns>(random: &mut Random) -> T {
    T::draw(random)
}

/// numbers of either sign, exponents -2 to 60 (-2 to 31 at width 32) alike often: most have a whole part and a fraction
pub fn fractions<W: Word>(random: &mut Random) -> (W,) {
    let exponent = random.between(-2, W::FRACTION_BITS as i32 + 8);
    (number(random, exponent),)
}

/// normal numbers, n from -20 to 20, normal results
pub fn normal<W: Word>(random: &mut Random) -> (W, i32) {
    let n = random.between(-20, 20);
    let exponent = random.between(W::SMALLEST.max(W::SMALLEST - n), W::BIAS.min(W::BIAS - n));
    (number(random, exponent), n)
}

/// any pattern, n from -2100 to 2100
pub fn wide<W: Word>(random: &mut Random) -> (W, i32) {
    (W::draw(random), random.between(-2100, 2100))
}

/// normal numbers of any size, and n such that the result is subnormal and not zero
pub fn subnormal<W: Word>(random: &mut Random) -> (W, i32) {
    let exponent = random.between(W::SMALLEST, W::BIAS);
    let target = random.between(W::SMALLEST - W::FRACTION_BITS as i32, W::SMALLEST - 1);
    (number(random, exponent), target - exponent)
}

/// A normal number x of any size, and one so many places below it.
fn apart<W: Word>(random: &mut Random, places: i32) -> (W, W) {
    let exponent = random.between(W::SMALLEST + places, W::BIAS);
    (number(random, exponent), number(random, exponent - places))
}

/// normal numbers, exponents 0 to 8 apart
pub fn near<W: Word>(random: &mut Random) -> (W, W) {
    let places = random.between(0, 8);
    apart(random, places)
}

/// normal numbers, exponents 31 apart
pub fn apart31<W: Word>(random: &mut Random) -> (W, W) {
    apart(random, 31)
}

/// normal numbers, exponents 63 apart
pub fn apart63<W: Word>(random: &mut Random) -> (W, W) {
    apart(random, 63)
}

/// normal numbers, exponents apart by any number of places that there are, each alike often
pub fn far<W: Word>(random: &mut Random) -> (W, W) {
    let places = random.between(0, W::BIAS - W::SMALLEST);
    apart(random, places)
}

/// x of the greatest exponent, y an odd number of smallest units from 3 to 17: the longest way there is
pub fn worst<W: Word>(random: &mut Random) -> (W, W) {
    let units = 3 + 2 * random.below(8);
    (number(random, W::BIAS), W::of(units))
}

/// A y of any length that is not refused, an x below twice that y, and the shift.
fn reduction<W: Word>(random: &mut Random, shift: u32) -> (W, u32, W) {
    let y = random.up_to_bits(W::WIDTH - 2);
    (W::of(random.below(2 * y)), shift, W::of(y))
}

/// y of any length, x below twice y, shifts 0 to 4096 alike often
pub fn random<W: Word>(random: &mut Random) -> (W, u32, W) {
    let shift = random.below(4097) as u32;
    reduction(random, shift)
}

/// y of any length, x below twice y, the shift 4096
pub fn longest<W: Word>(random: &mut Random) -> (W, u32, W) {
    reduction(random, 4096)
}

/// A number with these digits, the last of them at this exponent; the sign is the one that is given.
fn digits<W: Word>(sign: u64, digits: u64, exponent: i32) -> W {
    let top = digits.ilog2();
    let field = ((exponent + top as i32 + W::BIAS) as u64) << W::FRACTION_BITS;
    let fraction = digits << (W::FRACTION_BITS - top) & ((1 << W::FRACTION_BITS) - 1);
    W::of(sign << (W::WIDTH - 1) | field | fraction)
}

/// normal numbers above zero, every exponent alike often
pub fn positive<W: Word>(random: &mut Random) -> (W,) {
    let exponent = random.between(W::SMALLEST, W::BIAS) - W::FRACTION_BITS as i32;
    (digits(0, random.of_bits(W::FRACTION_BITS + 1), exponent),)
}

/// normal numbers above zero whose root is a number
pub fn squares<W: Word>(random: &mut Random) -> (W,) {
    let root = random.up_to_bits((W::FRACTION_BITS + 1) / 2);
    let half = random.between(W::SMALLEST / 2, (W::BIAS - W::FRACTION_BITS as i32) / 2);
    (digits(0, root * root, 2 * half),)
}

/// numbers of either sign with at most two hexadecimal digits behind the point, exponents -9 to 9, as 0x1.8p+1
pub fn short<W: Word>(random: &mut Random) -> (W,) {
    let sign = random.coin() as u64;
    let exponent = random.between(-9, 9) - 8;
    (digits(sign, 0x100 | random.below(0x100), exponent),)
}

/// One subnormal number above zero, or two numbers of which one at least is subnormal.
pub trait Small {
    fn small(random: &mut Random) -> Self;
}
impl<W: Word> Small for (W,) {
    fn small(random: &mut Random) -> (W,) {
        (W::of(random.up_to_bits(W::FRACTION_BITS)),)
    }
}
impl<W: Word> Small for (W, W) {
    fn small(random: &mut Random) -> (W, W) {
        let which = random.below(3);
        let mut draw = |is_normal: bool| {
            let exponent = random.between(W::SMALLEST, W::SMALLEST + 8);
            let sign = (random.coin() as u64) << (W::WIDTH - 1);
            if is_normal { number(random, exponent) } else { W::of(sign | random.up_to_bits(W::FRACTION_BITS)) }
        };
        (draw(which == 1), draw(which == 2))
    }
}

/// subnormal numbers, every length alike often: x above zero; of two, x, y or both, and the other from the 9 least normal exponents
pub fn small<T: Small>(random: &mut Random) -> T {
    T::small(random)
}

/// Normal numbers x and y, and z with its exponent so many places above the sum of theirs.
fn sum<W: Word>(random: &mut Random, above: i32) -> (W, W, W) {
    let middle = W::BIAS / 3;
    let (first, second) = (random.between(-middle, middle), random.between(-middle, middle));
    (number(random, first), number(random, second), number(random, first + second + above))
}

/// normal numbers, the exponent of z within 4 of the product's
pub fn level<W: Word>(random: &mut Random) -> (W, W, W) {
    let above = random.between(-4, 4);
    sum(random, above)
}

/// normal numbers, the exponent of z from 160 below the product's to 160 above (40 at width 32), each alike often
pub fn spread<W: Word>(random: &mut Random) -> (W, W, W) {
    let most = if W::WIDTH == 64 { 160 } else { 40 };
    let above = random.between(-most, most);
    sum(random, above)
}

/// z the first digits of the product, with the other sign, so that the sum is what is left of it
pub fn cancelling<W: Word>(random: &mut Random) -> (W, W, W) {
    let one = W::FRACTION_BITS + 1;
    let (first, second) = (random.of_bits(one), random.of_bits(one));
    let product = first as u128 * second as u128;
    let cut = product.ilog2() + 1 - one;
    let exponent = random.between(-W::BIAS / 4, W::BIAS / 4) - one as i32;
    let z = digits(1, (product >> cut) as u64, 2 * exponent + cut as i32);
    (digits(0, first, exponent), digits(0, second, exponent), z)
}

/// normal numbers x and y with a product among the subnormal numbers, and a subnormal z of any length
pub fn tiny<W: Word>(random: &mut Random) -> (W, W, W) {
    let target = random.between(W::SMALLEST - W::FRACTION_BITS as i32, W::SMALLEST - 1);
    let exponent = random.between(W::SMALLEST, target - W::SMALLEST);
    let z = (random.coin() as u64) << (W::WIDTH - 1) | random.up_to_bits(W::FRACTION_BITS);
    (number(random, exponent), number(random, target - exponent), W::of(z))
}
