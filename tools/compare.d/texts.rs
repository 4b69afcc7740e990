//! The kinds of texts that a reader is given: here those in the grammar, whose values lie where rounding turns.

use crate::big::Big;
use crate::broken_texts::BROKEN;
use crate::format::Format;
use crate::numbers::{finite, highest, with_top};
use crate::plain::text_of;
use crate::quick::{fraction, pattern, special};
use crate::random::Random;
use crate::spellings::{GREATEST, any_shape, laid_out, spelt};

/// One kind of texts: its name, and how the next of them is drawn. The turn counts those of the kind.
#[derive(Clone, Copy)]
pub struct TextDraw {
    pub kind: &'static str,
    pub make: fn(Format, u64, &mut Random) -> Vec<u8>,
}

pub const fn draw(kind: &'static str, make: fn(Format, u64, &mut Random) -> Vec<u8>) -> TextDraw {
    TextDraw { kind, make }
}

/// All kinds, of which each turn takes the next.
pub fn kinds() -> impl Iterator<Item = &'static TextDraw> + Clone {
    IN_GRAMMAR.iter().chain(&BROKEN)
}

pub static IN_GRAMMAR: [TextDraw; 10] = [
    draw("of any shape", |f, _, random| any_shape(f, random).text()),
    draw("as they are written", |f, turn, random| text_of(f, written_pattern(f, turn, random))),
    draw("numbers spelt in other ways", |f, _, random| {
        let number = finite(f, random);
        spelt_pattern(f, number, random)
    }),
    draw("ties at every digit, and beside them", tie),
    draw("ties of subnormal numbers, and beside them", subnormal_tie),
    draw("about the largest number", |f, turn, random| about(f, f.largest_finite(), turn, random)),
    draw("about the least normal number", |f, turn, random| about(f, f.smallest_normal(), turn, random)),
    draw("about half of the least subnormal number", |f, turn, random| about(f, turn % 2, turn / 2, random)),
    draw("exponents at their ends, and past the range", past_the_range),
    draw("zeros, infinities and NaNs", zero_or_word),
];

/// Every class, numbers with few digits among them.
pub fn written_pattern(format: Format, turn: u64, random: &mut Random) -> u64 {
    let sign = sign(format, random);
    match turn % 4 {
        0 => sign | special(format, random),
        1 => {
            let field = random.below(u64::from(format.exponent_field(format.infinity())));
            sign | field << format.fraction_bits | fraction(format, random)
        }
        2 => sign | with_top(format, (turn / 4 % (u64::from(highest(format)) + 1)) as u32, random),
        _ => pattern(format, turn / 4, random),
    }
}

fn sign(format: Format, random: &mut Random) -> u64 {
    if random.coin() { format.sign_bit() } else { 0 }
}

fn spelt_pattern(format: Format, number: u64, random: &mut Random) -> Vec<u8> {
    let (digits, exponent) = format.significand(number);
    let is_negative = random.coin();
    spelt(is_negative, &Big::from(digits), exponent, random)
}

/// number * 2^exponent as it is, or a digit far below more or less.
fn with_far_digit(number: Big, exponent: i64, random: &mut Random) -> Vec<u8> {
    let is_negative = random.coin();
    let (number, exponent) = match random.below(4) {
        0 | 1 => (number, exponent),
        far => {
            // As far as the longest text has digits.
            let most = 208 - u64::from(number.bits());
            let reach = random.pick(&[3, 12, 64, most]);
            let gap = 1 + random.below(reach) as u32;
            let [moved, one] = [number.shl(gap), Big::from(1)];
            (if far == 2 { moved.add(&one) } else { moved.sub(&one) }, exponent - i64::from(gap))
        }
    };
    spelt(is_negative, &number, exponent, random)
}

/// Half a place above a number of every binade in turn.
fn tie(format: Format, turn: u64, random: &mut Random) -> Vec<u8> {
    let top = (turn % (u64::from(highest(format)) + 1)) as u32;
    half_above(format, with_top(format, top, random), random)
}
/// The same above subnormal numbers of every length.
fn subnormal_tie(format: Format, turn: u64, random: &mut Random) -> Vec<u8> {
    let top = (turn % (u64::from(format.fraction_bits) + 1)) as u32;
    half_above(format, with_top(format, top, random), random)
}
fn half_above(format: Format, number: u64, random: &mut Random) -> Vec<u8> {
    let (digits, exponent) = format.significand(number);
    with_far_digit(Big::from(2 * digits + 1), exponent - 1, random)
}

/// A pattern and quarters of its place, down to one place below it and up to two above.
fn about(format: Format, base: u64, turn: u64, random: &mut Random) -> Vec<u8> {
    let (digits, exponent) = format.significand(base);
    let quarters = (4 * digits).saturating_add_signed(turn as i64 % 13 - 4).max(1);
    with_far_digit(Big::from(quarters), exponent - 2, random)
}

/// The exponent at an end of five digits or beside it, or such that the value is some places past the range.
fn past_the_range(format: Format, turn: u64, random: &mut Random) -> Vec<u8> {
    let is_negative = random.coin();
    if turn % 2 == 0 {
        let mut spelling = any_shape(format, random);
        spelling.exponent = GREATEST as u64 - random.pick(&[0, 0, 0, 1, 2, 9, 207]);
        spelling.exponent_zeros = 0;
        return spelling.text();
    }
    let reach = random.pick(&[3, 70, 1 << 10, 1 << 15, GREATEST as u64 - 2000]);
    let off = random.below(reach) as i64;
    let number = random.up_to_bits(64);
    let first = match random.coin() {
        true => i64::from(format.bias()) + 1 + off,
        false => -i64::from(format.unit_shift()) - 1 - off,
    };
    spelt(is_negative, &Big::from(number), first - i64::from(number.ilog2()), random)
}

fn zero_or_word(format: Format, turn: u64, random: &mut Random) -> Vec<u8> {
    match turn % 8 {
        0 => random.pick(&[b"inf".as_slice(), b"-inf", b"nan"]).to_vec(),
        _ => {
            let most = random.pick(&[1, 3, 20, 53]);
            let digits = vec![0; 1 + random.below(most) as usize];
            let reach = random.pick(&[9, i64::from(format.unit_shift()), GREATEST]);
            let last = random.below(2 * reach as u64 + 1) as i64 - reach;
            let is_negative = random.coin();
            laid_out(is_negative, digits, last, random)
        }
    }
}

#[cfg(test)]
mod tests {
    use super::*;
    use crate::attributes::Attribute;
    use crate::format::{WIDTH_32, WIDTH_64};
    use crate::plain::read;

    #[test]
    fn all_of_these_are_in_the_grammar() {
        for format in [WIDTH_64, WIDTH_32] {
            for draw in &IN_GRAMMAR {
                let mut random = Random::new(1, 1);
                for turn in 0..4000 {
                    let text = (draw.make)(format, turn, &mut random);
                    assert_eq!(read(format, Attribute::Even, &text).0, 0, "{}: {}", draw.kind, text.escape_ascii());
                }
            }
        }
    }
}
