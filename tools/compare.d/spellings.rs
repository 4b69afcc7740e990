//! Values as texts: the same number in every way in which the grammar lets it be spelt.

use crate::big::Big;
use crate::format::Format;
use crate::random::Random;

/// The most bytes of a text that is read.
pub const LONGEST: usize = 64;
/// What is left for digits in the longest text: all but a sign, `0x`, a point, `p`, a sign and five digits.
const MOST_DIGITS: usize = LONGEST - 11;
/// The greatest exponent of five digits.
pub const GREATEST: i64 = 99_999;

const DIGITS: &[u8; 16] = b"0123456789abcdef";

/// A number's text by its parts.
#[derive(Clone, Debug)]
pub struct Spelling {
    pub sign: &'static str,
    /// Values of hexadecimal digits, the first of them first.
    pub digits: Vec<u8>,
    /// How many of them stand behind the point, if there is one.
    pub behind: Option<usize>,
    pub exponent_sign: &'static str,
    pub exponent: u64,
    /// Zeros before the exponent's own digits.
    pub exponent_zeros: usize,
}

impl Spelling {
    pub fn text(&self) -> Vec<u8> {
        let mut text = Vec::with_capacity(LONGEST + 8);
        text.extend_from_slice(self.sign.as_bytes());
        text.extend_from_slice(b"0x");
        let before = self.digits.len() - self.behind.unwrap_or(0);
        for (place, digit) in self.digits.iter().enumerate() {
            if self.behind.is_some() && place == before {
                text.push(b'.');
            }
            text.push(DIGITS[usize::from(*digit)]);
        }
        if self.behind == Some(0) {
            text.push(b'.');
        }
        text.push(b'p');
        text.extend_from_slice(self.exponent_sign.as_bytes());
        text.extend(std::iter::repeat_n(b'0', self.exponent_zeros));
        text.extend_from_slice(self.exponent.to_string().as_bytes());
        text
    }
}

/// Sixteen's digits of a number, the first of them first; one zero for none.
fn digits_of(number: &Big) -> Vec<u8> {
    let count = number.bits().div_ceil(4).max(1);
    (0..count).rev().map(|place| (number.word_from(4 * place) & 15) as u8).collect()
}

fn plus(random: &mut Random) -> &'static str {
    random.pick(&["", "", "+"])
}

/// number * 2^exponent with a sign, with zeros before and behind, the point anywhere, and the exponent in any way.
pub fn spelt(is_negative: bool, number: &Big, exponent: i64, random: &mut Random) -> Vec<u8> {
    // Its first digit may hold from one to four bits.
    let shift = random.below(4) as u32;
    let mut digits = digits_of(&number.shl(shift));
    let mut last = exponent - i64::from(shift);
    let room = MOST_DIGITS.saturating_sub(digits.len());
    let ahead = zeros(room, random);
    let behind = zeros(room - ahead, random);
    digits.splice(0..0, std::iter::repeat_n(0, ahead));
    digits.extend(std::iter::repeat_n(0, behind));
    last -= 4 * behind as i64;
    laid_out(is_negative, digits, last, random)
}

/// How many zeros to add where there is room for some: none, a few, or all that there are.
fn zeros(room: usize, random: &mut Random) -> usize {
    let any = random.below(room as u64 + 1) as usize;
    random.pick(&[0, 0, 0, any.min(3), any, room])
}

/// Digits of which the last is worth 2^last, with a point at any place or none.
pub fn laid_out(is_negative: bool, digits: Vec<u8>, last: i64, random: &mut Random) -> Vec<u8> {
    let count = digits.len();
    let anywhere = random.below(count as u64 + 1) as usize;
    // Behind the first digit, as numbers are written; at any place; before all of them; after them; nowhere.
    let behind = random.pick(&[Some(count - 1), Some(anywhere), Some(count), Some(0), None]);
    let exponent = last + 4 * behind.unwrap_or(0) as i64;
    let exponent = exponent.clamp(-GREATEST, GREATEST);
    let size = exponent.unsigned_abs();
    let length = size.to_string().len();
    let spelling = Spelling {
        sign: if is_negative { "-" } else { plus(random) },
        digits,
        behind,
        exponent_sign: if exponent < 0 || size == 0 && random.coin() { "-" } else { plus(random) },
        exponent: size,
        exponent_zeros: if random.below(4) == 0 { random.below(6 - length as u64) as usize } else { 0 },
    };
    spelling.text()
}

/// A text of the grammar with digits and an exponent of any kind, which may be too long.
pub fn any_shape(format: Format, random: &mut Random) -> Spelling {
    let most = random.pick(&[1, 2, 4, 15, 20, MOST_DIGITS as u64]);
    let count = 1 + random.below(most) as usize;
    let any = |random: &mut Random| random.below(16) as u8;
    let mut digits: Vec<u8> = (0..count).map(|_| any(random)).collect();
    // One in four has a run of zeros or of ones.
    if random.below(4) == 0 {
        let from = random.below(count as u64) as usize;
        let fill = random.pick(&[0, 15]);
        digits[from..].iter_mut().for_each(|digit| *digit = fill);
    }
    let behind = random.coin().then(|| random.below(count as u64 + 1) as usize);
    let reach = random.pick(&[9, 99, u64::from(format.bias()), u64::from(format.unit_shift()) + 60, 9999, GREATEST as u64]);
    let exponent = random.below(reach + 1);
    let length = exponent.to_string().len() as u64;
    Spelling {
        sign: random.pick(&["", "-", "+"]),
        digits,
        behind,
        exponent_sign: random.pick(&["", "-", "+", "-"]),
        exponent,
        exponent_zeros: if random.below(4) == 0 { random.below(6 - length) as usize } else { 0 },
    }
}

#[cfg(test)]
mod tests {
    use super::*;

    #[test]
    fn the_parts_stand_in_their_order() {
        let spelling = Spelling { sign: "-", digits: vec![1, 8, 15], behind: Some(2), exponent_sign: "+", exponent: 7, exponent_zeros: 2 };
        let text = |spelling: &Spelling| String::from_utf8(spelling.text()).unwrap();
        assert_eq!(text(&spelling), "-0x1.8fp+007");
        assert_eq!(text(&Spelling { behind: Some(3), ..spelling.clone() }), "-0x.18fp+007");
        assert_eq!(text(&Spelling { behind: Some(0), ..spelling.clone() }), "-0x18f.p+007");
        assert_eq!(text(&Spelling { behind: None, sign: "", exponent_sign: "", ..spelling }), "0x18fp007");
    }
    #[test]
    fn however_it_is_spelt_it_is_the_same_number() {
        use crate::attributes::Attribute;
        use crate::format::WIDTH_64;
        let mut random = Random::new(1, 1);
        for _ in 0..2000 {
            let text = spelt(true, &Big::from(3), -1, &mut random);
            assert!(text.len() <= LONGEST, "{}", text.escape_ascii());
            let read = crate::plain::read(WIDTH_64, Attribute::Even, &text);
            assert_eq!(read, (0, 0xbff8000000000000), "{}", text.escape_ascii());
        }
    }
}
