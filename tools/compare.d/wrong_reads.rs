//! Texts read wrongly, in one way each: an exact answer, changed where the fault strikes. A run must find every one of them,
//! in a program and in an archive.

use crate::attributes::Attribute::{self, Away, Down, Even, Up, Zero};
use crate::format::Format;
use crate::numerals;
use crate::request::Answer;

/// A text with the number of an attribute, which is 0 in the call without one.
pub struct Reading<'a> {
    pub format: Format,
    pub number: u32,
    pub text: &'a [u8],
}

pub struct WrongRead {
    pub name: &'static str,
    /// Changes an exact answer where the fault strikes.
    pub spoil: fn(&Reading, &mut Answer),
}

const fn wrong(name: &'static str, spoil: fn(&Reading, &mut Answer)) -> WrongRead {
    WrongRead { name, spoil }
}

impl Reading<'_> {
    fn is(&self, attribute: Attribute) -> bool {
        Attribute::of_number(self.number) == Some(attribute)
    }
    fn is_unknown(&self) -> bool {
        Attribute::of_number(self.number).is_none()
    }
    /// What another text is read as, and what this one is under another attribute.
    fn of(&self, text: &[u8]) -> Answer {
        let attribute = Attribute::of_number(self.number);
        let (refusal, value) = attribute.map_or((10, 0), |one| numerals::read(self.format, one, text));
        Answer::refusal(refusal, value)
    }
    fn under(&self, attribute: Attribute) -> Answer {
        let (refusal, value) = numerals::read(self.format, attribute, self.text);
        Answer::refusal(refusal, value)
    }
    /// What the text is read as with each byte of the digits before the exponent made into another; the first is digit 0.
    fn with_digits(&self, change: impl Fn(usize, u8) -> u8) -> Answer {
        let mut text = self.text.to_vec();
        let place = |one: u8| self.text.iter().position(|byte| *byte == one);
        if let (Some(start), Some(end)) = (place(b'x'), place(b'p')) {
            let digits = text[start + 1..].iter_mut().take(end.saturating_sub(start + 1)).filter(|byte| **byte != b'.');
            digits.enumerate().for_each(|(place, byte)| *byte = change(place, *byte));
        }
        self.of(&text)
    }
    /// The exponent's digits, and what stands before them.
    fn power(&self) -> Option<(&[u8], &[u8])> {
        let start = self.text.iter().rposition(|byte| !byte.is_ascii_digit())? + 1;
        Some(self.text.split_at(start))
    }
}

pub static WRONG: [WrongRead; 44] = [
    // 6: the text is too long
    wrong("sixty-five-bytes-read", |r, a| give(a, a.number == 6 && r.text.len() == 65, Answer::refusal(0, r.format.one()))),
    wrong("sixty-four-bytes-refused", |r, a| give(a, r.text.len() == 64 && !r.is_unknown(), Answer::refusal(6, 0))),
    wrong("outside-the-grammar-before-too-long", |r, a| {
        let is_outside = !matches!(r.text.first(), Some(b'0' | b'+' | b'-'));
        give(a, a.number == 6 && is_outside, Answer::refusal(7, 0))
    }),
    wrong("low-byte-taken-for-the-length", |r, a| {
        let low = r.text.len() & 0xff;
        give(a, r.text.len() > 255, r.of(&r.text[..low]))
    }),
    wrong("too-long-is-outside-the-grammar", |_, a| give(a, a.number == 6, Answer::refusal(7, 0))),
    // 7: outside the grammar
    wrong("upper-case-read", |r, a| give(a, a.number == 7, r.of(&r.text.to_ascii_lowercase()))),
    wrong("blank-first-read", |r, a| give(a, a.number == 7, r.of(r.text.trim_ascii_start()))),
    wrong("blank-last-read", |r, a| give(a, a.number == 7, r.of(r.text.trim_ascii_end()))),
    wrong("six-digits-of-exponent-read", |r, a| {
        if let Some((before, [b'0', rest @ ..])) = r.power().filter(|(_, digits)| digits.len() == 6) {
            give(a, a.number == 7, r.of(&[before, rest].concat()));
        }
    }),
    wrong("second-point-passed-over", |r, a| {
        let mut points = 0;
        let is_kept = |byte: &&u8| **byte != b'.' || std::mem::replace(&mut points, 1) == 0;
        let text: Vec<u8> = r.text.iter().filter(is_kept).copied().collect();
        give(a, a.number == 7, r.of(&text))
    }),
    wrong("no-digit-is-zero", |r, a| {
        let text = String::from_utf8_lossy(r.text).replace("0x.p", "0x0p").replace("0xp", "0x0p");
        give(a, a.number == 7, r.of(text.as_bytes()))
    }),
    wrong("no-exponent-is-zero", |r, a| give(a, a.number == 7, r.of(&[r.text, b"p0"].concat()))),
    wrong("no-digit-of-exponent-is-zero", |r, a| {
        let is_bare = matches!(r.text.last(), Some(b'p' | b'+' | b'-'));
        give(a, a.number == 7 && is_bare, r.of(&[r.text, b"0"].concat()))
    }),
    wrong("last-byte-not-looked-at", |r, a| {
        let cut = r.text.len().saturating_sub(1);
        give(a, a.number == 7, r.of(&r.text[..cut]))
    }),
    wrong("zero-byte-ends-the-text", |r, a| {
        let end = r.text.iter().position(|byte| *byte == 0).unwrap_or(r.text.len());
        give(a, a.number == 7, r.of(&r.text[..end]))
    }),
    wrong("plus-before-a-word-read", |r, a| give(a, r.text == b"+inf" && a.number == 7, Answer::refusal(0, r.format.infinity()))),
    wrong("minus-before-nan-read", |r, a| give(a, r.text == b"-nan" && a.number == 7, Answer::refusal(0, r.format.canonical_nan()))),
    wrong("longer-word-read", |r, a| give(a, a.number == 7 && r.text.starts_with(b"inf"), Answer::refusal(0, r.format.infinity()))),
    wrong("no-prefix-read", |r, a| give(a, a.number == 7, r.of(&[b"0x", r.text].concat()))),
    wrong("point-first-refused", |r, a| give(a, a.number == 0 && has(r.text, b"x."), Answer::refusal(7, 0))),
    wrong("point-last-refused", |r, a| give(a, a.number == 0 && has(r.text, b".p"), Answer::refusal(7, 0))),
    wrong("plus-first-refused", |r, a| give(a, a.number == 0 && r.text.starts_with(b"+"), Answer::refusal(7, 0))),
    wrong("zero-before-the-exponent-refused", |r, a| {
        let is_led = r.power().is_some_and(|(_, digits)| digits.len() > 1 && digits[0] == b'0');
        give(a, a.number == 0 && is_led, Answer::refusal(7, 0))
    }),
    wrong("outside-the-grammar-is-too-long", |_, a| give(a, a.number == 7, Answer::refusal(6, 0))),
    wrong("refused-with-a-nan", |r, a| give(a, a.number == 7, Answer::refusal(7, r.format.canonical_nan()))),
    // 10: no attribute
    wrong("unknown-attribute-is-even", |r, a| give(a, r.is_unknown(), r.under(Even))),
    wrong("five-is-away", |r, a| give(a, r.number == 5, r.under(Away))),
    wrong("length-before-the-attribute", |r, a| give(a, r.is_unknown() && r.text.len() > 64, Answer::refusal(6, 0))),
    wrong("grammar-before-the-attribute", |r, a| give(a, r.is_unknown() && r.under(Even).number == 7, Answer::refusal(7, 0))),
    wrong("low-byte-of-the-attribute", |r, a| {
        if let Some(attribute) = Attribute::of_number(r.number & 0xff) {
            give(a, a.number == 10, r.under(attribute));
        }
    }),
    // values
    wrong("digits-past-a-word-lost", |r, a| give(a, a.number == 0, r.with_digits(|place, digit| if place < 16 { digit } else { b'0' }))),
    wrong("digits-past-the-fortieth-lost", |r, a| give(a, a.number == 0, r.with_digits(|place, digit| if place < 40 { digit } else { b'0' }))),
    wrong("weight-of-the-point-lost", |r, a| {
        let text: Vec<u8> = r.text.iter().filter(|byte| **byte != b'.').copied().collect();
        give(a, a.number == 0, r.of(&text))
    }),
    wrong("zero-loses-its-sign", |r, a| give(a, a.number == 0 && r.format.is_zero(a.word), Answer::refusal(0, 0))),
    wrong("attribute-passed-over", |r, a| give(a, !r.is_unknown(), r.under(Even))),
    wrong("down-goes-toward-zero", |r, a| give(a, r.is(Down), r.under(Zero))),
    wrong("up-goes-away-from-zero", |r, a| give(a, r.is(Up) && r.format.is_negative(a.word), r.under(Down))),
    wrong("ties-away-are-even", |r, a| give(a, r.is(Away), r.under(Even))),
    wrong("ties-even-go-away", |r, a| give(a, r.is(Even), r.under(Away))),
    wrong("infinity-for-the-largest-number", |r, a| {
        let is_largest = r.format.magnitude(a.word) == r.format.largest_finite();
        give(a, is_largest && (r.is(Zero) || r.is(Down)), Answer::refusal(0, a.word + 1))
    }),
    wrong("exponent-of-sixteen-bits", |r, a| {
        if let Some((before, digits)) = r.power() {
            let power: u64 = String::from_utf8_lossy(digits).parse().unwrap_or_default();
            give(a, a.number == 0, r.of(&[before, (power & 0xffff).to_string().as_bytes()].concat()));
        }
    }),
    wrong("exponent-of-four-digits", |r, a| {
        if let Some((before, digits)) = r.power().filter(|(_, digits)| digits.len() == 5) {
            give(a, a.number == 0, r.of(&[before, &digits[..4]].concat()));
        }
    }),
    wrong("half-of-the-least-number-goes-up", |r, a| {
        give(a, a.number == 0 && r.is(Even) && r.format.is_zero(a.word), r.under(Away))
    }),
    wrong("nan-of-another-pattern", |r, a| give(a, r.format.is_nan(a.word), Answer::refusal(0, a.word | 1))),
];

fn give(answer: &mut Answer, strikes: bool, other: Answer) {
    *answer = if strikes { other } else { *answer };
}
fn has(text: &[u8], part: &[u8]) -> bool {
    text.windows(part.len()).any(|one| one == part)
}
