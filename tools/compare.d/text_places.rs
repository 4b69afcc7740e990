//! Where texts lie: how one that is read is spelt, where its exact value is, and what was made of it; why another is refused is
//! told in `refused_texts`. All goes by the text and by the judge's answer, and not by how the text was drawn.

use crate::attributes::Attribute;
use crate::big::Big;
use crate::format::Format;
use crate::locations::{LOCATIONS, Location, Magnitude};
use crate::operations::Form;
use crate::places::places;
use crate::refused_texts::{REFUSED, Refused, refused};
use crate::request::Answer;
use crate::rounded_places::BELOW_ZERO;
use crate::spellings::LONGEST;
use std::sync::OnceLock;

places! { Spelt, SPELT:
    NextToFull "63 bytes",
    Full "64 bytes",
    NoPoint "no point",
    PointFirst "the point first",
    PointLast "the point last",
    PointAmong "the point among the digits",
    ZerosFirst "zeros before the first digit",
    ZerosLast "zeros behind the last digit",
    MoreDigits "more digits than a number has",
    Greatest "the exponent 99999",
    Least "the exponent -99999",
    ZeroFirst "a zero before the digits of the exponent",
    Plus "a plus before the number",
}
places! { Apart, APART:
    Nan "a NaN",
    Infinite "infinite",
    Zero "zero",
}
places! { Made, MADE:
    Exact "the exact value",
    Inward "rounded toward zero",
    Outward "rounded away from zero",
    Infinity "infinity for a number",
    Largest "the largest number for more than the next that would be",
    ToZero "zero for a number",
    LeastSubnormal "the least subnormal number for less",
    LeastNormal "the least normal number for less",
}

/// The names without a sign, in the order of the tables: of texts, of values, and of what was made of them.
pub fn names_of_texts() -> Vec<&'static str> {
    [REFUSED, SPELT].concat()
}
pub fn names_of_values() -> Vec<&'static str> {
    [APART, LOCATIONS].concat()
}
pub fn names_of_answers() -> &'static [&'static str] {
    MADE
}

/// All names; of values and of what was made of them each is followed by the same below zero.
pub fn names() -> &'static [&'static str] {
    static NAMES: OnceLock<Vec<&'static str>> = OnceLock::new();
    NAMES.get_or_init(|| {
        let below = |name: &str| -> &'static str { String::leak(format!("{name}{BELOW_ZERO}")) };
        let signed = [APART, LOCATIONS, MADE].concat();
        let signed = signed.into_iter().flat_map(|name| [name, below(name)]);
        names_of_texts().into_iter().chain(signed).collect()
    })
}

#[derive(Clone, Copy)]
enum What {
    Refused(Refused),
    Spelt(Spelt),
    Apart(Apart),
    At(Location),
    Made(Made),
}

impl What {
    fn place(self, is_negative: bool) -> usize {
        let signed = |place: usize| REFUSED.len() + SPELT.len() + 2 * place + usize::from(is_negative);
        match self {
            What::Refused(refused) => refused as usize,
            What::Spelt(spelt) => REFUSED.len() + spelt as usize,
            What::Apart(apart) => signed(apart as usize),
            What::At(location) => signed(APART.len() + location as usize),
            What::Made(made) => signed(APART.len() + LOCATIONS.len() + made as usize),
        }
    }
}

/// The places of a text among the names, by what the judge makes of it.
pub fn places_met(format: Format, text: &[u8], exact: &Answer) -> Vec<usize> {
    let is_negative = format.is_negative(exact.word);
    let met = match exact.number {
        0 => read(format, text, exact.word),
        number => vec![What::Refused(refused(number, text))],
    };
    met.into_iter().map(|what| what.place(is_negative)).collect()
}

// ---- what is read

/// A number's text, taken apart where it is known to be one.
struct Parts<'a> {
    before: &'a [u8],
    behind: Option<&'a [u8]>,
    power: &'a [u8],
}

fn parts(text: &[u8]) -> Option<Parts<'_>> {
    let start = text.iter().position(|byte| *byte == b'x')? + 1;
    let end = text.iter().position(|byte| *byte == b'p')?;
    let mut digits = text[start..end].splitn(2, |byte| *byte == b'.');
    Some(Parts { before: digits.next()?, behind: digits.next(), power: &text[end + 1..] })
}

fn read(format: Format, text: &[u8], value: u64) -> Vec<What> {
    let Some(parts) = parts(text) else {
        return vec![What::Apart(if format.is_nan(value) { Apart::Nan } else { Apart::Infinite })];
    };
    let mut met: Vec<What> = spelt(format, text, &parts).into_iter().map(What::Spelt).collect();
    let magnitude = magnitude_of(&parts);
    if magnitude.is_zero() {
        met.push(What::Apart(Apart::Zero));
        return met;
    }
    let (location, below) = magnitude.located(format);
    met.extend([What::At(location), What::Made(made(format, location, below, format.magnitude(value)))]);
    met
}

fn magnitude_of(parts: &Parts) -> Magnitude {
    let digits = [parts.before, parts.behind.unwrap_or_default()].concat();
    let mut number = Big::zero();
    for digit in digits {
        let digit = (digit as char).to_digit(16).unwrap_or_default();
        number = number.shl(4).add(&Big::from(digit.into()));
    }
    let power: i64 = String::from_utf8_lossy(parts.power).parse().unwrap_or_default();
    Magnitude::of(number, power - 4 * parts.behind.unwrap_or_default().len() as i64)
}

fn spelt(format: Format, text: &[u8], parts: &Parts) -> Vec<Spelt> {
    let (before, behind) = (parts.before, parts.behind.unwrap_or_default());
    let [first, last] = [before.iter().chain(behind).next(), before.iter().chain(behind).next_back()];
    let digits = before.len() + behind.len();
    let power = parts.power.strip_prefix(b"+").unwrap_or(parts.power);
    let held = [
        (text.len() == LONGEST - 1, Spelt::NextToFull),
        (text.len() == LONGEST, Spelt::Full),
        (parts.behind.is_none(), Spelt::NoPoint),
        (before.is_empty(), Spelt::PointFirst),
        (parts.behind == Some(b""), Spelt::PointLast),
        (!before.is_empty() && !behind.is_empty(), Spelt::PointAmong),
        (digits > 1 && first == Some(&b'0'), Spelt::ZerosFirst),
        (digits > 1 && last == Some(&b'0'), Spelt::ZerosLast),
        (4 * digits > format.fraction_bits as usize + 8, Spelt::MoreDigits),
        (power == b"99999", Spelt::Greatest),
        (power == b"-99999", Spelt::Least),
        (power.len() > 1 && power.starts_with(b"0") || power.starts_with(b"-0") && power.len() > 2, Spelt::ZeroFirst),
        (text.starts_with(b"+"), Spelt::Plus),
    ];
    held.into_iter().filter(|(is_met, _)| *is_met).map(|(_, spelt)| spelt).collect()
}

/// What a value at a location, with this number below it, became.
fn made(format: Format, location: Location, below: u64, answer: u64) -> Made {
    use Location::*;
    match location {
        Largest | Normal | Least | LargestSubnormal | Subnormal => Made::Exact,
        _ if format.is_infinite(answer) => Made::Infinity,
        Next | PastNext => Made::Largest,
        _ if answer == 0 => Made::ToZero,
        _ if below == 0 => Made::LeastSubnormal,
        _ if answer > below && answer == format.smallest_normal() => Made::LeastNormal,
        _ if answer > below => Made::Outward,
        _ => Made::Inward,
    }
}

// ---- what a run must meet

/// Whether a run of a reader must meet a place: all texts, all values of both signs, and what its attribute makes of them.
pub fn is_asked(form: Form, place: usize) -> bool {
    static ASKED: OnceLock<Vec<Vec<bool>>> = OnceLock::new();
    let attribute = match form {
        Form::Attribute(attribute) => attribute,
        _ => Attribute::Even,
    };
    let all = || (0..5).filter_map(Attribute::of_number).map(|one| (0..names().len()).map(|place| asked(one, place)).collect());
    ASKED.get_or_init(|| all().collect())[attribute as usize][place]
}

fn asked(attribute: Attribute, place: usize) -> bool {
    let signed = REFUSED.len() + SPELT.len();
    let made = signed + 2 * (APART.len() + LOCATIONS.len());
    let is_negative = (place.wrapping_sub(signed)) % 2 == 1;
    match place {
        _ if place < signed => true,
        _ if place == What::Apart(Apart::Nan).place(true) => false,
        _ if place < made => true,
        _ => makes(attribute, (place - made) / 2, is_negative),
    }
}

/// Whether an attribute can make this of values of a sign.
fn makes(attribute: Attribute, made: usize, is_negative: bool) -> bool {
    let goes_out = match attribute {
        Attribute::Zero => Some(false),
        Attribute::Down => Some(is_negative),
        Attribute::Up => Some(!is_negative),
        Attribute::Even | Attribute::Away => None,
    };
    let is = |one: Made| made == one as usize;
    if is(Made::Exact) {
        return true;
    }
    let is_outward = is(Made::Outward) || is(Made::Infinity) || is(Made::LeastSubnormal) || is(Made::LeastNormal);
    // To nearest a value past the range is infinity.
    goes_out.map_or(!is(Made::Largest), |goes_out| goes_out == is_outward)
}

#[cfg(test)]
mod tests {
    use super::*;
    use crate::format::WIDTH_64;
    use crate::plain;

    fn met(text: &str) -> Vec<&'static str> {
        let (number, word) = plain::read(WIDTH_64, Attribute::Even, text.as_bytes());
        places_met(WIDTH_64, text.as_bytes(), &Answer::refusal(number, word)).into_iter().map(|place| names()[place]).collect()
    }

    #[test]
    fn how_a_text_is_spelt_and_where_its_value_lies_is_told() {
        assert_eq!(met("nan"), ["a NaN"]);
        assert_eq!(met("-inf"), ["infinite, below zero"]);
        assert_eq!(met("-0x0p-99999"), ["no point", "the exponent -99999", "zero, below zero"]);
        let tie = "-0x1.00000000000008p+00";
        assert_eq!(met(tie), ["the point among the digits", "a zero before the digits of the exponent", "a normal number and half a place, below zero", "rounded toward zero, below zero"]);
        let half = "+0x.8p-1074";
        assert_eq!(met(half), ["the point first", "a plus before the number", "half of the least subnormal number", "zero for a number"]);
        assert_eq!(met("0x01.p1024"), ["the point last", "zeros before the first digit", "the next number that would be, exactly", "infinity for a number"]);
    }
    #[test]
    fn an_attribute_is_asked_for_what_it_makes() {
        let asks = |attribute, name: &str| is_asked(Form::Attribute(attribute), names().iter().position(|one| *one == name).unwrap());
        assert!(asks(Attribute::Up, "infinity for a number") && !asks(Attribute::Up, "infinity for a number, below zero"));
        assert!(asks(Attribute::Zero, "zero for a number") && !asks(Attribute::Zero, "the least normal number for less"));
        assert!(!asks(Attribute::Away, "the largest number for more than the next that would be") && !asks(Attribute::Up, "a NaN, below zero"));
    }
}
