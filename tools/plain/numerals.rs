// Hexadecimal numerals by the words of ISO C (6.4.4.3, 7.24.1.5, 7.23.6.1), read and written on exact values.

use crate::answers_flags::NO_ATTRIBUTE;
use crate::answers_parts::ilogb;
use crate::attributes::{round, Attribute, Exact};
use crate::big::Big;
use crate::format::Format;
use crate::operations::{Field, Form, Operation, Task};
use crate::rounding::by_neighbours;

/// The most bytes of a text, and the most digits of an exponent.
const LONGEST_TEXT: usize = 64;
const LONGEST_EXPONENT: usize = 5;

const TOO_LONG: u32 = 6;
const NO_NUMERAL: u32 = 7;
const NO_ROOM: u32 = 8;

/// What a text stands for.
enum Numeral {
    Number(Exact),
    Infinity { negative: bool },
    Nan,
}

/// The whole answer of a line that reads or writes.
pub fn judge(operation: &Operation, operands: &[Field]) -> Vec<Field> {
    let format = operation.format;
    let (number, value) = match (operation.task, operation.form, operands) {
        (Task::Write, _, [Field::Word(x), Field::Unsigned(room)]) => {
            return write(format, *x, *room);
        }
        (_, Form::Plain, [Field::Text(text)]) => read(format, Attribute::Even, text),
        (_, Form::Attribute(attribute), [Field::Text(text)]) => read(format, attribute, text),
        (_, Form::Numbered, [Field::Unsigned(number), Field::Text(text)]) => {
            let attribute = Attribute::of_number(*number);
            attribute.map_or((NO_ATTRIBUTE, 0), |attribute| read(format, attribute, text))
        }
        _ => unreachable!("the reader admits only the operands of the table"),
    };
    vec![Field::Unsigned(number), Field::Word(value)]
}

/// The number of the refusal, 0 if there is none, and the pattern.
pub fn read(format: Format, attribute: Attribute, text: &[u8]) -> (u32, u64) {
    if text.len() > LONGEST_TEXT {
        return (TOO_LONG, 0);
    }
    match numeral(text) {
        None => (NO_NUMERAL, 0),
        Some(numeral) => (0, value(format, attribute, &numeral)),
    }
}

/// The exact value that a text spells, if it is that of a number.
pub fn spelt(text: &[u8]) -> Option<Exact> {
    match numeral(text)? {
        Numeral::Number(exact) => Some(exact),
        _ => None,
    }
}

/// What a text says, if it is in the grammar: taken apart at the `p` and at the
/// point, neither of which is a digit.
fn numeral(text: &[u8]) -> Option<Numeral> {
    match text {
        b"inf" => return Some(Numeral::Infinity { negative: false }),
        b"-inf" => return Some(Numeral::Infinity { negative: true }),
        b"nan" => return Some(Numeral::Nan),
        _ => (),
    }
    let (negative, magnitude) = without_sign(text);
    let (significand, exponent) = parted(magnitude.strip_prefix(b"0x")?, b'p')?;
    let (before, behind) = parted(significand, b'.').unwrap_or((significand, b""));
    let number = hexadecimal(&[before, behind].concat())?;
    // Behind the point a digit counts a sixteenth of what it would before it.
    let exponent = power(exponent)? - 4 * behind.len() as i64;
    Some(Numeral::Number(Exact { negative, number, exponent }))
}

fn without_sign(text: &[u8]) -> (bool, &[u8]) {
    match text {
        [b'-', rest @ ..] => (true, rest),
        [b'+', rest @ ..] => (false, rest),
        _ => (false, text),
    }
}

/// What stands before a byte and what behind it, where it comes first.
fn parted(text: &[u8], at: u8) -> Option<(&[u8], &[u8])> {
    let place = text.iter().position(|byte| *byte == at)?;
    Some((&text[..place], &text[place + 1..]))
}

/// The number of one hexadecimal digit or more, as many at a time as fit a word.
fn hexadecimal(digits: &[u8]) -> Option<Big> {
    let is_digit = |byte: &u8| matches!(byte, b'0'..=b'9' | b'a'..=b'f');
    if digits.is_empty() || !digits.iter().all(is_digit) {
        return None;
    }
    let mut number = Big::zero();
    for part in digits.chunks(16) {
        let word = u64::from_str_radix(std::str::from_utf8(part).ok()?, 16).ok()?;
        number = number.shl(4 * part.len() as u32).add(&Big::from(word));
    }
    Some(number)
}

fn power(text: &[u8]) -> Option<i64> {
    let (negative, digits) = without_sign(text);
    let few = (1..=LONGEST_EXPONENT).contains(&digits.len());
    if !few || !digits.iter().all(u8::is_ascii_digit) {
        return None;
    }
    let number: i64 = std::str::from_utf8(digits).ok()?.parse().ok()?;
    Some(if negative { -number } else { number })
}

/// By two ways that share no rounding: the digits cut off, and the search among
/// neighbours. Where they differ, neither is a judge.
fn value(format: Format, attribute: Attribute, numeral: &Numeral) -> u64 {
    let signed = |negative, magnitude| format.sign_bit() * negative as u64 | magnitude;
    match numeral {
        Numeral::Nan => format.canonical_nan(),
        Numeral::Infinity { negative } => signed(*negative, format.infinity()),
        Numeral::Number(exact) if exact.number.is_zero() => signed(exact.negative, 0),
        Numeral::Number(exact) => {
            let (cut, _) = round(format, attribute, exact);
            let searched = signed(exact.negative, search(format, attribute, exact));
            assert!(searched == cut, "{searched:x} by search, {cut:x} by digits");
            cut
        }
    }
}

fn search(format: Format, attribute: Attribute, exact: &Exact) -> u64 {
    // In smallest units the number is multiplied by 2^place.
    let place = exact.exponent + format.unit_shift() as i64;
    // It is at least 1: from the place `past` on there are 2^past units or more,
    // which is 2^(emax + 1). It is below 2^bits: from -bits - 2 down there is
    // less than a quarter of a unit. In either case the answer no longer depends
    // on the place, so the exact value is kept to a size that can be written down.
    let past = (format.unit_shift() + format.bias() + 1) as i64;
    let place = place.clamp(-2 - exact.number.bits() as i64, past);
    let (raised, lowered) = (place.max(0) as u32, (-place).max(0) as u32);
    by_neighbours(format, attribute, exact.negative, (&exact.number.shl(raised), lowered))
}

/// The number of the refusal, the length and the text, which is missing where
/// the call is refused.
fn write(format: Format, x: u64, room: u32) -> Vec<Field> {
    let text = written(format, x).into_bytes();
    let length = text.len() as u32;
    match length > room {
        true => vec![Field::Unsigned(NO_ROOM), Field::Unsigned(0)],
        false => vec![Field::Unsigned(0), Field::Unsigned(length), Field::Text(text)],
    }
}

/// The text of a pattern: a digit before the point, then as many as are left,
/// each the whole part of sixteen times what the last one left.
pub fn written(format: Format, x: u64) -> String {
    let sign = if format.is_negative(x) { "-" } else { "" };
    if format.is_nan(x) {
        return "nan".to_string();
    }
    if format.is_infinite(x) {
        return format!("{sign}inf");
    }
    if format.is_zero(x) {
        return format!("{sign}0x0p+0");
    }
    // The exponent of the leading digit; but a subnormal number has that of the
    // least normal one, and so a 0 before the point.
    let exponent = ilogb(format, x).max(1 - format.bias() as i32);
    let (significand, lowest) = format.significand(x);
    // The magnitude is rest / one times 2^exponent.
    let (mut rest, one) = (significand as u128, 1u128 << (exponent as i64 - lowest));
    let mut text = format!("{sign}0x{}", rest / one);
    rest %= one;
    text.push_str(if rest == 0 { "" } else { "." });
    while rest != 0 {
        rest *= 16;
        text.push_str(&format!("{:x}", rest / one));
        rest %= one;
    }
    text + &format!("p{exponent:+}")
}
