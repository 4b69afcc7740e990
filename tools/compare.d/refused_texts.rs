//! Why texts are refused: their length, or the first thing in them that is out of its place.

use crate::places::places;
use crate::spellings::LONGEST;

places! { Refused, REFUSED:
    OneOver "65 bytes, in the grammar but for that",
    MoreOver "66 bytes or more",
    LongOutside "65 bytes, outside the grammar too",
    Full "64 bytes, outside the grammar",
    Empty "no byte",
    Word "a word that is none",
    NoPrefix "no 0x",
    NoDigit "no digit before the exponent",
    Points "a second point",
    NoExponent "no p",
    NoPower "no digit in the exponent",
    LongPower "six digits in the exponent, or more",
    PointInPower "a point in the exponent",
    LetterInPower "a letter in the exponent",
    Upper "an upper-case letter",
    Blank "a blank",
    Sign "a sign out of its place",
    Strange "a byte past 127, or below a blank",
    Other "another byte out of its place",
}

/// By the number of the refusal, 6 or 7.
pub fn refused(number: i64, text: &[u8]) -> Refused {
    let over = text.len().saturating_sub(LONGEST);
    match (number, over) {
        (6, 1) if outside(text).is_none() => Refused::OneOver,
        (6, 1) => Refused::LongOutside,
        (6, _) => Refused::MoreOver,
        _ if text.len() == LONGEST => Refused::Full,
        _ => outside(text).unwrap_or(Refused::Other),
    }
}

/// The first thing that is out of its place, from left to right.
fn outside(text: &[u8]) -> Option<Refused> {
    let rest = text.strip_prefix(b"-").or(text.strip_prefix(b"+")).unwrap_or(text);
    if rest.is_empty() {
        return Some(Refused::Empty);
    }
    if matches!(rest[0], b'i' | b'n') {
        return Some(Refused::Word);
    }
    let Some(rest) = rest.strip_prefix(b"0x") else {
        return Some(Refused::NoPrefix);
    };
    let is_digit = |byte: &u8| matches!(byte, b'0'..=b'9' | b'a'..=b'f');
    let end = rest.iter().position(|byte| !is_digit(byte) && *byte != b'.').unwrap_or(rest.len());
    let (digits, rest) = rest.split_at(end);
    let points = digits.iter().filter(|byte| **byte == b'.').count();
    match rest.first() {
        _ if points > 1 => Some(Refused::Points),
        None => Some(Refused::NoExponent),
        Some(b'p') if points == digits.len() => Some(Refused::NoDigit),
        Some(b'p') => outside_power(&rest[1..]),
        Some(byte) => Some(of_byte(*byte)),
    }
}

fn outside_power(power: &[u8]) -> Option<Refused> {
    let digits = power.strip_prefix(b"-").or(power.strip_prefix(b"+")).unwrap_or(power);
    match digits.iter().find(|byte| !byte.is_ascii_digit()) {
        None if digits.is_empty() => Some(Refused::NoPower),
        None if digits.len() > 5 => Some(Refused::LongPower),
        None => None,
        Some(b'.') => Some(Refused::PointInPower),
        Some(b'a'..=b'z') => Some(Refused::LetterInPower),
        Some(byte) => Some(of_byte(*byte)),
    }
}

fn of_byte(byte: u8) -> Refused {
    match byte {
        b'A'..=b'Z' => Refused::Upper,
        b' ' | b'\t' | b'\n' => Refused::Blank,
        b'+' | b'-' => Refused::Sign,
        0..=31 | 127.. => Refused::Strange,
        _ => Refused::Other,
    }
}

#[cfg(test)]
mod tests {
    use super::*;
    use crate::attributes::Attribute;
    use crate::format::WIDTH_64;
    use crate::plain;

    fn why_not(text: &str) -> &'static str {
        let (number, _) = plain::read(WIDTH_64, Attribute::Even, text.as_bytes());
        REFUSED[refused(number.into(), text.as_bytes()) as usize]
    }

    #[test]
    fn why_a_text_is_refused_is_told() {
        for (text, why) in [
            ("", "no byte"),
            ("-", "no byte"),
            ("+inf", "a word that is none"),
            ("1p0", "no 0x"),
            ("0X1p0", "no 0x"),
            ("0x.p0", "no digit before the exponent"),
            ("0x1..p0", "a second point"),
            ("0x1.8", "no p"),
            ("0x1p+", "no digit in the exponent"),
            ("0x1p000000", "six digits in the exponent, or more"),
            ("0x1p1.", "a point in the exponent"),
            ("0x1p1a", "a letter in the exponent"),
            ("0x1Ap1", "an upper-case letter"),
            ("0x1p1 ", "a blank"),
            ("0x-1p1", "a sign out of its place"),
            ("0x1\0p1", "a byte past 127, or below a blank"),
            ("0x1gp1", "another byte out of its place"),
        ] {
            assert_eq!(why_not(text), why, "{text}");
        }
        let long = |digits: usize| format!("0x{}p0", "0".repeat(digits));
        assert_eq!(why_not(&long(61)), "65 bytes, in the grammar but for that");
        assert_eq!(why_not(&long(62)), "66 bytes or more");
        assert_eq!(why_not(&format!("{}x", long(60))), "65 bytes, outside the grammar too");
        assert_eq!(why_not(&format!("{}x", long(59))), "64 bytes, outside the grammar");
    }
}
