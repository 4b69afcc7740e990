//! The reader and the writer of numerals: what they give, at their limits, and how they go together.

use std::fmt::LowerHex;

use paskerotim::*;

use crate::attributes::ALL;
use crate::claims::Operands;
use crate::known::{hex, refusable};

const UNTOUCHED: u8 = b'#';

/// What the reader gives without an attribute or under the one with this number. A number that is no
/// attribute is none here either: what a C caller gets for it is what such a line claims.
fn read<T: LowerHex + Default>(
    number: Option<u32>,
    plain: impl FnOnce() -> Result<T, Refusal>,
    rounded: impl FnOnce(Attribute) -> Result<T, Refusal>,
) -> String {
    match number.map(Attribute::from_number) {
        None => refusable(plain()),
        Some(Some(attribute)) => refusable(rounded(attribute)),
        Some(None) => format!("10 {}", hex(T::default())),
    }
}

/// What the writer gives for a room of this many bytes, which is one part of a longer place: all but
/// the text stays.
fn written(room: usize, call: impl FnOnce(&mut [u8]) -> Result<usize, Refusal>) -> String {
    let mut place = vec![UNTOUCHED; room + 2];
    let answer = call(&mut place[1..=room]);
    let (text, rest) = place[1..].split_at(answer.unwrap_or(0));
    assert!(place[0] == UNTOUCHED && rest.iter().all(|byte| *byte == UNTOUCHED));
    match answer {
        Ok(length) => format!("0 {length} {}", String::from_utf8_lossy(text)),
        Err(refusal) => format!("{} 0", refusal.number()),
    }
}

pub fn on_patterns(number: Option<u32>, operation: &str, o: &Operands) -> String {
    let text = || o.text(0);
    match operation {
        "read64" => read(
            number,
            || read_hex64(&text()),
            |a| read_hex64_rounded(a, &text()),
        ),
        "read32" => read(
            number,
            || read_hex32(&text()),
            |a| read_hex32_rounded(a, &text()),
        ),
        "write64" => written(o.room(1), |out| write_hex64(o.word64(0), out)),
        "write32" => written(o.room(1), |out| write_hex32(o.word32(0), out)),
        other => panic!("no operation {other}"),
    }
}

/// The same of the functions on numbers, as patterns.
pub fn on_numbers(number: Option<u32>, operation: &str, o: &Operands) -> String {
    let text = || o.text(0);
    match operation {
        "read64" => read(
            number,
            || read_hex(&text()).map(f64::to_bits),
            |a| read_hex_rounded(a, &text()).map(f64::to_bits),
        ),
        "read32" => read(
            number,
            || read_hexf(&text()).map(f32::to_bits),
            |a| read_hexf_rounded(a, &text()).map(f32::to_bits),
        ),
        "write64" => written(o.room(1), |out| write_hex(f64::from_bits(o.word64(0)), out)),
        "write32" => written(o.room(1), |out| {
            write_hexf(f32::from_bits(o.word32(0)), out)
        }),
        other => panic!("no operation {other}"),
    }
}

/// The text of a pattern by its fields, at either width.
fn text_by_fields(x: u64, fraction_bits: u32, exponent_bits: u32) -> String {
    let fraction = x & ((1 << fraction_bits) - 1);
    let top = (1 << exponent_bits) - 1;
    let field = (x >> fraction_bits & top) as i32;
    let sign = ["", "-"][(x >> (fraction_bits + exponent_bits)) as usize];
    if field as u64 == top {
        return if fraction > 0 {
            "nan".to_string()
        } else {
            format!("{sign}inf")
        };
    }
    let (lead, exponent) = match (field, fraction) {
        (0, 0) => (0, 0),
        (0, _) => (0, 2 - (1 << (exponent_bits - 1))),
        _ => (1, field + 1 - (1 << (exponent_bits - 1))),
    };
    let count = fraction_bits.div_ceil(4);
    let aligned = fraction << (4 * count - fraction_bits);
    let digits = format!("{aligned:0width$x}", width = count as usize);
    let digits = digits.trim_end_matches('0');
    let point = if digits.is_empty() { "" } else { "." };
    format!("{sign}0x{lead}{point}{digits}p{exponent:+}")
}

/// Patterns with every exponent, of either sign, with fractions of few digits and of many.
fn patterns() -> impl Iterator<Item = u64> {
    let mut word = 0x9e3779b97f4a7c15_u64;
    (0..1 << 12).flat_map(move |top: u64| {
        word = word.rotate_left(23).wrapping_mul(0x2545f4914f6cdd1d) ^ top;
        [0, 1, word, word >> 40 << 40, 1 << 51, u64::MAX]
            .map(|fraction| top << 52 | fraction & ((1 << 52) - 1))
    })
}

#[test]
fn what_is_written_is_read_again() {
    for x in patterns() {
        let mut room = [0; HEX64_ROOM];
        let length = write_hex64(x, &mut room).expect("room");
        let text = text_by_fields(x, 52, 11);
        assert_eq!(&room[..length], text.as_bytes(), "{x:016x}");
        let same = if text == "nan" { NAN64 } else { x };
        assert_eq!(read_hex64(&room[..length]), Ok(same), "{x:016x}");
        assert!(ALL.map(|a| read_hex64_rounded(a, &room[..length])) == [Ok(same); 5]);
    }
    for x in patterns().map(|x| (x >> 32) as u32 ^ x as u32) {
        let mut room = [0; HEX32_ROOM];
        let length = write_hex32(x, &mut room).expect("room");
        let text = text_by_fields(x.into(), 23, 8);
        assert_eq!(&room[..length], text.as_bytes(), "{x:08x}");
        let same = if text == "nan" { NAN32 } else { x };
        assert_eq!(read_hex32(&room[..length]), Ok(same), "{x:08x}");
        assert!(ALL.map(|a| read_hex32_rounded(a, &room[..length])) == [Ok(same); 5]);
    }
}

/// A one of this length, with zeros behind its point.
fn one_of(length: usize) -> Vec<u8> {
    let mut text = vec![b'0'; length];
    text[..4].copy_from_slice(b"0x1.");
    text[length - 2] = b'p';
    text
}

#[test]
fn texts_are_read_up_to_the_limit() {
    assert_eq!((TEXT_LIMIT, HEX64_ROOM, HEX32_ROOM), (64, 24, 16));
    assert_eq!(read_hex64(&one_of(64)), Ok(0x3ff0000000000000));
    assert_eq!(read_hex32(&one_of(64)), Ok(0x3f800000));
    for (text, refusal) in [
        (one_of(65), Refusal::TextTooLong),
        (vec![0; 65], Refusal::TextTooLong),
        (vec![b'1'; 1 << 20], Refusal::TextTooLong),
        (vec![0; 64], Refusal::NotANumeral),
        (Vec::new(), Refusal::NotANumeral),
        (b"0x1p0\0".to_vec(), Refusal::NotANumeral),
    ] {
        assert_eq!(read_hex64(&text), Err(refusal));
        assert_eq!(read_hex32(&text), Err(refusal));
        assert_eq!(read_hex(&text), Err(refusal));
        assert_eq!(read_hexf(&text), Err(refusal));
        for attribute in ALL {
            assert_eq!(read_hex64_rounded(attribute, &text), Err(refusal));
            assert_eq!(read_hex32_rounded(attribute, &text), Err(refusal));
            assert_eq!(read_hex_rounded(attribute, &text), Err(refusal));
            assert_eq!(read_hexf_rounded(attribute, &text), Err(refusal));
        }
    }
}

/// Every room up to a little past the text, for texts of the greatest length.
#[test]
fn a_room_is_enough_or_stays() {
    for room in 0..HEX64_ROOM + 3 {
        let answer = written(room, |out| write_hex64(0xffefffffffffffff, out));
        let enough = "0 24 -0x1.fffffffffffffp+1023";
        assert_eq!(answer, if room < HEX64_ROOM { "8 0" } else { enough });
        let answer = written(room, |out| write_hex32(0xff7fffff, out));
        let enough = "0 16 -0x1.fffffep+127";
        assert_eq!(answer, if room < HEX32_ROOM { "8 0" } else { enough });
    }
}
