//! Texts outside the grammar, or beside its edges: every rule broken at every place, one byte changed, dropped or added, and
//! texts about the limit of their length.

use crate::format::Format;
use crate::plain::text_of;
use crate::random::Random;
use crate::spellings::{LONGEST, Spelling, any_shape};
use crate::texts::{TextDraw, draw, written_pattern};

pub static BROKEN: [TextDraw; 7] = [
    draw("with a rule broken, at every place", |f, turn, random| {
        let text = any_shape(f, random).text();
        broken(text, turn, random)
    }),
    draw("as they are written, a byte changed", |f, turn, random| {
        changed(text_of(f, written_pattern(f, turn / 32, random)), turn, random)
    }),
    draw("as they are written, a byte dropped", |f, turn, random| {
        let mut text = text_of(f, written_pattern(f, turn / 32, random));
        text.remove(turn as usize % text.len());
        text
    }),
    draw("as they are written, a byte added", |f, turn, random| {
        let mut text = text_of(f, written_pattern(f, turn / 32, random));
        text.insert(turn as usize % (text.len() + 1), any_byte(random));
        text
    }),
    draw("of 63 to 66 bytes, and longer", about_the_limit),
    draw("beside a word", beside_a_word),
    draw("of any bytes of the alphabet", |_, _, random| {
        let most = random.pick(&[4, 8, 16, 70]);
        let length = random.below(most) as usize;
        (0..length).map(|_| random.pick(ALPHABET)).collect()
    }),
];

const ALPHABET: &[u8] = b"00011189abcdef..xxpp+-infnan ";
/// Bytes next to those of the grammar, and others that a reader may let pass.
const STRANGE: &[u8] = b"/:`gGo@AFXP,_' \t\n\0\x7f\x80\xff\xb0*=e";

/// A byte of the grammar, a strange one, or any.
fn any_byte(random: &mut Random) -> u8 {
    match random.below(3) {
        0 => random.pick(ALPHABET),
        1 => random.pick(STRANGE),
        _ => random.word() as u8,
    }
}

fn changed(mut text: Vec<u8>, turn: u64, random: &mut Random) -> Vec<u8> {
    let place = turn as usize % text.len();
    // One bit, or any byte: an upper-case letter is one bit off.
    text[place] = match random.coin() {
        true => text[place] ^ 1 << random.below(8),
        false => any_byte(random),
    };
    text
}

/// What is done to a text at a place of it.
type Rule = fn(&mut Vec<u8>, usize, &mut Random);

const RULES: [Rule; 19] = [
    |text, place, _| text.insert(place, b'.'),
    |text, place, random| text.insert(place, random.pick(b" \t\n")),
    |text, place, random| text.insert(place, random.pick(b"+-")),
    |text, place, random| text.insert(place, random.pick(b"px0")),
    |text, place, random| text.insert(place, random.pick(STRANGE)),
    |text, place, random| text.insert(place, random.pick(b"abcdef")),
    |text, place, _| text.truncate(place),
    |text, place, _| drop(text.drain(..place)),
    // In upper case from a place on.
    |text, place, _| text[place..].make_ascii_uppercase(),
    |text, place, random| {
        if let Some(byte) = text.get_mut(place) {
            *byte = random.pick(STRANGE);
        }
    },
    |text, place, _| drop(text.drain(place.min(text.len() - 1)..(place + 2).min(text.len()))),
    // Without `0x`, `x` or `p`.
    |text, _, _| text.retain(|byte| *byte != b'x'),
    |text, _, _| text.retain(|byte| *byte != b'p'),
    |text, _, _| {
        let prefix = text.iter().position(|byte| *byte == b'x').unwrap_or(0);
        text.drain(prefix - 1..=prefix);
    },
    // No digit before the exponent, with the point or without; none in it; too many in it.
    |text, _, random| {
        let digits = digits_of(text);
        let point = random.coin() && text.contains(&b'.');
        text.splice(digits, point.then_some(b'.'));
    },
    |text, _, _| {
        let end = text.iter().rposition(|byte| !byte.is_ascii_digit()).map_or(0, |last| last + 1);
        text.truncate(end);
    },
    |text, _, random| {
        let end = text.iter().rposition(|byte| !byte.is_ascii_digit()).map_or(0, |last| last + 1);
        let more = 6 + random.below(3) as usize - (text.len() - end);
        text.splice(end..end, std::iter::repeat_n(random.pick(b"0001"), more));
    },
    // The same text once more, and bytes behind a zero byte.
    |text, _, _| text.extend_from_within(..),
    |text, place, _| {
        text.push(0);
        text.extend_from_within(..place);
    },
];

/// The places of the digits before the exponent, the point among them.
fn digits_of(text: &[u8]) -> std::ops::Range<usize> {
    let place = |one: u8| text.iter().position(|byte| *byte == one).expect("a text of the grammar has it");
    place(b'x') + 1..place(b'p')
}

/// Every rule in turn, and each at every place in turn.
fn broken(mut text: Vec<u8>, turn: u64, random: &mut Random) -> Vec<u8> {
    let rules = RULES.len() as u64;
    let place = turn / rules % (text.len() as u64 + 1);
    RULES[(turn % rules) as usize](&mut text, place as usize, random);
    text
}

/// Filled up by zeros to a length about the limit, or by digits or anything to one far past it. One in three is outside the
/// grammar too.
fn about_the_limit(format: Format, turn: u64, random: &mut Random) -> Vec<u8> {
    let spelling = any_shape(format, random);
    let any = LONGEST + 3 + random.below(60) as usize;
    let length = match turn % 8 {
        // Those of which the low byte of the length is within the limit, too.
        7 => random.pick(&[128, 256, 320, 512, 256 + spelling.text().len(), any]),
        _ => LONGEST - 1 + turn as usize % 4,
    };
    let mut text = filled(spelling, length, random);
    if turn / 4 % 3 == 2 {
        text = changed(text, random.below(LONGEST as u64), random);
    }
    text
}

/// As long as is asked for, by zeros before the digits, behind them, or by other digits.
fn filled(mut spelling: Spelling, length: usize, random: &mut Random) -> Vec<u8> {
    let short = length.saturating_sub(spelling.text().len());
    let any = random.below(16) as u8;
    let fill = random.pick(&[0, 0, 0, 15, any]);
    let at = random.pick(&[0, spelling.digits.len()]);
    spelling.digits.splice(at..at, std::iter::repeat_n(fill, short));
    if let Some(behind) = &mut spelling.behind {
        *behind += if at > 0 && random.coin() { short } else { 0 };
    }
    spelling.text()
}

fn beside_a_word(_: Format, turn: u64, random: &mut Random) -> Vec<u8> {
    const WORDS: [&[u8]; 20] = [
        b"+inf", b"+nan", b"-nan", b"infinity", b"-infinity", b"INF", b"Inf", b"NAN", b"NaN", b"nan()", b"nan(0)", b"snan", b"in", b"na", b"--inf",
        b"0xinf", b"infp0", b"nanf", b"-", b"+",
    ];
    match turn % 4 {
        0 => WORDS[turn as usize / 4 % WORDS.len()].to_vec(),
        _ => {
            let mut text = random.pick(&[b"inf".as_slice(), b"-inf", b"nan"]).to_vec();
            let place = random.below(text.len() as u64) as usize;
            match turn % 4 {
                1 => text = changed(text, place as u64, random),
                2 => drop(text.remove(place)),
                _ => text.insert(place + usize::from(random.coin()), any_byte(random)),
            }
            text
        }
    }
}

#[cfg(test)]
mod tests {
    use super::*;
    use crate::format::WIDTH_64;

    #[test]
    fn texts_about_the_limit_are_as_long_as_is_said() {
        let mut random = Random::new(1, 1);
        let lengths: Vec<usize> = (0..7).map(|turn| about_the_limit(WIDTH_64, turn, &mut random).len()).collect();
        assert!(lengths.iter().all(|length| (63..=66).contains(length)), "{lengths:?}");
    }
    #[test]
    fn every_rule_is_broken_at_every_place() {
        let mut random = Random::new(1, 1);
        for turn in 0..20_000 {
            broken(any_shape(WIDTH_64, &mut random).text(), turn, &mut random);
        }
    }
}
