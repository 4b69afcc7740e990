//! The writers beside the plain program, and back through the readers: every pattern is written into five rooms, and its text
//! read under every attribute. All that a call could touch is looked at: the room, and the bytes beside it.

use crate::attributes::ATTRIBUTES;
use crate::format::Format;
use crate::numeral_calls::Numeral;
use crate::pattern_places::places_met;
use crate::places::places_of;
use crate::plain;
use crate::quick::fraction;
use crate::random::Random;
use crate::reading::report;
use crate::request::Answer;
use crate::run::{Run, Spoiled, caught};
use crate::tally::{Progress, Tally};
use crate::texts::written_pattern;
use std::collections::HashSet;

/// One pattern in so many is spoiled, where a side is to be.
const SPOILED: u64 = 1000;
/// The bytes beside a room that no call may touch, on either side.
const BESIDE: usize = 8;
/// The longest room that is lent.
const MOST_ROOM: usize = 64;

const KINDS: [&str; 4] = ["of the grid", "of all classes", "with few digits", "any pattern"];

/// Every exponent field with these fractions and both signs: none, the least, the first digit, all.
fn grid(format: Format) -> Vec<u64> {
    let all = format.smallest_normal() - 1;
    let fractions = [0, 1, all / 2 + 1, all, all & !15, all / 16 + 1, 0x123456789abcd & all];
    let fields = 0..=u64::from(format.exponent_field(format.infinity()));
    let magnitudes = fields.flat_map(|field| fractions.map(|fraction| field << format.fraction_bits | fraction));
    magnitudes.flat_map(|magnitude| [magnitude, magnitude | format.sign_bit()]).collect()
}

/// The patterns, each with its kind: the grid in any order, at most half of the count, then those that are drawn.
fn patterns(numeral: &Numeral, seed: u64, count: u64) -> impl Iterator<Item = (usize, u64)> {
    let format = numeral.operation.format;
    let mut random = Random::new(seed, 4000 + u64::from(format.width));
    let mut grid = grid(format);
    grid.sort_by_cached_key(|_| random.word());
    grid.truncate((count / 2) as usize);
    let drawn = (0..).map(move |turn: u64| {
        let kind = 1 + turn as usize % 3;
        let pattern = match kind {
            1 => written_pattern(format, turn / 3, &mut random),
            2 => short(format, turn / 3, &mut random),
            _ => random.word() & format.all_ones(),
        };
        (kind, pattern)
    });
    grid.into_iter().map(|pattern| (0, pattern)).chain(drawn)
}

/// A fraction of so many digits at most, every count in turn, under any exponent, that of subnormal numbers often.
fn short(format: Format, turn: u64, random: &mut Random) -> u64 {
    let kept = turn % (u64::from(format.fraction_bits) + 1);
    let cut = format.fraction_bits as u64 - kept;
    let field = random.below(u64::from(format.exponent_field(format.infinity())));
    let field = if random.below(4) == 0 { 0 } else { field };
    let sign = if random.coin() { format.sign_bit() } else { 0 };
    sign | field << format.fraction_bits | fraction(format, random) >> cut << cut
}

/// So many patterns.
pub fn drawn(run: &Run, numeral: &Numeral, count: u64) -> Tally {
    let about = ("the canonical one, read back", "refusal and output, judged; read back, compared");
    let mut tally = Tally::new(numeral.operation, about, count.to_string(), run.seed.to_string());
    tally.places = vec![0; places_of(numeral.operation).len()];
    tally.kinds = vec![0; KINDS.len()];
    let mut random = Random::new(run.seed, 4500);
    let mut progress = Progress::new();
    for (turn, (kind, x)) in (0..count).zip(patterns(numeral, run.seed, count)) {
        tally.kinds[kind] += 1;
        tally.tried += 1;
        let spoiled = if tally.tried % SPOILED == 0 { run.spoiled } else { Spoiled::Nothing };
        try_pattern(spoiled, numeral, x, &mut random, &mut tally);
        if turn % 256 == 0 {
            progress.tell(numeral.operation.name, turn, count);
        }
    }
    tally.look_for_unmet(count);
    let kinds = tally.kinds_text(KINDS.into_iter());
    let tally = tally.close();
    println!("{}: of these {kinds}", numeral.operation.name);
    println!("{}: the plain program judged every text, and each was read back under no attribute and all five", numeral.operation.name);
    tally
}

/// The rooms of a text: none, a byte too few, enough, a byte more, and the longest.
fn rooms(length: usize) -> [usize; 5] {
    [0, length - 1, length, length + 1, MOST_ROOM]
}

fn try_pattern(spoiled: Spoiled, numeral: &Numeral, x: u64, random: &mut Random, tally: &mut Tally) {
    let mut text = plain::text_of(numeral.operation.format, x);
    places_met(numeral.operation.format, x, text.len()).into_iter().for_each(|place| tally.places[place] += 1);
    if spoiled == Spoiled::Judge {
        text[0] ^= 1;
    }
    let found = rooms(text.len()).into_iter().find_map(|room| try_room(spoiled, numeral, x, room, &text, random, tally));
    if let Some(what) = found.or_else(|| read_back(spoiled, numeral, x, &text)) {
        report(&what, tally);
    }
}

/// The first thing that is not as it must be, of one call.
fn try_room(
    spoiled: Spoiled,
    numeral: &Numeral,
    x: u64,
    room: usize,
    text: &[u8],
    random: &mut Random,
    tally: &mut Tally,
) -> Option<String> {
    let mut memory = [0u8; MOST_ROOM + 2 * BESIDE];
    memory.chunks_mut(8).for_each(|chunk| chunk.copy_from_slice(&random.word().to_le_bytes()));
    let before = memory;
    let mut ours = match caught(|| (numeral.calls.write)(x, &mut memory[BESIDE..BESIDE + room])) {
        Ok(ours) => ours,
        Err(said) => {
            tally.panic(&format!("{}; {said}", request(numeral, x, room)));
            return None;
        }
    };
    *tally.refusals.entry(ours.number).or_default() += 1;
    if room == text.len() {
        spoil(spoiled, &mut ours, &mut memory[BESIDE..]);
    }
    let (exact, wanted) = wanted(text, room, &before);
    let told = |answer: &Answer, memory: &[u8]| answer_text(answer, &memory[BESIDE..]);
    let request = request(numeral, x, room);
    if ours != exact {
        return Some(format!("{request} -> {}; the judge gives {}", told(&ours, &memory), told(&exact, &wanted)));
    }
    let at = (0..memory.len()).find(|at| memory[*at] != wanted[*at])?;
    let (is, must) = (memory[at], wanted[at]);
    Some(format!("{request} -> {}; {} is {is:02x} and must be {must:02x}", told(&ours, &memory), place_name(at, room)))
}

fn spoil(spoiled: Spoiled, ours: &mut Answer, output: &mut [u8]) {
    match spoiled {
        Spoiled::Ours => output[0] ^= 1,
        Spoiled::Number => ours.word ^= 1,
        Spoiled::Refusal => ours.number ^= 8,
        _ => {}
    }
}

/// The answer, and what must be in memory after the call: all as it was, but for the text of a call that is done.
fn wanted(text: &[u8], room: usize, before: &[u8; MOST_ROOM + 2 * BESIDE]) -> (Answer, [u8; MOST_ROOM + 2 * BESIDE]) {
    let mut memory = *before;
    if text.len() > room {
        return (Answer::refusal(8, 0), memory);
    }
    memory[BESIDE..BESIDE + text.len()].copy_from_slice(text);
    (Answer::refusal(0, text.len() as u64), memory)
}

/// Bytes of the room count from 0, those beside it from 1.
fn place_name(at: usize, room: usize) -> String {
    match at {
        _ if at < BESIDE => format!("the byte {} before the output", BESIDE - at),
        _ if at < BESIDE + room => format!("byte {} of the output", at - BESIDE),
        _ => format!("the byte {} past the output", at + 1 - BESIDE - room),
    }
}

/// As a line has it.
fn request(numeral: &Numeral, x: u64, room: usize) -> String {
    let digits = numeral.operation.format.width as usize / 4;
    format!("{} {x:0digits$x} {room}", numeral.operation.name)
}
fn answer_text(answer: &Answer, output: &[u8]) -> String {
    let text = &output[..(answer.word as usize).min(output.len())];
    match answer.number {
        0 => format!("0 {} {}", answer.word, text.escape_ascii()),
        number => format!("{number} {}", answer.word),
    }
}

/// A text read by ours without an attribute and under all five: the same bits, of a NaN the canonical ones.
fn read_back(spoiled: Spoiled, numeral: &Numeral, x: u64, text: &[u8]) -> Option<String> {
    let format = numeral.operation.format;
    let must = Answer::refusal(0, if format.is_nan(x) { format.canonical_nan() } else { x });
    let under = (0..ATTRIBUTES.len()).map(|number| (ATTRIBUTES[number].1, (numeral.calls.rounded)(number as u32, text)));
    let plain = (numeral.calls.read)(text);
    let plain = if spoiled == Spoiled::Crate { Answer::refusal(0, plain.word ^ 1) } else { plain };
    let mut all = [("no attribute", plain)].into_iter().chain(under);
    let (attribute, is) = all.find(|(_, is)| *is != must)?;
    let digits = format.width as usize / 4;
    let request = request(numeral, x, text.len());
    let (length, text) = (text.len(), text.escape_ascii());
    Some(format!("{request} -> 0 {length} {text}; read back under {attribute} it is {} {:0digits$x}", is.number, is.word))
}

/// So many different lines with the plain program's answers.
pub fn print_lines(numeral: &Numeral, seed: u64, count: u64) {
    let mut seen = HashSet::new();
    for (turn, (_, x)) in (0..).zip(patterns(numeral, seed, count)) {
        let text = plain::text_of(numeral.operation.format, x);
        let room = rooms(text.len())[turn % 5];
        if seen.insert((x, room)) {
            let answer = if text.len() > room { Answer::refusal(8, 0) } else { Answer::refusal(0, text.len() as u64) };
            println!("{} -> {}", request(numeral, x, room), answer_text(&answer, &text));
        }
        if seen.len() as u64 == count {
            return;
        }
    }
}
