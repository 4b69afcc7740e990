//! The readers beside the plain program and libm's own: every text is read by ours and by the first, and what each makes of it
//! must be the same; what is in the grammar libm must read so too, under the attributes that it has. The bytes beside the text
//! would go on with it, and none of them may be changed.

use crate::attributes::Attribute;
use crate::numeral_calls::{Numeral, numerals};
use crate::operations::Form;
use crate::places::{places_of, places_of_text};
use crate::plain;
use crate::random::Random;
use crate::request::{Answer, Beside};
use crate::run::{Run, Spoiled, caught};
use crate::stream::attributes;
use crate::tally::{PRINTED, Progress, Tally};
use crate::texts::kinds;
use std::collections::HashSet;
use std::io::Write;

/// One answer in so many is spoiled, where a side is to be.
const SPOILED: u64 = 1000;
/// The bytes beside a text, on either side.
const BESIDE: usize = 8;

/// The texts of a name, each with its kind and the number of an attribute.
fn texts(numeral: &Numeral, seed: u64) -> impl Iterator<Item = (usize, u32, Vec<u8>)> {
    let operation = numeral.operation;
    let draws: Vec<_> = kinds().collect();
    let mut random = Random::new(seed, stream(numeral));
    let mut number = attributes(operation, seed);
    (0..).map(move |turn: u64| {
        let kind = (turn % draws.len() as u64) as usize;
        let text = (draws[kind].make)(operation.format, turn / draws.len() as u64, &mut random);
        (kind, number(), text)
    })
}

/// Under each attribute the texts are others.
fn stream(numeral: &Numeral) -> u64 {
    let place = numerals().iter().position(|one| one.operation.name == numeral.operation.name);
    5000 + place.unwrap_or_default() as u64
}

/// The plain program's answer.
pub fn exact(numeral: &Numeral, number: u32, text: &[u8]) -> Answer {
    let attribute = match numeral.operation.form {
        Form::Plain => Some(Attribute::Even),
        Form::Attribute(attribute) => Some(attribute),
        Form::Numbered => Attribute::of_number(number),
    };
    let (refusal, value) = attribute.map_or((10, 0), |attribute| plain::read(numeral.operation.format, attribute, text));
    Answer::refusal(refusal, value)
}

/// So many texts, of every kind in turn.
pub fn drawn(run: &Run, numeral: &Numeral, count: u64) -> Tally {
    let beside = match numeral.beside() {
        Some(_) => "refusal, judged; without an attribute, compared",
        None => "refusal, judged",
    };
    let mut tally = Tally::new(numeral.operation, ("bit for bit", beside), count.to_string(), run.seed.to_string());
    tally.places = vec![0; places_of(numeral.operation).len()];
    tally.kinds = vec![0; kinds().count()];
    let mut progress = Progress::new();
    let mut libms = 0;
    for (turn, (kind, number, text)) in (0..count).zip(texts(numeral, run.seed)) {
        tally.kinds[kind] += 1;
        tally.tried += 1;
        libms += u64::from(try_text(run, numeral, number, &text, &mut tally));
        if turn % 256 == 0 {
            progress.tell(numeral.operation.name, turn, count);
        }
    }
    tally.look_for_unmet(count);
    let kinds = tally.kinds_text(kinds().map(|draw| draw.kind));
    let tally = tally.close();
    println!("{}: of these {kinds}", numeral.operation.name);
    println!("{}: the plain program judged every answer, and libm read {libms} of the texts", numeral.operation.name);
    tally
}

struct Sides {
    ours: Answer,
    beside: Option<Answer>,
    exact: Answer,
    /// What libm reads, of a text in the grammar; outside it libm takes more, and may end in a panic.
    libms: Option<Option<u64>>,
}

/// Whether libm read it too.
fn try_text(run: &Run, numeral: &Numeral, number: u32, text: &[u8], tally: &mut Tally) -> bool {
    let mut memory = [b"0x1.8p+1".as_slice(), text, b"00p+1f.0"].concat();
    let before = memory.clone();
    let lent = &memory[BESIDE..BESIDE + text.len()];
    let sides = || {
        let exact = exact(numeral, number, text);
        Sides {
            ours: numeral.read(number, lent),
            beside: numeral.beside().map(|beside| beside(lent)),
            libms: (exact.number == 0).then(|| numeral.libms(number, text)).flatten(),
            exact,
        }
    };
    let mut sides = match caught(sides) {
        Ok(sides) => sides,
        Err(said) => {
            tally.panic(&format!("{}; {said}", request(numeral, number, text)));
            return false;
        }
    };
    if tally.tried % SPOILED == 0 {
        spoil(run.spoiled, &mut sides, &mut memory);
    }
    *tally.refusals.entry(sides.ours.number).or_default() += 1;
    if let Some(what) = difference(numeral, &sides, memory != before) {
        let exact = answer_text(numeral, &exact(numeral, number, text));
        let request = request(numeral, number, text);
        report(&format!("{request} -> {what}; exact: {exact}"), tally);
    }
    for place in places_of_text(numeral.operation, number, text, &sides.exact) {
        tally.places[place] += 1;
    }
    sides.libms.is_some()
}

fn spoil(spoiled: Spoiled, sides: &mut Sides, memory: &mut [u8]) {
    match spoiled {
        Spoiled::Ours => sides.ours.word ^= 1,
        Spoiled::Number | Spoiled::Refusal => sides.ours.number ^= 32,
        Spoiled::Crate => spoil_beside(sides),
        Spoiled::Judge => sides.exact.word ^= 1,
        Spoiled::Alone => memory[0] ^= 1,
        Spoiled::Nothing | Spoiled::Status => {}
    }
}

fn spoil_beside(sides: &mut Sides) {
    match &mut sides.beside {
        Some(beside) => beside.word ^= 1,
        None => sides.libms = sides.libms.map(|libms| libms.map(|word| word ^ 1)),
    }
}

/// The first thing that is not as it must be.
fn difference(numeral: &Numeral, sides: &Sides, is_changed: bool) -> Option<String> {
    let Sides { ours, beside, exact, libms } = sides;
    let text = |answer: &Answer| answer_text(numeral, answer);
    match beside {
        _ if ours != exact => Some(format!("{}; the judge gives {}", text(ours), text(exact))),
        Some(beside) if beside != exact => Some(format!("{}; the call without an attribute gives {}", text(exact), text(beside))),
        _ if libms.is_some_and(|libms| libms != Some(exact.word)) => Some(format!("{}; libm gives {}", text(ours), libms_text(numeral, libms.flatten()))),
        _ if is_changed => Some(format!("{}; the text was changed", text(ours))),
        _ => None,
    }
}

fn libms_text(numeral: &Numeral, value: Option<u64>) -> String {
    value.map_or("nothing".to_string(), |word| answer_text(numeral, &Answer::refusal(0, word)))
}

pub fn report(what: &str, tally: &mut Tally) {
    tally.unexplained += 1;
    if tally.unexplained <= PRINTED {
        println!("difference: {what}");
    }
}

pub fn answer_text(numeral: &Numeral, answer: &Answer) -> String {
    answer.text(numeral.operation, Beside::Refusal)
}

/// The request as a line has it, but for bytes that no line shows.
fn request(numeral: &Numeral, number: u32, text: &[u8]) -> String {
    format!("{} {}", name(numeral, number), text.escape_ascii())
}

/// The name as a line has it.
fn name(numeral: &Numeral, number: u32) -> String {
    match numeral.operation.form {
        Form::Numbered => format!("{}.{number}", numeral.operation.stem()),
        _ => numeral.operation.name.to_string(),
    }
}

/// So many different lines with the plain program's answers. A text that a line cannot have is left out.
pub fn print_lines(numeral: &Numeral, seed: u64, count: u64) {
    let mut seen = HashSet::new();
    let mut out = std::io::stdout().lock();
    for (_, number, text) in texts(numeral, seed) {
        let is_line = !text.contains(&b'\n') && !text.windows(4).any(|part| part == b" -> ");
        if is_line && seen.insert((number, text.clone())) {
            let answer = answer_text(numeral, &exact(numeral, number, &text));
            let line = [name(numeral, number).as_bytes(), b" ", &text, b" -> ", answer.as_bytes(), b"\n"].concat();
            // Whoever reads this may have had enough.
            let _ = out.write_all(&line);
        }
        if seen.len() as u64 == count {
            return;
        }
    }
}

#[cfg(test)]
mod tests {
    use oracle::api::{read32, read64};

    #[test]
    fn libm_takes_more_than_the_grammar() {
        assert_eq!(read64(0, b"0X1.8P+1"), Some(0x4008000000000000));
        assert_eq!(read64(0, b"+inf"), Some(0x7ff0000000000000));
        assert_eq!(read32(0, b"-nan"), Some(0xffc00000));
        assert_eq!(read32(0, b"0x1p+000000"), Some(0x3f800000));
        assert_eq!(read64(0, &[b"0x".as_slice(), &[b'0'; 70], b"1p0"].concat()), Some(0x3ff0000000000000));
        assert_eq!(read64(0, b"0x1"), None);
    }
}
