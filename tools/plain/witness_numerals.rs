// Numerals held against the C library and Python, and what is written read back.

use crate::attributes::{round, Attribute, Exact, ATTRIBUTES};
use crate::big::Big;
use crate::cases_by_kind::Drawing;
use crate::format::{Format, WIDTH_64};
use crate::forms::of_numerals;
use crate::library_numerals as library;
use crate::lines::write_request;
use crate::numerals::{read, spelt, written};
use crate::operations::{Field, Form, Operation, Task};
use std::io::{self, Write};

/// The witness's disagreements with one name, shown and counted.
struct Held<'a> {
    name: &'static str,
    out: &'a mut dyn Write,
    disagreements: usize,
}

impl Held<'_> {
    fn differs(&mut self, request: &str, own: &str, who: &str, other: &str) -> io::Result<()> {
        self.disagreements += 1;
        writeln!(self.out, "disagreement: {request}: judged {own}, {who} {other}")
    }

    fn close(self, count: usize, what: &str) -> io::Result<usize> {
        let Held { name, out, disagreements } = self;
        writeln!(out, "{name} {count} {what}, {disagreements} disagreements")?;
        out.flush()?;
        Ok(disagreements)
    }
}

fn hex(format: Format, word: u64) -> String {
    format!("{word:0digits$x}", digits = format.width as usize / 4)
}

/// What a text is read as where its last digit is left out. So glibc 2.36 does
/// with a number below the least normal one that has one binary digit more than
/// a significand: the digit does not reach its rounding.
fn without_last_digit(format: Format, attribute: Attribute, text: &[u8]) -> Option<u64> {
    let Exact { negative, number, exponent } = spelt(text)?;
    let (bits, twos) = (number.bits(), number.twos());
    let top = exponent + bits as i64 - 1;
    if bits - twos != format.fraction_bits + 2 || top > -(format.bias() as i64) {
        return None;
    }
    let number = number.sub(&Big::placed(1, twos));
    Some(round(format, attribute, &Exact { negative, number, exponent }).0)
}

/// K texts of the grammar, as strtod and strtof read them. Where one leaves the
/// last digit out, it is named and does not count.
fn readings(
    operation: &'static Operation,
    attribute: Attribute,
    (seed, count): (u64, usize),
    out: &mut dyn Write,
) -> io::Result<usize> {
    let format = operation.format;
    let mut held = Held { name: operation.name, out, disagreements: 0 };
    let mut faults = Vec::new();
    for text in texts(operation, seed, count) {
        let (_, own) = read(format, attribute, &text);
        let other = library::read(format, attribute, &text);
        if other.is_some_and(|other| format.same_value(own, other)) {
            continue;
        }
        let is_known = other.is_some() && other == without_last_digit(format, attribute, &text);
        let request = write_request(operation, &[Field::Text(text)]);
        let other = other.map_or("no number".to_string(), |other| hex(format, other));
        match is_known {
            true => faults.push(format!("{request} -> 0 {}, not {other}", hex(format, own))),
            false => held.differs(&request, &hex(format, own), "the C library", &other)?,
        }
    }
    let what = match faults.first() {
        None => "texts of the grammar beside the C library".to_string(),
        Some(first) => format!(
            "texts of the grammar beside the C library, which leaves out the last digit of {} \
             below the least normal number, as in {first}",
            faults.len()
        ),
    };
    held.close(count, &what)
}

/// Drawn texts that are in the grammar: strtod takes others too.
fn texts(operation: &'static Operation, seed: u64, count: usize) -> Vec<Vec<u8>> {
    let mut drawing = Drawing::new(operation, seed);
    let drawn = std::iter::from_fn(|| Some(drawing.next().1));
    let texts = drawn.filter_map(|operands| match &operands[..] {
        [Field::Text(text)] => Some(text.clone()),
        _ => None,
    });
    let in_grammar = |text: &Vec<u8>| read(operation.format, Attribute::Even, text).0 == 0;
    texts.filter(in_grammar).take(count).collect()
}

fn patterns(operation: &'static Operation, seed: u64, count: usize) -> Vec<u64> {
    let mut drawing = Drawing::new(operation, seed);
    let drawn = std::iter::from_fn(|| Some(drawing.next().1));
    let patterns = drawn.filter_map(|operands| match operands[..] {
        [Field::Word(x), _] => Some(x),
        _ => None,
    });
    patterns.take(count).collect()
}

/// Whether printf's text of a pattern, as a double, is the judge's. Of a NaN it
/// writes the sign; a subnormal number below 64 bits is a normal double, and has
/// the form of one, but the number is the same.
fn same_text(format: Format, x: u64, own: &str, other: &str) -> bool {
    let subnormal = format.exponent_field(x) == 0 && !format.is_zero(x);
    if format.is_nan(x) {
        return own == other.trim_start_matches('-');
    }
    match subnormal && format != WIDTH_64 {
        true => read(format, Attribute::Even, other.as_bytes()) == (0, x),
        false => own == other,
    }
}

/// K patterns as printf writes them, by their text or else by the number that it
/// spells; and what is written read back under every attribute.
fn writings(
    operation: &'static Operation,
    (seed, count): (u64, usize),
    out: &mut dyn Write,
) -> io::Result<usize> {
    let format = operation.format;
    let mut held = Held { name: operation.name, out, disagreements: 0 };
    for x in patterns(operation, seed, count) {
        let (own, other) = (written(format, x), library::written(format, x));
        let request = format!("{} {}", operation.name, hex(format, x));
        if !same_text(format, x, &own, &other) {
            held.differs(&request, &own, "the C library", &other)?;
        }
        let value = if format.is_nan(x) { format.canonical_nan() } else { x };
        for (attribute, word) in ATTRIBUTES {
            let back = read(format, attribute, own.as_bytes());
            if back != (0, value) {
                let who = format!("read back under {word}");
                held.differs(&request, &own, &who, &hex(format, back.1))?;
            }
        }
    }
    held.close(count, "patterns beside the C library and read back")
}

/// float.hex with as few digits as are exact.
fn trimmed(text: &str) -> String {
    match text.split_once('p') {
        Some((digits, power)) => {
            let digits = digits.trim_end_matches('0').trim_end_matches('.');
            format!("{digits}p{power}").replace("0xp", "0x0p")
        }
        None => text.to_string(),
    }
}

/// K texts and K patterns of 64 bits beside Python, to nearest even.
fn beside_python(
    (reader, writer): (&'static Operation, &'static Operation),
    (seed, count): (u64, usize),
    out: &mut dyn Write,
) -> io::Result<usize> {
    let texts: Vec<String> = texts(reader, seed, count)
        .into_iter()
        .map(|text| String::from_utf8_lossy(&text).into_owned())
        .collect();
    let patterns = patterns(writer, seed, count);
    let asked = texts.iter().map(|text| format!("r{text}"));
    let asked = asked.chain(patterns.iter().map(|x| format!("w{}", hex(WIDTH_64, *x))));
    let Some(told) = library::by_python(&asked.collect::<Vec<_>>())? else {
        writeln!(out, "numerals beside Python: left out, no python3 that runs was found")?;
        return Ok(0);
    };
    let (values, written_by_python) = told.split_at(texts.len());
    let mut held = Held { name: reader.name, out: &mut *out, disagreements: 0 };
    for (text, told) in texts.iter().zip(values) {
        let (_, own) = read(WIDTH_64, Attribute::Even, text.as_bytes());
        let other = u64::from_str_radix(told, 16).unwrap_or(0);
        if !WIDTH_64.same_value(own, other) {
            let request = format!("{} {text}", reader.name);
            held.differs(&request, &hex(WIDTH_64, own), "Python", told)?;
        }
    }
    let mut disagreements = held.close(texts.len(), "texts of the grammar beside Python")?;
    let mut held = Held { name: writer.name, out, disagreements: 0 };
    for (x, told) in patterns.iter().zip(written_by_python) {
        let own = written(WIDTH_64, *x);
        if own != trimmed(told) {
            let request = format!("{} {}", writer.name, hex(WIDTH_64, *x));
            held.differs(&request, &own, "Python", told)?;
        }
    }
    disagreements += held.close(patterns.len(), "patterns beside Python")?;
    Ok(disagreements)
}

/// The number of disagreements over the reader, under the attributes that the C
/// library has, and the writer.
pub fn run(seed: u64, count: usize, out: &mut dyn Write) -> io::Result<usize> {
    let (run, mut disagreements) = ((seed, count), 0);
    for operation in of_numerals() {
        disagreements += match (operation.task, operation.form) {
            (Task::Write, _) => writings(operation, run, out)?,
            (_, Form::Attribute(attribute)) if library::has(operation.format, attribute) => {
                readings(operation, attribute, run, out)?
            }
            _ => 0,
        };
    }
    let of_64 = |task| of_numerals().find(|one| one.task == task && one.format == WIDTH_64);
    match (of_64(Task::Read), of_64(Task::Write)) {
        (Some(reader), Some(writer)) => {
            Ok(disagreements + beside_python((reader, writer), run, out)?)
        }
        _ => unreachable!("the table has both at 64 bits"),
    }
}
