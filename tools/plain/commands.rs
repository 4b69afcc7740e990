// The commands that read lines: answering requests and checking claims.

use crate::answers::judge;
use crate::forms::forms;
use crate::lines::{push_flags, read_line, write_fields, write_request, Line};
use crate::operations::{Field, Flags, Operation, OPERATIONS};
use std::collections::BTreeMap;
use std::fs::File;
use std::io::{self, BufRead, BufReader, Write};

/// Why a command could not be carried through.
pub enum Trouble {
    Reading(String),
    Writing(io::Error),
}

impl From<io::Error> for Trouble {
    fn from(error: io::Error) -> Trouble {
        Trouble::Writing(error)
    }
}

/// Calls `take` with every line's number and what was read from it.
fn for_each_line(
    path: &str,
    mut take: impl FnMut(usize, Result<Option<Line<'_>>, String>) -> io::Result<()>,
) -> Result<(), Trouble> {
    let unread = |error: io::Error| Trouble::Reading(format!("cannot read {path}: {error}"));
    let mut reader: Box<dyn BufRead> = match path {
        "-" => Box::new(BufReader::new(io::stdin())),
        _ => Box::new(BufReader::new(File::open(path).map_err(unread)?)),
    };
    let mut bytes = Vec::new();
    for number in 1.. {
        bytes.clear();
        if reader.read_until(b'\n', &mut bytes).map_err(unread)? == 0 {
            break;
        }
        if bytes.last() == Some(&b'\n') {
            bytes.pop();
        }
        take(number, read_line(&bytes))?;
    }
    Ok(())
}

/// Writes every request with its answer; tells whether all lines were sound.
pub fn answer(path: &str, out: &mut dyn Write) -> Result<bool, Trouble> {
    let mut sound = true;
    for_each_line(path, |number, read| match read {
        Ok(None) => Ok(()),
        Ok(Some(line)) => {
            let answer = judge(line.operation, &line.operands);
            // As it was written: a text may hold any bytes.
            out.write_all(line.request)?;
            writeln!(out, " -> {}", write_fields(line.operation, &answer))
        }
        Err(expected) => {
            sound = false;
            eprintln!("{path}:{number}: error: {expected}");
            Ok(())
        }
    })?;
    Ok(sound)
}

/// What a check has counted for one operation.
struct Count {
    operation: &'static Operation,
    claims: usize,
    disagreements: usize,
}

/// What a check has counted.
struct Counts {
    each: Vec<Count>,
    malformed: usize,
    /// How often each set of flags is right.
    flags: BTreeMap<u8, usize>,
}

impl Counts {
    fn new() -> Counts {
        let all = OPERATIONS.iter().chain(forms());
        let each = all.map(|operation| Count { operation, claims: 0, disagreements: 0 });
        Counts { each: each.collect(), malformed: 0, flags: BTreeMap::new() }
    }

    fn of(&mut self, operation: &'static Operation) -> &mut Count {
        let place = self.each.iter().position(|one| std::ptr::eq(one.operation, operation));
        &mut self.each[place.expect("every operation is counted")]
    }

    fn malformed(&mut self, path: &str, number: usize, expected: &str) {
        self.malformed += 1;
        eprintln!("{path}:{number}: error: {expected}");
    }

    /// A line for each plain operation, and for each other that had claims.
    fn write(&self, out: &mut dyn Write) -> io::Result<(usize, usize)> {
        let (mut all_claims, mut all_found) = (0, 0);
        for (place, Count { operation, claims, disagreements }) in self.each.iter().enumerate() {
            if place < OPERATIONS.len() || *claims > 0 {
                let name = operation.name;
                writeln!(out, "{name} {claims} claims, {disagreements} disagreements")?;
            }
            all_claims += claims;
            all_found += disagreements;
        }
        Ok((all_claims, all_found))
    }

    fn write_flags(&self, out: &mut dyn Write) -> io::Result<()> {
        let mut text = String::new();
        for (flags, count) in &self.flags {
            text.push_str(if text.is_empty() { "flags" } else { "," });
            text.push_str(&format!(" {count} "));
            push_flags(&mut text, Flags(*flags));
        }
        match text.is_empty() {
            true => Ok(()),
            false => writeln!(out, "{text}"),
        }
    }
}

/// Holds every claim against the judge; tells whether nothing was found.
pub fn check(path: &str, out: &mut dyn Write) -> Result<bool, Trouble> {
    let mut counts = Counts::new();
    for_each_line(path, |number, read| match read {
        Ok(None) => Ok(()),
        Ok(Some(line)) => match line.read_claim() {
            Ok(claim) => check_line(path, number, (&line, &claim), &mut counts, out),
            Err(expected) => Ok(counts.malformed(path, number, &expected)),
        },
        Err(expected) => Ok(counts.malformed(path, number, &expected)),
    })?;
    let (claims, found) = counts.write(out)?;
    counts.write_flags(out)?;
    let malformed = counts.malformed;
    writeln!(out, "total {claims} claims, {found} disagreements, {malformed} malformed lines")?;
    if claims == 0 {
        writeln!(out, "there was no claim to check")?;
    }
    Ok(found == 0 && malformed == 0 && claims > 0)
}

fn check_line(
    path: &str,
    number: usize,
    (line, claim): (&Line, &[Field]),
    counts: &mut Counts,
    out: &mut dyn Write,
) -> io::Result<()> {
    let operation = line.operation;
    let count = counts.of(operation);
    count.claims += 1;
    let judged = judge(operation, &line.operands);
    count.disagreements += (judged != claim) as usize;
    if let Some(Field::Flags(flags)) = judged.last() {
        *counts.flags.entry(flags.0).or_insert(0) += 1;
    }
    if judged != claim {
        let request = write_request(operation, &line.operands);
        let (own, other) = (write_fields(operation, &judged), write_fields(operation, claim));
        writeln!(out, "{path}:{number}: disagreement: {}", cut(&request, 0))?;
        let start = first_difference(&own, &other);
        writeln!(out, "  claimed {}", cut(&other, start))?;
        writeln!(out, "  judged  {}", cut(&own, start))?;
    }
    Ok(())
}

fn first_difference(first: &str, second: &str) -> usize {
    first.bytes().zip(second.bytes()).take_while(|(one, two)| one == two).count()
}

/// A text short enough to be read, around the byte that matters.
fn cut(text: &str, place: usize) -> String {
    let (start, end) = (place.saturating_sub(100), (place + 200).min(text.len()));
    let start = if place < 200 { 0 } else { start };
    // A text that was read may have characters of several bytes.
    let whole = |place: usize| (0..=place).rev().find(|at| text.is_char_boundary(*at)).unwrap_or(0);
    let (start, end) = (whole(start), whole(end));
    let before = if start > 0 { format!("...({start} characters) ") } else { String::new() };
    let left = text.len() - end;
    let after = if left > 0 { format!(" ...({left} characters)") } else { String::new() };
    format!("{before}{}{after}", &text[start..end])
}
