//! The list call beside libm: each place of the output against libm's function of the same place of the input,
//! and a test of the run's own for what is refused. All that a call could touch is looked at: both lists, and the words
//! beside them.

use crate::cases::Requests;
use crate::format::WIDTH_64;
use crate::lines::{write_fields, write_request};
use crate::list_shapes::{FOR_LISTS, Shape};
use crate::operations::{self, Field, Operation};
use crate::plain::exact;
use crate::random::Random;
use crate::request::Request;
use crate::run::{Run, Spoiled, caught, operation_of};
use crate::table::{self, LISTS, Row};
use crate::tally::{PRINTED, Progress, Tally};
use std::collections::HashSet;
use std::ops::Range;

/// The calls are a hundredth of the count, and have some hundreds of places each.
const COUNT_A_CALL: u64 = 100;
/// One call in so many is spoiled, where a side is to be.
const SPOILED_CALLS: u64 = 10;
/// The words beside a list that no call may touch, on either side.
const BESIDE: usize = 4;
pub const LONGEST: usize = 8192;

/// Both lists as a call gets them: where they begin, and how many places they have.
pub struct Lent {
    pub input: *const u64,
    pub input_length: usize,
    pub output: *mut u64,
    pub output_length: usize,
}
pub type ListCall = fn(u32, &Lent) -> u32;

/// The row of the operation that a number stands for.
pub fn row_of(number: u32) -> Option<&'static Row> {
    let named = LISTS.operations.iter().find(|(one, _)| *one == number);
    named.and_then(|(_, name)| table::find(name))
}

/// The number of the refusal, the first that applies, 0 for none.
pub fn refusal(Shape { number, lengths: [input, output] }: Shape) -> u32 {
    let is_named = number.wrapping_sub(1) < 3;
    let has_room = input < LONGEST + 1 && output < LONGEST + 1;
    match (is_named, has_room, input == output) {
        (false, _, _) => 1,
        (true, false, _) => 2,
        (true, true, false) => 3,
        (true, true, true) => 0,
    }
}

/// What ours must make of a place.
pub fn by_the_crate(row: &Row, x: u64) -> u64 {
    let libms = row.others(&Request::word(x)).expect("libm has each operation of a list");
    LISTS.nans.ours(WIDTH_64, libms.word)
}

/// Both lists in one piece of memory, with words of their own before, between and past them.
struct Memory {
    words: Vec<u64>,
    input: Range<usize>,
    output: Range<usize>,
}

impl Memory {
    /// What the input holds is drawn by the kinds of the operation, where there is one; all else is any words.
    fn drawn(shape: Shape, places: &mut u64, random: &mut Random) -> Memory {
        let [read, written] = shape.lengths;
        // A list may begin at any word.
        let start = BESIDE + random.below(4) as usize;
        let input = start..start + read;
        let output = input.end + BESIDE..input.end + BESIDE + written;
        let mut words: Vec<u64> = (0..output.end + BESIDE).map(|_| random.word()).collect();
        if let (0, Some(row)) = (refusal(shape), row_of(shape.number)) {
            for word in &mut words[input.clone()] {
                let kinds = row.draws.len() as u64;
                let draw = &row.draws[(*places % kinds) as usize];
                *word = (draw.make)(WIDTH_64, *places / kinds, random).x();
                *places += 1;
            }
        }
        Memory { words, input, output }
    }
    fn lent(&mut self) -> Lent {
        let start = self.words.as_mut_ptr();
        // Both lie within the words.
        unsafe {
            Lent {
                input: start.add(self.input.start),
                input_length: self.input.len(),
                output: start.add(self.output.start),
                output_length: self.output.len(),
            }
        }
    }
    /// What must be here after the call: all as it was, but for the output of a call that is done.
    fn wanted(&self, shape: Shape) -> Vec<u64> {
        let mut words = self.words.clone();
        if let (0, Some(row)) = (refusal(shape), row_of(shape.number)) {
            for (from, to) in self.input.clone().zip(self.output.clone()) {
                words[to] = by_the_crate(row, self.words[from]);
            }
        }
        words
    }
    /// Where a word stands. Places count from 0, words beside a list from 1.
    fn name(&self, at: usize) -> String {
        let (input, output) = (&self.input, &self.output);
        match at {
            _ if input.contains(&at) => format!("place {} of the input", at - input.start),
            _ if output.contains(&at) => format!("place {} of the output", at - output.start),
            _ if at < input.start => format!("the word {} before the input", input.start - at),
            _ if at < output.start => format!("the word {} before the output", output.start - at),
            _ => format!("the word {} past the output", at + 1 - output.end),
        }
    }
}

fn operation() -> &'static Operation {
    operations::find(LISTS.name).expect("docs/LINES.md has the list call")
}

/// Calls of every kind in turn, a hundredth of the count.
pub fn drawn(run: &Run, ours: ListCall, count: u64) -> Tally {
    let calls = count.div_ceil(COUNT_A_CALL);
    let about = (LISTS.nans.text(), "refusal, compared");
    let mut tally = Tally::new(operation(), about, String::new(), run.seed.to_string());
    let mut random = Random::new(run.seed, 1001);
    let (mut progress, mut places) = (Progress::new(), 0);
    tally.kinds = vec![0; FOR_LISTS.len()];
    for turn in 0..calls {
        let kind = (turn % FOR_LISTS.len() as u64) as usize;
        let shape = (FOR_LISTS[kind].make)(turn / FOR_LISTS.len() as u64, &mut random);
        tally.kinds[kind] += 1;
        tally.tried += 1;
        try_call(run, ours, shape, &mut places, &mut random, &mut tally);
        progress.tell(LISTS.name, turn, calls);
    }
    tally.operands = places.to_string();
    tally.calls = Some(calls);
    let kinds = tally.kinds_text(FOR_LISTS.iter().map(|draw| draw.kind));
    let tally = tally.close();
    println!("{}: of these {kinds}", LISTS.name);
    tally
}

fn try_call(
    run: &Run,
    ours: ListCall,
    shape: Shape,
    places: &mut u64,
    random: &mut Random,
    tally: &mut Tally,
) {
    let mut memory = Memory::drawn(shape, places, random);
    let before = memory.words.clone();
    let mut wanted = match caught(|| memory.wanted(shape)) {
        Ok(wanted) => wanted,
        Err(said) => return tally.panic(&format!("{}; {said}", text_of(shape))),
    };
    let mut number = ours(shape.number, &memory.lent());
    if tally.tried % SPOILED_CALLS == 0 {
        spoil(run.spoiled, refusal(shape) == 0, &mut number, &mut memory, &mut wanted);
    }
    *tally.refusals.entry(number.into()).or_default() += 1;
    if let Some(what) = difference(shape, number, &before, &memory, &wanted) {
        tally.unexplained += 1;
        if tally.unexplained <= PRINTED {
            println!("difference: {} -> {number}; {what}", text_of(shape));
        }
    }
}

/// In the middle of the output, if it has a place. Where a call is refused libm has no say.
fn spoil(
    spoiled: Spoiled,
    is_done: bool,
    number: &mut u32,
    memory: &mut Memory,
    wanted: &mut [u64],
) {
    let middle = memory.output.start + memory.output.len() / 2;
    let has_place = memory.output.contains(&middle);
    match spoiled {
        Spoiled::Ours if has_place => memory.words[middle] ^= 1,
        Spoiled::Crate if has_place && is_done => wanted[middle] ^= 1,
        Spoiled::Number => *number ^= 32,
        _ => {}
    }
}

fn text_of(Shape { number, lengths: [input, output] }: Shape) -> String {
    format!("{} {number} on lists of {input} and {output}", LISTS.name)
}

/// The first thing that is not as it must be.
fn difference(
    shape: Shape,
    number: u32,
    before: &[u64],
    memory: &Memory,
    wanted: &[u64],
) -> Option<String> {
    let rule = refusal(shape);
    if number != rule {
        return Some(format!("the rule gives {rule}"));
    }
    let at = memory.words.iter().zip(wanted).position(|(is, must)| is != must)?;
    let (name, is, must, was) = (memory.name(at), memory.words[at], wanted[at], before[at]);
    let row = row_of(shape.number).filter(|_| rule == 0 && memory.output.contains(&at));
    Some(match row {
        Some(row) => {
            let from = before[at - memory.output.start + memory.input.start];
            let exact = exact(operation_of(row), &Request::word(from)).word;
            format!(
                "{name}, from {from:016x}, is {is:016x}; libm gives {must:016x}; exact: {exact:016x}"
            )
        }
        None => format!("{name} was {was:016x} and is {is:016x}"),
    })
}

/// `count` different requests of the plain program, whose lists are short, with what libm and the rule make of them.
pub fn print_lines(seed: u64, count: u64) {
    let mut requests = Requests::new(operation(), seed);
    let mut seen = HashSet::new();
    while (seen.len() as u64) < count {
        let fields = requests.next();
        let text = write_request(operation(), &fields);
        if let [Field::Unsigned(number), Field::Words(input), Field::Words(output)] = &fields[..] {
            let answer = write_fields(operation(), &answered(*number, input, output));
            if seen.insert(text.clone()) {
                println!("{text} -> {answer}");
            }
        }
    }
}

fn answered(number: u32, input: &[u64], output: &[u64]) -> [Field; 2] {
    let refused = refusal(Shape { number, lengths: [input.len(), output.len()] });
    let list = match (refused, row_of(number)) {
        (0, Some(row)) => input.iter().map(|x| by_the_crate(row, *x)).collect(),
        _ => output.to_vec(),
    };
    [Field::Unsigned(refused), Field::Words(list)]
}
