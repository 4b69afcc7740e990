// The requests that are drawn by kinds, of names whose answer has flags and of numerals, and the printing of them.

use crate::answers::judge;
use crate::draws_numerals::{TEXT_KINDS, WRITING_KINDS};
use crate::draws_rounded::FMA_KINDS;
use crate::draws_rounded_single::{INTEGER_KINDS, ROOT_KINDS, SCALING_KINDS};
use crate::format::Format;
use crate::forms::{flagged, of_numerals};
use crate::grids::small_grid;
use crate::grids_numerals;
use crate::lines::{write_fields, write_request};
use crate::operations::{Field, Form, Operation, Task};
use crate::random::Random;
use crate::sets::{Choice, Set};
use std::collections::HashSet;
use std::io::{self, Write};

/// The numbers of the attributes, then some that no attribute has.
const NUMBERS: [u32; 9] = [0, 1, 2, 3, 4, 5, 7, 10, u32::MAX];

/// How often in a row a kind may give what was there before it counts as empty.
const TRIES: usize = 200;

fn kind_names(task: Task) -> Vec<&'static str> {
    match task {
        Task::Sqrt => ROOT_KINDS.iter().map(|kind| kind.0).collect(),
        Task::Fma => FMA_KINDS.iter().map(|kind| kind.0).collect(),
        Task::Scalbn => SCALING_KINDS.iter().map(|kind| kind.0).collect(),
        Task::Read => TEXT_KINDS.iter().map(|kind| kind.0).collect(),
        Task::Write => WRITING_KINDS.iter().map(|kind| kind.0).collect(),
        _ => INTEGER_KINDS.iter().map(|kind| kind.0).collect(),
    }
}

fn draw(task: Task, kind: usize, format: Format, random: &mut Random) -> Vec<Field> {
    match task {
        Task::Sqrt => vec![Field::Word((ROOT_KINDS[kind].1)(format, random))],
        Task::Fma => (FMA_KINDS[kind].1)(format, random).map(Field::Word).to_vec(),
        Task::Scalbn => {
            let (x, n) = (SCALING_KINDS[kind].1)(format, random);
            vec![Field::Word(x), Field::Signed(n)]
        }
        Task::Read => vec![Field::Text((TEXT_KINDS[kind].1)(format, random).into_bytes())],
        Task::Write => {
            let (x, room) = (WRITING_KINDS[kind].1)(format, random);
            vec![Field::Word(x), Field::Unsigned(room)]
        }
        _ => vec![Field::Word((INTEGER_KINDS[kind].1)(format, random))],
    }
}

/// The drawn requests of one name, from its kinds in turn.
pub struct Drawing {
    operation: &'static Operation,
    random: Random,
    kinds: usize,
    turn: usize,
}

impl Drawing {
    pub fn new(operation: &'static Operation, seed: u64) -> Drawing {
        // Numerals have streams behind those of the names with flags.
        let (first, place) = match flagged().position(|one| one.name == operation.name) {
            Some(place) => (100, place),
            None => (300, of_numerals().position(|one| one.name == operation.name).unwrap_or(0)),
        };
        let random = Random::new(seed, first + place as u64);
        // Each name begins with another kind, so that a short run shows all.
        let turn = place * 5;
        Drawing { operation, random, kinds: kind_names(operation.task).len(), turn }
    }

    /// The kind and the operands without the number of an attribute.
    pub fn next(&mut self) -> (usize, Vec<Field>) {
        let kind = self.next_kind();
        (kind, self.of_kind(kind))
    }

    fn next_kind(&mut self) -> usize {
        self.turn += 1;
        (self.turn - 1) % self.kinds
    }

    fn of_kind(&mut self, kind: usize) -> Vec<Field> {
        draw(self.operation.task, kind, self.operation.format, &mut self.random)
    }
}

/// What a run has printed: lines by task and kind, and those of the grids.
struct Tally {
    kinds: Vec<(Task, Vec<usize>)>,
    grid: usize,
    numbered: usize,
    refused: usize,
}

const TASKS: [(Task, &str); 8] = [
    (Task::Sqrt, "sqrt"),
    (Task::Fma, "fma"),
    (Task::Scalbn, "scalbn"),
    (Task::Floor, "floor"),
    (Task::Trunc, "trunc"),
    (Task::Ceil, "ceil"),
    (Task::Read, "read"),
    (Task::Write, "write"),
];

impl Tally {
    fn new() -> Tally {
        let empty = |task| (task, vec![0; kind_names(task).len()]);
        let kinds = TASKS.iter().map(|(task, _)| empty(*task)).collect();
        Tally { kinds, grid: 0, numbered: 0, refused: 0 }
    }

    fn count(&mut self, task: Task, kind: usize, number: Option<u32>) {
        for (_, counts) in self.kinds.iter_mut().filter(|(one, _)| *one == task) {
            counts[kind] += 1;
        }
        match number {
            None => (),
            Some(0..=4) => self.numbered += 1,
            Some(_) => self.refused += 1,
        }
    }

    fn write(&self, out: &mut dyn Write) -> io::Result<()> {
        writeln!(out, "# grids: {} lines", self.grid)?;
        for ((task, counts), (_, name)) in self.kinds.iter().zip(TASKS) {
            for (kind, count) in kind_names(*task).iter().zip(counts).filter(|pair| *pair.1 > 0) {
                writeln!(out, "# {name}, {kind}: {count} lines")?;
            }
        }
        if self.numbered + self.refused > 0 {
            let (numbered, refused) = (self.numbered, self.refused);
            writeln!(out, "# of these the attribute is a number: {numbered} lines")?;
            writeln!(out, "# of these the number is refused: {refused} lines")?;
        }
        Ok(())
    }
}

/// Prints lines, with their answers or without.
struct Printer<'a> {
    out: &'a mut dyn Write,
    answers: bool,
    /// What one name has shown, where no line may come twice.
    seen: HashSet<String>,
}

impl Printer<'_> {
    /// Whether the line was new. Requests alone are not kept in mind: there
    /// may be any number of them.
    fn print(&mut self, operation: &Operation, operands: &[Field]) -> io::Result<bool> {
        let text = write_request(operation, operands);
        if !self.answers {
            writeln!(self.out, "{text}")?;
            return Ok(true);
        }
        if self.seen.contains(&text) {
            return Ok(false);
        }
        let answer = write_fields(operation, &judge(operation, operands));
        writeln!(self.out, "{text} -> {answer}")?;
        self.seen.insert(text);
        Ok(true)
    }
}

fn with_number(number: Option<u32>, operands: Vec<Field>) -> Vec<Field> {
    number.map(Field::Unsigned).into_iter().chain(operands).collect()
}

fn grid(operation: &Operation) -> Vec<Vec<Field>> {
    match operation.is_of_numerals() {
        true => grids_numerals::grid(operation),
        false => small_grid(operation),
    }
}

/// The grid of each name and `count` drawn lines, or requests alone.
pub fn print(
    set: Set,
    (seed, count): (u64, usize),
    chosen: &[Choice],
    answers: bool,
    out: &mut dyn Write,
) -> io::Result<()> {
    let what = if answers { "no request twice" } else { "requests alone" };
    let (option, about) = (set.option(), set.about());
    writeln!(
        out,
        "# seed {seed}, count {count}; made by tools/plain (cases {option}): {about}, then \
         {count} drawn cases of its kinds in turn, which are counted at the end; {what}"
    )?;
    let mut tally = Tally::new();
    for (operation, number) in chosen {
        let mut printer = Printer { out: &mut *out, answers, seen: HashSet::new() };
        match (operation.form, number) {
            (Form::Numbered, None) => {
                numbers(operation, seed, &mut printer, &mut tally)?;
            }
            _ => {
                for operands in grid(operation) {
                    let new = printer.print(operation, &with_number(*number, operands))?;
                    tally.grid += new as usize;
                }
                drawn((operation, *number), seed, count, &mut printer, &mut tally)?;
            }
        }
    }
    tally.write(out)
}

/// A line for each number of interest.
fn numbers(
    operation: &'static Operation,
    seed: u64,
    printer: &mut Printer,
    tally: &mut Tally,
) -> io::Result<()> {
    let mut drawing = Drawing::new(operation, seed);
    for number in NUMBERS {
        let (kind, operands) = drawing.next();
        printer.print(operation, &with_number(Some(number), operands))?;
        tally.count(operation.task, kind, Some(number));
    }
    Ok(())
}

/// Drawn lines, fewer than `count` only where the kinds have no more.
fn drawn(
    (operation, number): Choice,
    seed: u64,
    count: usize,
    printer: &mut Printer,
    tally: &mut Tally,
) -> io::Result<()> {
    let mut drawing = Drawing::new(operation, seed);
    let (mut wanted, mut is_empty) = (count, vec![false; drawing.kinds]);
    while wanted > 0 && is_empty.contains(&false) {
        let kind = drawing.next_kind();
        if is_empty[kind] {
            continue;
        }
        let (mut is_new, mut tries) = (false, 0);
        while !is_new && tries < TRIES {
            let operands = with_number(number, drawing.of_kind(kind));
            is_new = printer.print(operation, &operands)?;
            tries += 1;
        }
        is_empty[kind] = !is_new;
        if is_new {
            wanted -= 1;
            tally.count(operation.task, kind, number);
        }
    }
    Ok(())
}

/// All patterns of a width that has few, for the operations of one operand.
pub fn print_all(chosen: &[Choice], answers: bool, out: &mut dyn Write) -> io::Result<()> {
    writeln!(out, "# all patterns; made by tools/plain (cases --flags --all)")?;
    for (operation, number) in chosen {
        for pattern in 0..=operation.format.all_ones() {
            let operands = with_number(*number, vec![Field::Word(pattern)]);
            let request = write_request(operation, &operands);
            match answers {
                true => {
                    let answer = write_fields(operation, &judge(operation, &operands));
                    writeln!(out, "{request} -> {answer}")?;
                }
                false => writeln!(out, "{request}")?,
            }
        }
    }
    Ok(())
}
