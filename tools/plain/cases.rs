// The stream of requests of an operation, and the command that prints it.

use crate::answers::judge;
use crate::draws_next::for_next;
use crate::draws_several::{for_fma, for_list, for_reduction, for_remainder};
use crate::draws_single::{for_exponent, for_integer, for_root, for_scaling};
use crate::grids::{grid, triple, TRIPLES};
use crate::lines::{write_fields, write_request};
use crate::operands::CLASSES;
use crate::operations::{Field, Operation, Task, OPERATIONS};
use crate::random::Random;
use std::collections::HashSet;
use std::io::{self, Write};

/// All requests of one operation: first the grid, then drawn ones for ever.
pub struct Requests {
    operation: &'static Operation,
    random: Random,
    grid: std::vec::IntoIter<Vec<Field>>,
    turn: usize,
}

impl Requests {
    pub fn new(operation: &'static Operation, seed: u64) -> Requests {
        let place = OPERATIONS.iter().position(|one| one.name == operation.name);
        let mut random = Random::new(seed, place.map_or(0, |place| place as u64 + 1));
        let grid = grid(operation, &mut random).into_iter();
        Requests { operation, random, grid, turn: 0 }
    }

    pub fn grid_left(&self) -> usize {
        self.grid.len()
    }

    pub fn next(&mut self) -> Vec<Field> {
        if let Some(operands) = self.grid.next() {
            return operands;
        }
        self.turn += 1;
        self.draw(self.turn - 1)
    }

    fn draw(&mut self, turn: usize) -> Vec<Field> {
        use Field::{Signed, Unsigned, Word, Words};
        let (format, random) = (self.operation.format, &mut self.random);
        match self.operation.task {
            Task::Sqrt => vec![Word(for_root(format, turn, random))],
            Task::Floor | Task::Trunc | Task::Ceil | Task::Modf => {
                vec![Word(for_integer(format, turn, random))]
            }
            Task::Frexp | Task::Ilogb => vec![Word(for_exponent(format, turn, random))],
            Task::Scalbn => {
                let (x, n) = for_scaling(format, turn, random);
                vec![Word(x), Signed(n)]
            }
            Task::Fma => {
                // Every fourth request is the next triple of classes while
                // there are any that the grid has not shown.
                let place = CLASSES * CLASSES + turn / 4;
                match turn % 4 == 3 && place < TRIPLES {
                    true => triple(format, place, random),
                    false => for_fma(format, turn - turn / 4, random).map(Word).to_vec(),
                }
            }
            Task::Fmod | Task::Remquo => for_remainder(format, turn, random).map(Word).to_vec(),
            Task::Nextafter => for_next(format, turn, random).map(Word).to_vec(),
            Task::Reduce => {
                let (x, shift, y) = for_reduction(format.width, turn, random);
                vec![Word(x), Unsigned(shift), Word(y)]
            }
            Task::List => {
                let (number, input, output) = for_list(turn, random);
                vec![Unsigned(number), Words(input), Words(output)]
            }
            Task::Read | Task::Write => unreachable!("numerals are drawn by kinds alone"),
        }
    }
}

/// The grid and `count` drawn requests of each chosen operation, no line twice.
pub fn print_cases(
    seed: u64,
    count: usize,
    chosen: &[&'static Operation],
    out: &mut dyn Write,
) -> io::Result<()> {
    writeln!(
        out,
        "# seed {seed}, count {count}; made by tools/plain (cases): for each operation a grid \
         (every pair of operand classes, for fma in each two places; the thresholds of scalbn; \
         both sides of every refusal; for frexp and ilogb subnormal numbers of every length), \
         then {count} drawn boundary cases; no request twice"
    )?;
    for operation in chosen {
        let mut requests = Requests::new(operation, seed);
        let mut seen = HashSet::new();
        let mut wanted = count;
        while requests.grid_left() > 0 || wanted > 0 {
            let from_grid = requests.grid_left() > 0;
            let operands = requests.next();
            let text = write_request(operation, &operands);
            if !seen.insert(text.clone()) {
                continue;
            }
            wanted -= if from_grid { 0 } else { 1 };
            let answer = judge(operation, &operands);
            writeln!(out, "{text} -> {}", write_fields(operation, &answer))?;
        }
    }
    Ok(())
}
