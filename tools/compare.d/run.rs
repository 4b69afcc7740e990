//! The runs: operands are drawn or counted through, both sides are called, and each answer is judged.

use crate::forms::forms;
use crate::lines::write_request;
use crate::operations::{self, Form, Kind, Operation, Task};
use crate::plain::exact;
use crate::request::{Answer, Request};
use crate::settle::{Sides, settle};
use crate::shifts;
use crate::squares;
use crate::stream::{attributes, requests};
use crate::table::{Judge, Row};
use crate::tally::{Progress, Tally, kind_names};
use std::panic::{AssertUnwindSafe, catch_unwind};
use std::sync::Mutex;

/// A side that is made wrong on purpose, to show that the runs see it.
#[derive(Clone, Copy, Debug, PartialEq, Eq)]
pub enum Spoiled {
    Nothing,
    Ours,
    /// What stands beside our word: flags, a quotient, a refusal.
    Number,
    /// Under an attribute: our refusal, which stands beside flags.
    Refusal,
    /// Our call that gives the value alone.
    Alone,
    Crate,
    /// libm's status.
    Status,
    /// The plain program's answer, where that judges.
    Judge,
}

impl Spoiled {
    pub fn read(text: &str) -> Result<Spoiled, String> {
        match text {
            "ours" => Ok(Spoiled::Ours),
            "number" => Ok(Spoiled::Number),
            "refusal" => Ok(Spoiled::Refusal),
            "alone" => Ok(Spoiled::Alone),
            "crate" => Ok(Spoiled::Crate),
            "status" => Ok(Spoiled::Status),
            "judge" => Ok(Spoiled::Judge),
            _ => Err(format!("nothing called '{text}' can be spoiled")),
        }
    }
}

/// What holds for every operation of one run.
pub struct Run {
    pub seed: u64,
    /// What ours runs on, and how it was built, for the tables.
    pub on: String,
    pub build: String,
    pub spoiled: Spoiled,
}

/// What the last panic said, to be reported with the operands that led to it.
static PANIC: Mutex<String> = Mutex::new(String::new());

pub fn keep_panics() {
    std::panic::set_hook(Box::new(|panic| {
        if let Ok(mut said) = PANIC.lock() {
            *said = panic.to_string().replace('\n', " ");
        }
    }));
}

/// What a side answers, or what it said when it panicked.
pub fn caught<T>(side: impl FnOnce() -> T) -> Result<T, String> {
    catch_unwind(AssertUnwindSafe(side))
        .map_err(|_| PANIC.lock().map(|said| said.clone()).unwrap_or_default())
}

pub fn operation_of(row: &Row) -> &'static Operation {
    let form = || forms().iter().find(|form| form.name == row.name);
    operations::find(row.name).or_else(form).expect("each row has the name of an operation of docs/LINES.md")
}

impl Run {
    /// The boundary cases of the plain program, then operands drawn quickly.
    pub fn drawn(&self, row: &Row, count: u64) -> Tally {
        let mut tally = Tally::of_row(row, count.to_string(), self.seed.to_string());
        let mut progress = Progress::new();
        tally.kinds = vec![0; kind_names(row).count()];
        for (turn, (kind, request)) in (0..count).zip(requests(row, self.seed, count)) {
            tally.kinds[kind] += 1;
            self.try_one(row, by_the_plain_program, &request, &mut tally);
            if turn % 256 == 0 {
                progress.tell(row.name, turn, count);
            }
        }
        tally.look_for_unmet(count);
        let kinds = tally.kinds_text(kind_names(row));
        let tally = tally.close();
        println!("{}: of these {kinds}", row.name);
        if row.judge == Judge::Plain {
            let beside = row.crates.map_or(String::new(), |other| format!(", ours and {}", other.who));
            println!("{}: the plain program judged every answer{beside}", row.name);
        }
        tally
    }

    /// Every pattern of a function of one 32-bit operand.
    pub fn all_patterns(&self, row: &Row) -> Result<Tally, String> {
        let operation = operation_of(row);
        let takes_one = operation.operand_kinds() == [Kind::Word] && operation.form != Form::Numbered;
        if operation.format.width != 32 || !takes_one {
            return Err(format!("{} is not a function of one 32-bit operand", row.name));
        }
        let attribute = attributes(operation, self.seed)();
        // The plain program's roots would take ten minutes, and its parts hours.
        let judge: Exact = match operation.task {
            Task::Sqrt => squares::exact,
            Task::Modf | Task::Frexp | Task::Ilogb => shifts::exact,
            _ => by_the_plain_program,
        };
        let mut tally = Tally::of_row(row, "all 4294967296".to_string(), "none".to_string());
        let mut progress = Progress::new();
        for block in 0..1u64 << 12 {
            for low in 0..1u64 << 20 {
                let request = Request { attribute, ..Request::word(block << 20 | low) };
                self.try_one(row, judge, &request, &mut tally);
            }
            progress.tell(row.name, block, 1 << 12);
        }
        tally.look_for_unmet(1 << 32);
        Ok(tally.close())
    }

    fn try_one(&self, row: &Row, judge: Exact, request: &Request, tally: &mut Tally) {
        let sides = || {
            let ours = (row.ours)(request);
            let crates = row.others(request);
            let guess = crates.unwrap_or(ours);
            Sides {
                ours,
                alone: row.alone.map(|alone| alone(request)),
                crates,
                exact: (row.judge == Judge::Plain).then(|| judge(tally.operation, request, &guess)),
            }
        };
        match caught(sides) {
            Ok(sides) => self.settle(row, request, sides, tally),
            Err(said) => {
                tally.tried += 1;
                let request = write_request(tally.operation, &request.fields(tally.operation));
                tally.panic(&format!("{request}; {said}"));
            }
        }
    }

    /// As it was answered, or with one side spoiled.
    pub fn settle(&self, row: &Row, request: &Request, mut sides: Sides, tally: &mut Tally) {
        tally.tried += 1;
        if tally.tried % 1000 == 0 {
            self.spoil(tally.operation, &mut sides);
        }
        settle(row, request, &sides, tally);
    }

    fn spoil(&self, operation: &Operation, sides: &mut Sides) {
        let Sides { ours, alone, crates, exact } = sides;
        match self.spoiled {
            Spoiled::Nothing => {}
            Spoiled::Ours => ours.word ^= 1,
            Spoiled::Number => ours.number ^= 32,
            Spoiled::Refusal => ours.refused ^= 10,
            Spoiled::Alone => alone.iter_mut().for_each(|word| *word ^= 1),
            // Any two NaNs may count as the same.
            Spoiled::Crate => crates.iter_mut().for_each(|crates| match operation.format.is_nan(crates.word) {
                true => crates.word = 0,
                false => crates.word ^= 1,
            }),
            Spoiled::Status => crates.iter_mut().for_each(|crates| crates.number ^= 4),
            Spoiled::Judge => exact.iter_mut().for_each(|exact| exact.word ^= 1),
        }
    }
}

/// How the exact answer is found; that of the side beside ours, or ours, may be taken for a guess.
type Exact = fn(&Operation, &Request, &Answer) -> Answer;

fn by_the_plain_program(operation: &Operation, request: &Request, _: &Answer) -> Answer {
    exact(operation, request)
}

#[cfg(test)]
mod tests {
    use super::*;
    use crate::request::Beside;

    fn run_spoiled(spoiled: Spoiled) -> Run {
        Run { seed: 1, on: String::new(), build: String::new(), spoiled }
    }

    #[test]
    fn every_kind_of_every_row_is_counted() {
        let run = run_spoiled(Spoiled::Nothing);
        for row in crate::table::rows() {
            let tally = run.drawn(row, 3000);
            assert!(tally.is_clean() && tally.kinds.iter().all(|count| *count > 0));
            assert_eq!(tally.kinds.iter().sum::<u64>(), 3000);
            let refusals: &[i64] = match row.beside {
                Beside::Refusal => &[0, 4, 5],
                Beside::RefusalAndFlags if row.name.ends_with("NUMBER") => &[0, 10],
                Beside::RefusalAndFlags => &[0],
                _ => &[],
            };
            assert!(tally.refusals.keys().eq(refusals), "{}", row.name);
        }
    }
    #[test]
    fn a_spoiled_side_is_seen_in_every_row_that_has_it() {
        for spoiled in [Spoiled::Ours, Spoiled::Number, Spoiled::Refusal, Spoiled::Crate] {
            let run = run_spoiled(spoiled);
            let has_side = |row: &&Row| match spoiled {
                Spoiled::Refusal => row.beside == Beside::RefusalAndFlags,
                Spoiled::Crate => row.crates.is_some(),
                _ => true,
            };
            for row in crate::table::rows().filter(has_side) {
                // libm may have any other value where its fma is known to err.
                let least = if row.name.starts_with("fma") { 4 } else { 5 };
                let found = run.drawn(row, 5000).unexplained;
                assert!((least..=5).contains(&found), "{}: {found}", row.name);
            }
        }
    }
}
