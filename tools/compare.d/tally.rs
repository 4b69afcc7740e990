//! What a run has found, and what it says of it: one operation's counts, and a line every few seconds.

use crate::kinds::{Kind, compares_status, known_of};
use crate::operations::Operation;
use crate::places::{is_asked, places_of};
use crate::request::Beside;
use crate::run::operation_of;
use crate::table::{Row, Status};
use std::collections::BTreeMap;
use std::time::{Duration, Instant};

/// Differences beyond these are counted and not printed.
pub const PRINTED: u64 = 10;

/// From so many operands on a run must have met every place where flags are decided, or its attribute turns.
const MEETS_ALL: u64 = 20_000;

/// The names of the kinds of operands: those of the plain program, then the row's own.
pub fn kind_names(row: &Row) -> impl Iterator<Item = &'static str> {
    ["of the grid", "built"].into_iter().chain(row.draws.iter().map(|draw| draw.kind))
}

/// What one operation's run has found.
pub struct Tally {
    pub operation: &'static Operation,
    /// What becomes of NaNs, and what stands beside the value, in words.
    pub nans: &'static str,
    pub beside: &'static str,
    /// How many operands, in how many calls if a call takes many, and from what seed, if any.
    pub operands: String,
    pub calls: Option<u64>,
    pub seed: String,
    pub tried: u64,
    pub unexplained: u64,
    pub panics: u64,
    /// The known differences that can be met, and how often each explained one.
    pub known: Vec<&'static Kind>,
    pub explained: Vec<u64>,
    /// The known differences, and the places, that should have been met and were not.
    pub unmet: Vec<&'static str>,
    /// How many operands of each kind there were, or calls, in the order of the kinds.
    pub kinds: Vec<u64>,
    /// How many there were in each place where flags are decided, or an attribute turns, in the order of the places.
    pub places: Vec<u64>,
    /// How often ours gave each number of a refusal, 0 among them; for the operations that have refusals.
    pub refusals: BTreeMap<i64, u64>,
}

/// What stands beside an operation's value, and what it is compared with.
fn beside_text(row: &Row) -> &'static str {
    match row.beside {
        Beside::Nothing => "nothing",
        Beside::Quotient => "quotient, compared",
        Beside::Exponent => "exponent, judged",
        Beside::Whole => "whole number, judged",
        Beside::Refusal => "refusal, compared",
        Beside::Flags if compares_status(row) => "flags, judged; libm's status, compared",
        Beside::Flags if row.status == Status::Libms => "flags, judged; libm's status, not compared",
        Beside::Flags => "flags, judged; libm has no status",
        Beside::RefusalAndFlags if row.crates.is_some() => "refusal and flags, judged; without an attribute, compared",
        Beside::RefusalAndFlags => "refusal and flags, judged",
    }
}

impl Tally {
    pub fn new(
        operation: &'static Operation,
        (nans, beside): (&'static str, &'static str),
        operands: String,
        seed: String,
    ) -> Tally {
        Tally {
            operation,
            nans,
            beside,
            operands,
            calls: None,
            seed,
            tried: 0,
            unexplained: 0,
            panics: 0,
            known: Vec::new(),
            explained: Vec::new(),
            unmet: Vec::new(),
            kinds: Vec::new(),
            places: Vec::new(),
            refusals: BTreeMap::new(),
        }
    }
    pub fn of_row(row: &Row, operands: String, seed: String) -> Tally {
        let operation = operation_of(row);
        let mut tally = Tally::new(operation, (row.nans.text(), beside_text(row)), operands, seed);
        tally.known = known_of(row);
        tally.explained = vec![0; tally.known.len()];
        tally.places = vec![0; places_of(operation).len()];
        tally
    }
    pub fn is_clean(&self) -> bool {
        self.unexplained == 0 && self.panics == 0 && self.unmet.is_empty()
    }
    /// The first operands of each known difference stand at the head of a run: where one was run and its difference not
    /// met, the other side is not the routine that has it.
    pub fn look_for_unmet(&mut self, count: u64) {
        let known = self.known.iter().zip(&self.explained).take(count as usize);
        self.unmet.extend(known.filter(|(_, met)| **met == 0).map(|(kind, _)| kind.entry));
        if count >= MEETS_ALL {
            let is_unmet = |place: &usize| self.places[*place] == 0 && is_asked(self.operation, *place);
            let unmet = (0..self.places.len()).filter(is_unmet);
            self.unmet.extend(unmet.map(|place| places_of(self.operation)[place]));
        }
    }
    /// Each known difference that was met, and how often.
    pub fn explained_by(&self) -> impl Iterator<Item = (&'static str, u64)> + '_ {
        let pairs = self.known.iter().zip(&self.explained);
        pairs.map(|(kind, count)| (kind.entry, *count)).filter(|(_, count)| *count > 0)
    }
    /// Each place that the run had to meet, or has met, and how often.
    pub fn counted_places(&self) -> impl Iterator<Item = (&'static str, u64)> + '_ {
        let counts = |place: &usize| self.places[*place] > 0 || is_asked(self.operation, *place);
        let places = (0..self.places.len()).filter(counts);
        places.map(|place| (places_of(self.operation)[place], self.places[place]))
    }
    pub fn explained_text(&self) -> String {
        let texts: Vec<String> =
            self.explained_by().map(|(entry, count)| format!("{count} {entry}")).collect();
        if texts.is_empty() { "none".to_string() } else { texts.join(", ") }
    }
    /// What the operands were, and what was refused: a line of its own, for all that was drawn.
    pub fn kinds_text(&self, names: impl Iterator<Item = &'static str>) -> String {
        let each = names.zip(&self.kinds).map(|(kind, count)| format!("{count} {kind}"));
        let mut text = each.collect::<Vec<String>>().join("; ");
        for (number, count) in &self.refusals {
            text += &match number {
                0 => format!("; {count} done"),
                _ => format!("; {count} refused by {number}"),
            };
        }
        text
    }
    /// One side has panicked, on what is written here.
    pub fn panic(&mut self, text: &str) {
        self.panics += 1;
        if self.panics <= PRINTED {
            println!("panic: {text}");
        }
    }
    pub fn close(self) -> Tally {
        let (name, seed) = (self.operation.name, &self.seed);
        let calls = self.calls.map_or(String::new(), |calls| format!(" in {calls} calls"));
        let operands = format!("{} operands{calls}", self.operands);
        let (found, explained) = (self.unexplained, self.explained_text());
        let panics =
            if self.panics > 0 { format!("; {} panics", self.panics) } else { String::new() };
        println!(
            "{name}: {operands}, seed {seed}: {found} differences not explained, explained: {explained}{panics}"
        );
        for unmet in &self.unmet {
            match places_of(self.operation).contains(unmet) {
                true => println!("{name}: no operand was met there: {unmet}"),
                false => println!(
                    "{name}: the known difference {unmet} was not met: the other side is not the routine that has it"
                ),
            }
        }
        self
    }
}

/// A line on standard error every few seconds.
pub struct Progress {
    next: Instant,
}

impl Progress {
    const EVERY: Duration = Duration::from_secs(10);

    pub fn new() -> Progress {
        Progress { next: Instant::now() + Progress::EVERY }
    }
    pub fn tell(&mut self, name: &str, done: u64, all: u64) {
        if Instant::now() >= self.next {
            self.next += Progress::EVERY;
            eprintln!("compare: {name} {}%", done as u128 * 100 / all as u128);
        }
    }
}

#[cfg(test)]
mod tests {
    use super::*;
    use crate::table::find;

    /// A run of so many operands that has met all but one place, and all but one known difference.
    fn unmet(count: u64) -> Vec<&'static str> {
        let row = find("fma64").unwrap();
        let mut tally = Tally::of_row(row, String::new(), String::new());
        tally.explained.iter_mut().skip(1).for_each(|count| *count = 1);
        tally.places.iter_mut().skip(1).for_each(|count| *count = 1);
        tally.look_for_unmet(count);
        assert!(!tally.is_clean());
        tally.unmet
    }

    #[test]
    fn a_place_that_is_not_met_is_named_from_a_count_on() {
        assert_eq!(unmet(MEETS_ALL - 1), ["fma64-lost-bits"]);
        assert_eq!(unmet(MEETS_ALL), ["fma64-lost-bits", "x a signalling NaN"]);
    }
    #[test]
    fn under_an_attribute_what_it_makes_is_asked_for_and_nothing_else() {
        let unmet = |name: &str| {
            let mut tally = Tally::of_row(find(name).unwrap(), String::new(), String::new());
            tally.look_for_unmet(MEETS_ALL - 1);
            assert!(tally.is_clean());
            tally.look_for_unmet(MEETS_ALL);
            tally.unmet
        };
        let (up, numbers) = (unmet("fma64.up"), unmet("fma64.NUMBER"));
        let asks = |place: &str| up.contains(&place);
        assert!(asks("the largest number by overflow, below zero") && !asks("the largest number by overflow"));
        assert!(asks("+0 of terms of unlike signs") && !asks("-0 of terms of unlike signs"));
        assert!(asks("half of the least subnormal number, below zero") && !asks("zero, exactly"));
        assert_eq!(numbers.len(), 11);
        let mut tally = Tally::of_row(find("sqrt32.down").unwrap(), String::new(), String::new());
        tally.places.iter_mut().skip(1).for_each(|count| *count = 1);
        tally.look_for_unmet(MEETS_ALL);
        assert_eq!(tally.unmet, ["a signalling NaN"]);
    }
    #[test]
    fn a_known_difference_is_asked_for_where_its_first_operands_were_run() {
        let row = find("fma64").unwrap();
        let mut tally = Tally::of_row(row, String::new(), String::new());
        tally.explained.iter_mut().take(1).for_each(|count| *count = 1);
        tally.look_for_unmet(1);
        assert!(tally.is_clean());
        tally.look_for_unmet(2);
        assert_eq!(tally.is_clean(), tally.known.len() == 1);
    }
}
