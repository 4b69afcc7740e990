// What is written: a line for each survivor, the closing table, and the last line.

use crate::equal::{reason, Equal};
use crate::mutations::Mutant;
use crate::run::Tried;
use crate::sources::Sources;
use crate::verdict::Outcome;
use std::collections::{BTreeMap, BTreeSet};

#[derive(Default, Clone)]
struct Tally {
    functions: BTreeSet<usize>,
    fact: usize,
    form: usize,
    survived: usize,
    equal: usize,
    unsettled: usize,
    not_compiled: usize,
}

pub fn line_of(all: &Sources, mutant: &Mutant) -> String {
    let function = &all.functions[mutant.function];
    let path = &all.files[function.file].path;
    let Mutant {
        line,
        kind,
        before,
        after,
        ..
    } = mutant;
    format!(
        "{path}:{line}: {}: {kind}: `{before}` -> `{after}`",
        function.name
    )
}

impl Tally {
    fn add(&mut self, tried: &Tried, is_equal: bool) {
        match tried.verdict.outcome {
            Outcome::Fact => self.fact += 1,
            Outcome::Form => self.form += 1,
            Outcome::Survived => self.survived += 1,
            Outcome::Unsettled => self.unsettled += 1,
            Outcome::NotCompiled => self.not_compiled += 1,
        }
        self.equal += usize::from(is_equal && tried.verdict.outcome == Outcome::Survived);
        if tried.verdict.outcome != Outcome::NotCompiled {
            self.functions.insert(tried.mutant.function);
        }
    }

    fn mutants(&self) -> usize {
        self.fact + self.form + self.survived + self.unsettled
    }

    fn row(&self, name: &str) -> String {
        format!(
            "{name:<16} {:>9} {:>7} {:>6} {:>6} {:>8} {:>6} {:>11} {:>16}",
            self.functions.len(),
            self.mutants(),
            self.fact,
            self.form,
            self.survived,
            self.equal,
            self.unsettled,
            self.not_compiled
        )
    }
}

// Whether nothing was found that has no reason.
pub fn report(all: &Sources, equals: &[Equal], shown: &str, tried: &mut [Tried]) -> bool {
    tried.sort_by_key(|t| (t.mutant.function, t.mutant.line, t.mutant.number));
    let mut tallies: BTreeMap<&str, Tally> = BTreeMap::new();
    let mut whole = Tally::default();
    let mut is_well = true;
    for one in tried.iter() {
        let why = reason(equals, all, &one.mutant);
        let krate = all.functions[one.mutant.function].krate.as_str();
        tallies.entry(krate).or_default().add(one, why.is_some());
        whole.add(one, why.is_some());
        let line = line_of(all, &one.mutant);
        match (one.verdict.outcome, why) {
            (Outcome::Survived, Some(e)) => {
                println!("{line}: survived, an equal program: {}", e.why)
            }
            (Outcome::Survived, None) => println!("{line}: SURVIVED"),
            (Outcome::Unsettled, _) => println!("{line}: NOT SETTLED: {}", one.verdict.first),
            (Outcome::Fact | Outcome::Form, Some(e)) => {
                println!(
                    "{shown}:{}: error: listed as an equal program, and refused: {}",
                    e.line, one.verdict.first
                );
                is_well = false;
            }
            _ => {}
        }
    }
    println!("crate            functions mutants   fact   form survived  equal not settled does not compile");
    for (krate, _) in &all.crates {
        if let Some(tally) = tallies.get(krate.as_str()) {
            println!("{}", tally.row(krate));
        }
    }
    println!("{}", whole.row("all"));
    println!("{}", last_line(&whole));
    is_well && whole.survived == whole.equal && whole.unsettled == 0
}

fn last_line(t: &Tally) -> String {
    let unsettled = if t.unsettled > 0 {
        format!(", {} not settled", t.unsettled)
    } else {
        String::new()
    };
    format!(
        "mutate: {} mutants of {} functions, {} refused for a fact, {} for the proof's form, {} survived, {} of them equal programs{unsettled}",
        t.mutants(),
        t.functions.len(),
        t.fact,
        t.form,
        t.survived,
        t.equal
    )
}
