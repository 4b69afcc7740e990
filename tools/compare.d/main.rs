//! Runs our operations and libm's on the same operands, in one process, and reports every difference.
//!
//! Started by tools/compare, which checks the options that a person gives. Its `main` is C's: a reader that closes the output
//! ends it without a word, as it ends other programs.
#![cfg_attr(not(test), no_main)]
#![cfg_attr(test, allow(dead_code))]

mod attribute_numbers;
mod broken_texts;
mod closing;
mod closing_numerals;
mod ends;
#[cfg(test)]
mod faults;
#[cfg(test)]
mod faults_attributes;
#[cfg(test)]
mod faults_flags;
#[cfg(test)]
mod faults_lists;
#[cfg(test)]
mod faults_numerals;
#[cfg(test)]
mod faults_parts;
#[cfg(test)]
mod faults_rounded;
#[cfg(test)]
mod faults_whole;
mod fused;
mod fused_places;
mod fused_ties;
mod halves;
mod kinds;
mod known;
mod list_shapes;
mod lists;
mod locations;
mod numbers;
mod numeral_calls;
mod part_places;
mod parts;
mod pattern_places;
mod places;
mod plain;
mod quick;
mod raised;
mod reading;
mod record;
mod reductions;
mod refused_texts;
mod remainders;
mod request;
mod roots;
mod rounded;
mod rounded_places;
mod rows_of_values;
mod rows_with_flags;
mod run;
mod settle;
mod shifts;
mod spellings;
#[cfg(sqrt_plain)]
mod sqrt_plain;
mod squares;
mod steps;
mod stream;
mod table;
mod tally;
mod text_places;
mod texts;
mod turns;
mod writing;
#[cfg(test)]
mod wrong_attributes;
#[cfg(test)]
mod wrong_flags;
#[cfg(test)]
mod wrong_reads;
#[cfg(test)]
mod wrong_values;
#[cfg(test)]
mod wrong_writes;

// The plain program's modules: its exact answers, its boundary cases and the line format.
#[allow(dead_code)]
#[path = "../plain/answers.rs"]
mod answers;
#[allow(dead_code)]
#[path = "../plain/answers_flags.rs"]
mod answers_flags;
#[allow(dead_code)]
#[path = "../plain/answers_parts.rs"]
mod answers_parts;
#[allow(dead_code)]
#[path = "../plain/attributes.rs"]
mod attributes;
#[allow(dead_code)]
#[path = "../plain/big.rs"]
mod big;
#[allow(dead_code)]
#[path = "../plain/cases.rs"]
mod cases;
#[allow(dead_code)]
#[path = "../plain/draws_next.rs"]
mod draws_next;
#[allow(dead_code)]
#[path = "../plain/draws_rounded.rs"]
mod draws_rounded;
#[allow(dead_code)]
#[path = "../plain/draws_several.rs"]
mod draws_several;
#[allow(dead_code)]
#[path = "../plain/draws_single.rs"]
mod draws_single;
#[allow(dead_code)]
#[path = "../plain/format.rs"]
mod format;
#[allow(dead_code)]
#[path = "../plain/forms.rs"]
mod forms;
#[allow(dead_code)]
#[path = "../plain/grids.rs"]
mod grids;
#[allow(dead_code)]
#[path = "../plain/lines.rs"]
mod lines;
#[allow(dead_code)]
#[path = "../plain/numerals.rs"]
mod numerals;
#[allow(dead_code)]
#[path = "../plain/operands.rs"]
mod operands;
#[allow(dead_code)]
#[path = "../plain/operations.rs"]
mod operations;
#[allow(dead_code)]
#[path = "../plain/random.rs"]
mod random;
#[allow(dead_code)]
#[path = "../plain/rounding.rs"]
mod rounding;

use numeral_calls::{Numeral, numerals};
use run::{Run, Spoiled};

/// The program's words: a task, then options in pairs, then operations (none: all of them).
struct Words {
    task: String,
    run: Run,
    count: u64,
    /// The file of records, to which a run adds its own.
    records: Option<String>,
    chosen: Vec<&'static table::Row>,
    /// Whether the list call is asked for too.
    lists: bool,
    /// The readers and writers of numerals that are asked for.
    numerals: Vec<&'static Numeral>,
}

fn read_words(words: &[String]) -> Result<Words, String> {
    let (task, mut rest) = words.split_first().ok_or("expected a task")?;
    let mut read = Words {
        task: task.clone(),
        run: Run { seed: 1, on: String::new(), build: String::new(), spoiled: Spoiled::Nothing },
        count: 1,
        records: None,
        chosen: Vec::new(),
        lists: false,
        numerals: Vec::new(),
    };
    while let [option, value, more @ ..] = rest {
        let number = || value.parse::<u64>().map_err(|_| format!("{option} needs a number"));
        match option.as_str() {
            "--seed" => read.run.seed = number()?,
            "--count" => read.count = number()?,
            "--on" => read.run.on = value.clone(),
            "--build" => read.run.build = value.clone(),
            "--records" => read.records = Some(value.clone()),
            "--spoil" => read.run.spoiled = Spoiled::read(value)?,
            _ => break,
        }
        rest = more;
    }
    for name in rest {
        match (table::find(name), numeral_calls::find(name)) {
            (Some(row), _) => read.chosen.push(row),
            (None, Some(numeral)) => read.numerals.push(numeral),
            _ if name == table::LISTS.name => read.lists = true,
            _ => return Err(format!("no operation '{name}'")),
        }
    }
    if rest.is_empty() {
        // Lines of lists are long, and are written only where they are asked for; those of numerals, and those under an
        // attribute, are not libm's.
        let lines = read.task == "lines";
        read.chosen.extend(table::rows().filter(|row| !lines || !row.name.contains('.')));
        read.lists = !lines;
        read.numerals.extend(numerals().iter().filter(|_| !lines));
    }
    Ok(read)
}

/// One reader or writer of numerals, by the task.
fn run_numeral(words: &Words, numeral: &Numeral, tallies: &mut Vec<tally::Tally>) -> Result<(), String> {
    let (run, count) = (&words.run, words.count);
    match (words.task.as_str(), numeral.is_writer()) {
        ("drawn", true) => tallies.push(writing::drawn(run, numeral, count)),
        ("drawn", false) => tallies.push(reading::drawn(run, numeral, count)),
        ("lines", true) => writing::print_lines(numeral, run.seed, count),
        ("lines", false) => reading::print_lines(numeral, run.seed, count),
        _ => return Err(format!("{} is not a function of one 32-bit operand", numeral.operation.name)),
    }
    Ok(())
}

/// The exit status: 0 no difference that is not explained, 1 such a difference or a panic, 2 bad words.
fn run_words(words: &[String]) -> Result<i32, String> {
    kinds::check_entries(&kinds::KINDS)?;
    let words = read_words(words)?;
    if let ("closing" | "markdown", Some(path)) = (words.task.as_str(), &words.records) {
        let table = if words.task == "closing" { closing::plain } else { closing::markdown };
        print!("{}", table(&record::read(path)?));
        return Ok(0);
    }
    run::keep_panics();
    let mut tallies = Vec::new();
    for row in &words.chosen {
        match words.task.as_str() {
            "drawn" => tallies.push(words.run.drawn(row, words.count)),
            "all" => tallies.push(words.run.all_patterns(row)?),
            "lines" => record::print_lines(row, words.run.seed, words.count),
            task => return Err(format!("no task '{task}'")),
        }
    }
    match words.task.as_str() {
        _ if !words.lists => {}
        "drawn" => tallies.push(lists::drawn(&words.run, table::LISTS.ours, words.count)),
        "lines" => lists::print_lines(words.run.seed, words.count),
        task => return Err(format!("the list call has no task '{task}'")),
    }
    for numeral in &words.numerals {
        run_numeral(&words, numeral, &mut tallies)?;
    }
    if let Some(path) = &words.records {
        record::append(path, &words.run, &tallies)?;
    }
    Ok(if tallies.iter().all(|tally| tally.is_clean()) { 0 } else { 1 })
}

#[cfg(not(test))]
#[no_mangle]
pub extern "C" fn main() -> i32 {
    let words: Vec<String> = std::env::args().skip(1).collect();
    match run_words(&words) {
        Ok(status) => status,
        Err(what) => {
            eprintln!("compare: error: {what}");
            2
        }
    }
}
