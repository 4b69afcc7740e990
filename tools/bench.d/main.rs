//! Times the archive's operations beside libm's. Built and run by tools/bench, which chooses what is measured.

mod answers;
#[path = "../plain/big.rs"]
#[allow(dead_code)]
mod big;
#[path = "../plain/format.rs"]
#[allow(dead_code)]
mod format;
mod measure;
mod numerals;
mod operands;
mod operations;
mod picture;
#[path = "../plain/random.rs"]
#[allow(dead_code)]
mod random;
mod report;
mod run;

use numerals::{READS, READS_ROUNDED, WRITES};
use operations::{LISTS, OPERATIONS, ROUNDED};
use run::Run;
use std::io::Write;
use std::time::{Duration, Instant};

/// The longest time without a line that says how far the run is.
const SILENCE: Duration = Duration::from_secs(3);

fn main() {
    let mut run = asked(std::env::args().skip(1)).unwrap_or_else(|error| fail(&error));
    let mut said = Instant::now();
    let all: Vec<_> = OPERATIONS.iter().chain(LISTS).chain(ROUNDED).chain(READS).chain(WRITES).chain(READS_ROUNDED).collect();
    for (done, operation) in all.iter().enumerate() {
        if said.elapsed() > SILENCE {
            eprintln!("bench: {}, operation {} of {}", operation.name, done + 1, all.len());
            said = Instant::now();
        }
        run.operation = operation.name;
        (operation.measure)(&mut run);
    }
    if let Some(path) = &run.picture {
        std::fs::write(path, picture::svg(&run.rows, &run.captions)).unwrap_or_else(|error| fail(&format!("cannot write {path}: {error}")));
    }
    let text = if run.operands_alone { run.requests } else { report::text(&run) };
    // Whoever reads this may have had enough before the end.
    let _ = std::io::stdout().write_all(text.as_bytes());
}

fn fail(error: &str) -> ! {
    eprintln!("bench: error: {error}");
    std::process::exit(2)
}

fn asked(mut words: impl Iterator<Item = String>) -> Result<Run, String> {
    let mut run = Run {
        seed: 1,
        passes: 101,
        chosen: Vec::new(),
        operands_alone: false,
        picture: None,
        captions: Vec::new(),
        operation: "",
        requests: String::new(),
        rows: Vec::new(),
        rounded: Vec::new(),
        numerals: Vec::new(),
        rounded_numerals: Vec::new(),
        differences: Vec::new(),
    };
    while let Some(word) = words.next() {
        let mut value = || words.next().ok_or(format!("{word} needs a value"));
        let number = |text: String| text.parse().map_err(|_| format!("{text} is not a number"));
        match word.as_str() {
            "--seed" => run.seed = number(value()?)?,
            "--passes" => run.passes = number(value()?)? as usize,
            "--picture" => run.picture = Some(value()?),
            "--caption" => run.captions.push(value()?),
            "--operands" => run.operands_alone = true,
            _ => run.chosen.push(word),
        }
    }
    Ok(run)
}
