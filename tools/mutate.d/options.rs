// The words of the command line.

use std::path::PathBuf;

#[derive(Clone, Copy, PartialEq)]
pub enum Amount {
    Each(usize),
    All,
    Sample(usize),
}

pub struct Options {
    pub root: PathBuf,
    pub work: PathBuf,
    pub seed: u64,
    pub crates: Vec<String>,
    pub functions: Vec<String>,
    pub is_library: bool,
    pub amount: Amount,
    pub jobs: usize,
    pub seconds: u64,
    pub keep: Option<PathBuf>,
    pub is_list: bool,
    pub equal: Option<PathBuf>,
}

pub fn options(words: &[String]) -> Result<Options, String> {
    let mut o = standard()?;
    let amounts = words.iter().filter(|w| *w == "--each" || *w == "--sample");
    if amounts.count() > 1 {
        return Err(
            "--each and --sample exclude each other, and neither is given twice".to_string(),
        );
    }
    let mut words = words.iter();
    while let Some(word) = words.next() {
        match word.as_str() {
            "--library" => o.is_library = true,
            "--list" => o.is_list = true,
            w if w.starts_with('-') => {
                let value = words.next().ok_or_else(|| unknown_or_short(w))?;
                with_value(&mut o, w, value)?;
            }
            name => o.crates.push(name.to_string()),
        }
    }
    if o.is_library && !o.crates.is_empty() {
        return Err("--library and a crate exclude each other".to_string());
    }
    Ok(o)
}

fn standard() -> Result<Options, String> {
    Ok(Options {
        root: folder("MUTATE_ROOT")?,
        work: folder("MUTATE_WORK")?,
        seed: 1,
        crates: Vec::new(),
        functions: Vec::new(),
        is_library: false,
        amount: Amount::Each(3),
        jobs: std::thread::available_parallelism().map_or(1, |n| n.get().min(8)),
        seconds: 120,
        keep: None,
        is_list: false,
        equal: None,
    })
}

// tools/mutate names the repository, and a folder to work in.
fn folder(name: &str) -> Result<PathBuf, String> {
    std::env::var_os(name)
        .map(PathBuf::from)
        .ok_or_else(|| format!("{name} is not set"))
}

const WITH_VALUE: [&str; 9] = [
    "--seed",
    "--crate",
    "--function",
    "--each",
    "--sample",
    "--jobs",
    "--seconds",
    "--keep",
    "--equal",
];

fn unknown_or_short(word: &str) -> String {
    if WITH_VALUE.contains(&word) {
        return format!("{word} needs a value");
    }
    format!("unknown option '{word}'")
}

fn with_value(o: &mut Options, word: &str, value: &str) -> Result<(), String> {
    match word {
        "--seed" => o.seed = number(word, value, 0, u64::MAX)?,
        "--crate" => o.crates.push(value.to_string()),
        "--function" => o.functions.push(value.to_string()),
        "--each" if value == "all" => o.amount = Amount::All,
        "--each" => o.amount = Amount::Each(number(word, value, 1, 1_000_000)? as usize),
        "--sample" => o.amount = Amount::Sample(number(word, value, 1, 1_000_000)? as usize),
        "--jobs" => o.jobs = number(word, value, 1, 64)? as usize,
        "--seconds" => o.seconds = number(word, value, 1, 86_400)?,
        "--keep" => o.keep = Some(value.into()),
        "--equal" => o.equal = Some(value.into()),
        _ => return Err(format!("unknown option '{word}'")),
    }
    Ok(())
}

fn number(word: &str, value: &str, least: u64, most: u64) -> Result<u64, String> {
    let is_plain = !value.is_empty() && value.bytes().all(|b| b.is_ascii_digit());
    let read = if is_plain { value.parse().ok() } else { None };
    let also = if word == "--each" { ", or all" } else { "" };
    read.filter(|n| (least..=most).contains(n))
        .ok_or_else(|| format!("{word} takes a number from {least} to {most}{also}, not '{value}'"))
}
