// The options of the commands that make requests, read and held to one another.

use crate::lines::find_named;
use crate::operations::{find, Form, Operation, Task, OPERATIONS};
use crate::sets::{Choice, Set};

/// What a command is to make.
pub enum Wanted {
    Plain(u64, usize, Vec<&'static Operation>),
    Kinds { set: Set, seed: u64, count: usize, chosen: Vec<Choice>, answers: bool },
    All { chosen: Vec<Choice>, answers: bool },
}

/// The options as they are written.
#[derive(Default)]
struct Given<'a> {
    seed: Option<u64>,
    count: Option<u64>,
    operation: Option<&'a str>,
    set: Option<Set>,
    requests: bool,
    all: bool,
}

pub fn read_options(command: &str, rest: &[&str]) -> Result<Wanted, String> {
    let given = read_given(command, rest)?;
    if given.all && given.set != Some(Set::Flags) {
        return Err("--all goes with --flags".to_string());
    }
    if given.requests && given.set.is_none() {
        return Err("--requests goes with --flags or --numerals".to_string());
    }
    let answers = !given.requests;
    if given.all {
        if given.seed.is_some() || given.count.is_some() {
            return Err("--all takes no --seed and no --count".to_string());
        }
        return Ok(Wanted::All { chosen: all_patterns(given.operation)?, answers });
    }
    let seed = given.seed.ok_or_else(|| format!("{command} needs --seed N"))?;
    let count = given.count.ok_or_else(|| format!("{command} needs --count K"))?;
    if count == 0 {
        return Err("--count must be at least 1".to_string());
    }
    let count = count as usize;
    match given.set {
        Some(set) => {
            let chosen = of_set(set, given.operation)?;
            Ok(Wanted::Kinds { set, seed, count, chosen, answers })
        }
        None => Ok(Wanted::Plain(seed, count, plain(given.operation)?)),
    }
}

fn read_given<'a>(command: &str, rest: &[&'a str]) -> Result<Given<'a>, String> {
    let mut given = Given::default();
    let mut words = rest.iter();
    while let Some(option) = words.next() {
        match (*option, command) {
            ("--flags" | "--numerals", "cases") if given.set.is_some() => {
                return Err("--flags and --numerals do not go together".to_string());
            }
            ("--flags", "cases") => given.set = Some(Set::Flags),
            ("--numerals", "cases") => given.set = Some(Set::Numerals),
            ("--requests", "cases") => given.requests = true,
            ("--all", "cases") => given.all = true,
            ("--seed" | "--count", _) | ("--operation", "cases") => {
                let missing = || format!("{command}: {option} needs a value");
                let value = words.next().ok_or_else(missing)?;
                match *option {
                    "--seed" => given.seed = Some(number(option, value)?),
                    "--count" => given.count = Some(number(option, value)?),
                    _ => given.operation = Some(value),
                }
            }
            _ => return Err(format!("{command}: no option \"{option}\"")),
        }
    }
    Ok(given)
}

fn number(option: &str, value: &str) -> Result<u64, String> {
    let digits = value.bytes().all(|byte| byte.is_ascii_digit());
    let read = value.parse::<u64>().ok().filter(|_| digits);
    let wrong = || format!("{option} needs a decimal number below 2^64, not \"{value}\"");
    read.ok_or_else(wrong)
}

/// One name without an attribute, or all of 64 and 32 bits.
fn plain(operation: Option<&str>) -> Result<Vec<&'static Operation>, String> {
    let Some(name) = operation else {
        let recorded = |one: &&Operation| one.format.width > 16 && !one.is_of_numerals();
        return Ok(OPERATIONS.iter().filter(recorded).collect());
    };
    let without = match find_named(name) {
        Some((one, _)) if Set::Numerals.holds(one) => " without --numerals",
        Some(_) => " without --flags",
        None => "",
    };
    let found = find(name).filter(|one| !Set::Numerals.holds(one));
    let found = found.ok_or_else(|| format!("no operation \"{name}\"{without}"));
    Ok(vec![found?])
}

/// One name of a set, or a name under all attributes, or all.
fn of_set(set: Set, operation: Option<&str>) -> Result<Vec<Choice>, String> {
    let Some(name) = operation else {
        return Ok(set.choices(|_| true));
    };
    if let Some(one) = find_named(name).filter(|(one, _)| set.holds(one)) {
        return Ok(vec![one]);
    }
    let stem = name.strip_suffix(".A").unwrap_or("");
    let found = set.choices(|one| one.form != Form::Plain && one.stem() == stem);
    match found.is_empty() {
        true => Err(format!("no operation \"{name}\" with {}", set.option())),
        false => Ok(found),
    }
}

fn all_patterns(operation: Option<&str>) -> Result<Vec<Choice>, String> {
    let Some(name) = operation else {
        return Err("--all needs --operation OP".to_string());
    };
    let mut found = of_set(Set::Flags, Some(name))?;
    found.retain(|(form, number)| form.form != Form::Numbered || number.is_some());
    let fits = |(form, _): &Choice| {
        form.format.width == 16 && !matches!(form.task, Task::Fma | Task::Scalbn)
    };
    match found.iter().all(fits) {
        true => Ok(found),
        false => Err(format!("--all takes sqrt16, floor16, trunc16 or ceil16, not \"{name}\"")),
    }
}
