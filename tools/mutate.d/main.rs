// Makes mutants of the functions in crates/*/src, proves each mutant's crate and sorts what comes of it. tools/mutate starts it.

mod equal;
mod mutations;
mod options;
mod prover;
mod random;
mod report;
mod run;
mod sources;
mod tokens;
mod tree;
mod types;
mod verdict;

use equal::Equal;
use mutations::{mutants, Mutant};
use options::{Amount, Options};
use sources::Sources;
use std::collections::{BTreeMap, BTreeSet, VecDeque};
use std::process::ExitCode;

type Waiting = BTreeMap<usize, VecDeque<Mutant>>;

fn main() -> ExitCode {
    let words: Vec<String> = std::env::args().skip(1).collect();
    let is_well = options::options(&words)
        .map_err(|e| used(&e))
        .and_then(|o| all_of(&o));
    match is_well {
        Ok(true) => ExitCode::SUCCESS,
        Ok(false) => ExitCode::from(1),
        Err(fault) => {
            eprintln!("mutate: {fault}");
            ExitCode::from(2)
        }
    }
}

fn used(what: &str) -> String {
    format!("{what}; tools/mutate --help says how it is used")
}

fn all_of(options: &Options) -> Result<bool, String> {
    let all = sources::read(&options.root)?;
    let chosen = chosen(&all, options)?;
    let mut waiting = Waiting::new();
    for f in &chosen {
        waiting.insert(*f, mutants(&all, *f, options.seed)?.into());
    }
    let (equals, shown) = equals(options)?;
    let mut is_well = hold(&all, &equals, &shown, &waiting);
    tell_few(&all, options, &waiting);
    let slots = slots(&all, options, &waiting);
    eprintln!(
        "mutate: seed {}, {} functions, {} mutants to be tried",
        options.seed,
        chosen.len(),
        slots.len()
    );
    if options.is_list {
        list(&all, &slots, waiting);
        return Ok(is_well);
    }
    if let Some(keep) = &options.keep {
        std::fs::create_dir_all(keep).map_err(|e| format!("{}: {e}", keep.display()))?;
    }
    let crates: BTreeSet<&str> = slots
        .iter()
        .map(|f| all.functions[*f].krate.as_str())
        .collect();
    let crates: Vec<&str> = crates.into_iter().collect();
    prover::prove_all(options, &crates)?;
    let mut tried = run::run(&all, options, slots, waiting)?;
    is_well &= report::report(&all, &equals, &shown, &mut tried);
    Ok(is_well)
}

// Functions of which there are fewer mutants than are wanted.
fn tell_few(all: &Sources, options: &Options, waiting: &Waiting) {
    let least = match options.amount {
        Amount::Each(n) => n,
        _ => 1,
    };
    for (f, mutants) in waiting.iter().filter(|(_, w)| w.len() < least) {
        let (name, n) = (&all.functions[*f].name, mutants.len());
        eprintln!("mutate: of {name} there are {n} mutants, and no more");
    }
}

fn chosen(all: &Sources, options: &Options) -> Result<Vec<usize>, String> {
    for name in &options.crates {
        if !all.crates.iter().any(|c| c.0 == *name) {
            return Err(used(&format!("crates.txt lists no crate '{name}'")));
        }
        if !all.functions.iter().any(|f| f.krate == *name) {
            return Err(used(&format!("the crate '{name}' has no function")));
        }
    }
    let command = if options.is_library {
        of_the_command(all)
    } else {
        BTreeSet::new()
    };
    let is_in = |krate: &String| match options.crates.is_empty() {
        true => !command.contains(krate.as_str()),
        false => options.crates.contains(krate),
    };
    let in_crates: Vec<usize> = (0..all.functions.len())
        .filter(|i| is_in(&all.functions[*i].krate))
        .collect();
    let is_named = |i: &usize, name: &String| {
        let whole = &all.functions[*i].name;
        whole == name || whole.rsplit("::").next() == Some(name)
    };
    for name in &options.functions {
        if !in_crates.iter().any(|i| is_named(i, name)) {
            return Err(used(&format!("there is no function '{name}'")));
        }
    }
    let wanted = |i: &usize| {
        options.functions.is_empty() || options.functions.iter().any(|n| is_named(i, n))
    };
    Ok(in_crates.into_iter().filter(wanted).collect())
}

// Programs, and what only they rest on.
fn of_the_command(all: &Sources) -> BTreeSet<&str> {
    let is_program = |krate: &str| {
        let main = format!("crates/{krate}/src/main.rt");
        all.files.iter().any(|f| f.path == main)
    };
    let mut found: BTreeSet<&str> = BTreeSet::new();
    loop {
        let before = found.len();
        for (krate, _) in &all.crates {
            let mut above = all
                .crates
                .iter()
                .filter(|(_, deps)| deps.contains(krate))
                .peekable();
            let is_below = above.peek().is_some() && above.all(|(n, _)| found.contains(n.as_str()));
            if is_program(krate) || is_below {
                found.insert(krate);
            }
        }
        if found.len() == before {
            return found;
        }
    }
}

// One entry for each mutant that is wanted, crate by crate. A sample goes round the functions in an order that the seed draws.
fn slots(all: &Sources, options: &Options, waiting: &Waiting) -> Vec<usize> {
    let mut found = Vec::new();
    match options.amount {
        Amount::All => waiting
            .iter()
            .for_each(|(f, w)| found.extend(w.iter().map(|_| *f))),
        Amount::Each(n) => waiting
            .iter()
            .for_each(|(f, w)| found.extend(w.iter().take(n).map(|_| *f))),
        Amount::Sample(n) => {
            let mut order: Vec<usize> = waiting.keys().copied().collect();
            order.sort_by_cached_key(|f| random::draw(options.seed, &[&all.functions[*f].name]));
            let rounds = waiting.values().map(VecDeque::len).max().unwrap_or(0);
            let turns =
                (0..rounds).flat_map(|r| order.iter().filter(move |f| waiting[f].len() > r));
            found.extend(turns.take(n));
            found.sort_unstable();
        }
    }
    found
}

fn list(all: &Sources, slots: &[usize], mut waiting: Waiting) {
    for f in slots {
        if let Some(mutant) = waiting.get_mut(f).and_then(VecDeque::pop_front) {
            println!("{}", report::line_of(all, &mutant));
        }
    }
}

fn equals(options: &Options) -> Result<(Vec<Equal>, String), String> {
    let standard = options.root.join("tests/mutate.equal");
    match &options.equal {
        Some(path) => Ok((
            equal::read(path, &path.display().to_string())?,
            path.display().to_string(),
        )),
        None if standard.exists() => Ok((
            equal::read(&standard, "tests/mutate.equal")?,
            "tests/mutate.equal".to_string(),
        )),
        None => Ok((Vec::new(), String::new())),
    }
}

// Each listed equal program of a function that is looked at must be one of its mutants, and its function must be there.
fn hold(all: &Sources, equals: &[Equal], shown: &str, waiting: &Waiting) -> bool {
    let mut is_well = true;
    for e in equals {
        let function = all.functions.iter().position(|f| f.name == e.function);
        let made = function.and_then(|f| waiting.get(&f));
        let is_there =
            |w: &VecDeque<Mutant>| w.iter().any(|m| m.before == e.old && m.after == e.new);
        if function.is_none() || made.is_some_and(|w| !is_there(w)) {
            println!(
                "{shown}:{}: error: {} has no such mutant",
                e.line, e.function
            );
            is_well = false;
        }
    }
    is_well
}
