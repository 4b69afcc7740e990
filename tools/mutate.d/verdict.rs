// What a run of the prover says of a mutant.

#[derive(Clone, Copy, PartialEq, Debug)]
pub enum Outcome {
    // an obligation that is still there is not met
    Fact,
    // the proof names or counts what is no longer there
    Form,
    Survived,
    NotCompiled,
    // out of time, the prover could not tell, or the toolchain failed
    Unsettled,
}

// What the prover says of something that must hold and is not met.
const FACT: [&str; 7] = [
    "the goal does not follow from what it read",
    "`search`: no proof of",
    "the two types ",
    "the two values ",
    "give a proof of that as the last argument, `simp L t`",
    "expected type `",
    "it is not proved that ",
];

// What it says where a proof does not have the shape of the code: it names a step or a way to it that is not there, or takes the steps in another order.
// A phrase that stands in neither table counts as one of these.
const FORM: [&str; 5] = [
    "that can be named from here",
    "` has no field `",
    "this pattern needs a function",
    "no occurrence of the path's left endpoint",
    "no equation of the list has an instance",
];

// What it says of a way of returning that is not there, or stands elsewhere among the others.
const RETURNS: &str = ".Goals` has no `returns";

// What it says where a declaration only waits for another.
const WAITS: [&str; 2] = ["so this cannot be checked", "was not admitted"];

pub struct Verdict {
    pub outcome: Outcome,
    // the first error that counts, or why nothing is settled
    pub first: String,
    // functions that are refused for themselves
    pub refused: Vec<String>,
}

pub fn verdict(status: Option<i32>, log: &str) -> Verdict {
    let refused = log
        .lines()
        .filter_map(refused_in)
        .map(str::to_string)
        .collect();
    let has = |start: &str| log.lines().any(|l| l.starts_with(start));
    let sorted = sorted(log);
    let (outcome, first) = match status {
        Some(0) if has("logic=proved") => (Outcome::Survived, ""),
        Some(1) if has("logic=not-proved") => sorted,
        Some(1) => (Outcome::NotCompiled, sorted.1),
        None => (Outcome::Unsettled, "the time was up"),
        Some(3) => (Outcome::Unsettled, "the prover could not tell"),
        _ => (Outcome::Unsettled, "the toolchain failed"),
    };
    let first = first.to_string();
    Verdict {
        outcome,
        first,
        refused,
    }
}

// A fact where all errors are of facts, or where what the function ensures is refused on a way of returning, and these are as they were.
fn sorted(log: &str) -> (Outcome, &str) {
    let errors: Vec<&str> = log
        .lines()
        .filter(|l| is_error(l) && !is_like(l, &WAITS))
        .collect();
    let is_fact = |e: &&&str| is_like(e, &FACT) && !is_like(e, &FORM);
    let form = errors.iter().find(|e| !is_fact(e));
    let at_return = errors
        .iter()
        .find(|e| e.contains(" `returns") && is_fact(e));
    let are_returns_kept = !errors.iter().any(|e| e.contains(RETURNS));
    match (form, at_return, errors.first()) {
        (None, _, Some(first)) => (Outcome::Fact, first),
        (Some(_), Some(at), _) if are_returns_kept => (Outcome::Fact, at),
        (form, _, _) => (Outcome::Form, form.unwrap_or(&"")),
    }
}

fn is_like(line: &str, phrases: &[&str]) -> bool {
    phrases.iter().any(|p| line.contains(p))
}

fn is_error(line: &str) -> bool {
    line.contains(": error: ")
        || (line.starts_with("note: ") && line.contains(": it is not proved that "))
}

// fn NAME: not proved, but for one that waits for a function that it calls.
fn refused_in(line: &str) -> Option<&str> {
    let (name, said) = line.strip_prefix("fn ")?.split_once(": ")?;
    let is_refused = said.starts_with("not proved") || said.starts_with("no proof");
    (is_refused && !said.contains("; it calls ")).then_some(name)
}
