// Mutants that are equal programs: the file that lists them, each with its reason.

use crate::mutations::Mutant;
use crate::sources::Sources;
use std::path::Path;

pub struct Equal {
    pub line: usize,
    pub function: String,
    pub old: String,
    pub new: String,
    pub why: String,
}

// A block has the lines function:, old:, new: and why:, in this order; an empty line or # stands between blocks.
pub fn read(path: &Path, shown: &str) -> Result<Vec<Equal>, String> {
    let text = std::fs::read_to_string(path).map_err(|_| format!("cannot read '{shown}'"))?;
    let mut found: Vec<Equal> = Vec::new();
    let mut parts = 4;
    for (i, line) in text.lines().enumerate() {
        if line.trim().is_empty() || line.starts_with('#') {
            continue;
        }
        let bad = || format!("{shown}:{}: error: expected {}", i + 1, WORDS[parts % 4]);
        let rest = line
            .strip_prefix(WORDS[parts % 4])
            .map(str::trim)
            .filter(|r| !r.is_empty())
            .ok_or_else(bad)?;
        if parts == 4 {
            found.push(Equal {
                line: i + 1,
                ..EMPTY
            });
            parts = 0;
        }
        if let Some(entry) = found.last_mut() {
            *[
                &mut entry.function,
                &mut entry.old,
                &mut entry.new,
                &mut entry.why,
            ][parts] = rest.to_string();
        }
        parts += 1;
    }
    if parts != 4 {
        return Err(format!(
            "{shown}: error: it ends within a block; expected {}",
            WORDS[parts]
        ));
    }
    Ok(found)
}

const WORDS: [&str; 4] = ["function:", "old:", "new:", "why:"];
const EMPTY: Equal = Equal {
    line: 0,
    function: String::new(),
    old: String::new(),
    new: String::new(),
    why: String::new(),
};

pub fn reason<'a>(equals: &'a [Equal], all: &Sources, mutant: &Mutant) -> Option<&'a Equal> {
    let name = &all.functions[mutant.function].name;
    equals
        .iter()
        .find(|e| e.function == *name && e.old == mutant.before && e.new == mutant.after)
}
