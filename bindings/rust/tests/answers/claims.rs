//! The repository's lines of known answers, as docs/LINES.md has them.

use std::path::PathBuf;
use std::process::Command;

/// A request and the answer that it must get.
#[derive(Clone)]
pub struct Claim {
    pub line: String,
    pub operation: String,
    /// The number of the attribute, or of none, that the operation is to round under.
    pub attribute: Option<u32>,
    pub operands: Operands,
    pub answer: String,
}

/// The attributes by their names in lines, each in the place of its number.
pub const ATTRIBUTES: [&str; 5] = ["even", "zero", "down", "up", "away"];

impl Claim {
    fn of_line(line: &str) -> Self {
        let (request, answer) = line.split_once(" -> ").expect("a claim");
        let (name, rest) = request.split_once(' ').expect("an operand");
        let (operation, attribute) = match name.split_once('.') {
            None => (name, None),
            Some((operation, attribute)) => (operation, Some(number_of(attribute))),
        };
        // A text may have blanks.
        let operands = if operation.starts_with("read") {
            vec![rest.to_string()]
        } else {
            rest.split(' ').map(str::to_string).collect()
        };
        Self {
            line: line.to_string(),
            operation: operation.to_string(),
            attribute,
            operands: Operands(operands),
            answer: answer.to_string(),
        }
    }

    /// What is asked to nearest even, asked without an attribute, and the other way round: the
    /// answer is the same but for the number before it, which the reader's always has.
    pub fn other_form(&self) -> Option<Self> {
        let (attribute, answer) = match self.attribute {
            Some(0) if self.is_of_numerals() => (None, self.answer.clone()),
            Some(0) => (None, self.answer.strip_prefix("0 ")?.to_string()),
            None if self.operation.starts_with("read") => (Some(0), self.answer.clone()),
            None if self.rounds() => (Some(0), format!("0 {}", self.answer)),
            _ => return None,
        };
        Some(Self {
            attribute,
            answer,
            ..self.clone()
        })
    }

    /// Whether it is about a text, read or written.
    pub fn is_of_numerals(&self) -> bool {
        self.operation.starts_with("read") || self.operation.starts_with("write")
    }

    fn rounds(&self) -> bool {
        ["sqrt", "fma", "scalbn"]
            .iter()
            .any(|name| self.operation.starts_with(name))
    }
}

/// The number of an attribute, which is written by its name or its number.
fn number_of(attribute: &str) -> u32 {
    match ATTRIBUTES.iter().position(|name| *name == attribute) {
        Some(number) => number as u32,
        None => attribute.parse().expect("an attribute"),
    }
}

/// The operands of a request, as they are written.
#[derive(Clone)]
pub struct Operands(Vec<String>);

impl Operands {
    pub fn word64(&self, place: usize) -> u64 {
        u64::from_str_radix(&self.0[place], 16).unwrap()
    }

    pub fn word32(&self, place: usize) -> u32 {
        u32::from_str_radix(&self.0[place], 16).unwrap()
    }

    pub fn signed(&self, place: usize) -> i32 {
        self.0[place].parse().unwrap()
    }

    pub fn unsigned(&self, place: usize) -> u32 {
        self.0[place].parse().unwrap()
    }

    pub fn room(&self, place: usize) -> usize {
        self.0[place].parse().unwrap()
    }

    pub fn text(&self, place: usize) -> Vec<u8> {
        self.0[place].chars().map(|byte| byte as u8).collect()
    }

    pub fn list(&self, place: usize) -> Vec<u64> {
        match self.0[place].as_str() {
            "-" => Vec::new(),
            words => words
                .split(',')
                .map(|word| u64::from_str_radix(word, 16).unwrap())
                .collect(),
        }
    }
}

/// A list as it is written.
pub fn list_text(places: &[u64]) -> String {
    if places.is_empty() {
        return "-".to_string();
    }
    let words: Vec<String> = places.iter().map(|word| format!("{word:016x}")).collect();
    words.join(",")
}

fn repository() -> PathBuf {
    PathBuf::from(env!("CARGO_MANIFEST_DIR")).join("../..")
}

/// The claims in lines of any bytes, each of which becomes a character of its own.
fn claims_in(bytes: &[u8]) -> Vec<Claim> {
    bytes
        .split(|byte| *byte == b'\n')
        .filter(|line| !line.is_empty() && line[0] != b'#')
        .map(|line| Claim::of_line(&line.iter().map(|byte| *byte as char).collect::<String>()))
        .collect()
}

/// The claims of a file of the repository.
pub fn of_file(name: &str) -> Vec<Claim> {
    let file = repository().join(name);
    let text = std::fs::read(&file).unwrap_or_else(|why| panic!("{}: {why}", file.display()));
    claims_in(&text)
}

/// The claims of a file of the repository that the functions answer: at widths 64 and 32.
pub fn of_our_widths(name: &str) -> Vec<Claim> {
    let mut claims = of_file(name);
    claims.retain(|claim| claim.operation.ends_with("64") || claim.operation.ends_with("32"));
    claims
}

/// The claims about the longest lists, which a script writes.
pub fn of_long_lists() -> Vec<Claim> {
    let script = repository().join("tests/long-lists");
    let written = Command::new("sh").arg(script).output().expect("sh runs");
    assert!(written.status.success(), "tests/long-lists failed");
    claims_in(&written.stdout)
}
