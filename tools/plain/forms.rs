// The names that stand with an attribute, as sqrt64.up and fma16.3; all whose answer has flags, and all of numerals.

use crate::attributes::ATTRIBUTES;
use crate::format::{Format, WIDTH_16, WIDTH_32, WIDTH_64};
use crate::operations::{find, Form, Operation, Task, OPERATIONS, READ_SHAPE};
use std::sync::OnceLock;

/// What stands after the point where the attribute is written as a number.
const NUMBER: &str = "NUMBER";

const ROUNDED: [(&str, Task, &str); 4] = [
    ("sqrt", Task::Sqrt, "X -> NUMBER R FLAGS"),
    ("fma", Task::Fma, "X Y Z -> NUMBER R FLAGS"),
    ("scalbn", Task::Scalbn, "X N -> NUMBER R FLAGS"),
    ("read", Task::Read, READ_SHAPE),
];

/// Every operation that rounds with every attribute, at each width.
pub fn forms() -> &'static [Operation] {
    static FORMS: OnceLock<Vec<Operation>> = OnceLock::new();
    FORMS.get_or_init(|| {
        let mut all = Vec::new();
        for format in [WIDTH_64, WIDTH_32, WIDTH_16] {
            for (name, task, shape) in ROUNDED {
                for (attribute, word) in ATTRIBUTES {
                    all.push(entry(name, task, format, Form::Attribute(attribute), word, shape));
                }
                all.push(entry(name, task, format, Form::Numbered, NUMBER, shape));
            }
        }
        all
    })
}

fn entry(
    stem: &str,
    task: Task,
    format: Format,
    form: Form,
    word: &str,
    shape: &'static str,
) -> Operation {
    // The table lasts as long as the program, and so may its names.
    let name = String::leak(format!("{stem}{}.{word}", format.width));
    Operation { name, task, format, form, shape }
}

/// Every name whose answer has flags: without an attribute, then with one, and
/// ceil last. A name's draws go by where it stands: what is recorded of the
/// others stays.
pub fn flagged() -> impl Iterator<Item = &'static Operation> {
    let plain = OPERATIONS.iter().filter(|one| one.tells_flags());
    let (ceil, others): (Vec<_>, Vec<_>) = plain.partition(|one| one.task == Task::Ceil);
    let rounded = forms().iter().filter(|one| one.tells_flags());
    others.into_iter().chain(rounded).chain(ceil)
}

/// Every name that reads or writes a text, by width: the reader without an
/// attribute and with one, then the writer.
pub fn of_numerals() -> impl Iterator<Item = &'static Operation> {
    [WIDTH_64, WIDTH_32, WIDTH_16].into_iter().flat_map(|format| {
        let of = move |one: &&Operation| one.is_of_numerals() && one.format == format;
        let (readers, writers): (Vec<_>, Vec<_>) =
            OPERATIONS.iter().filter(of).partition(|one| one.task == Task::Read);
        readers.into_iter().chain(forms().iter().filter(of)).chain(writers)
    })
}

impl Operation {
    /// The name up to the point, where it has one.
    pub fn stem(&self) -> &'static str {
        self.name.split_once('.').map_or(self.name, |(stem, _)| stem)
    }
}

/// The forms that stand after this name and a point.
pub fn of_stem(stem: &str) -> impl Iterator<Item = &'static Operation> + '_ {
    forms().iter().filter(move |form| form.stem() == stem)
}

/// The operation of a name, and the attribute where that is a number.
pub fn find_form(name: &str) -> Option<(&'static Operation, Option<u32>)> {
    let (stem, word) = name.split_once('.')?;
    if let Some(form) = forms().iter().find(|form| form.name == name && word != NUMBER) {
        return Some((form, None));
    }
    let number: u32 = word.parse().ok()?;
    let form = of_stem(stem).find(|form| form.form == Form::Numbered)?;
    // Writing the number back shows whether it was written the one way.
    (number.to_string() == word).then_some((form, Some(number)))
}

/// What is expected in the place of a name that is none.
pub fn expected_names(name: &str) -> String {
    let stem = name.split_once('.').map_or(name, |(stem, _)| stem);
    let names: Vec<&str> = of_stem(stem).map(|form| form.name).collect();
    let plain = find(stem).map(|operation| operation.name);
    match (plain, &names[..]) {
        (Some(plain), [words @ .., number]) => format!(
            "{plain} {}, or {number} with a decimal number from 0 to 4294967295 for NUMBER",
            words.join(" ")
        ),
        (Some(plain), []) => format!("{plain} alone, which takes no attribute"),
        (None, _) => {
            let names: Vec<&str> = OPERATIONS.iter().map(|one| one.name).collect();
            let names = names.join(" ");
            format!("{names}, or sqrt, fma, scalbn or read with an attribute as sqrt16.up")
        }
    }
}
