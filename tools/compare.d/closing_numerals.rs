//! The tables of numerals at the end of a command: as those of `closing`.

use crate::closing::{Column, places};
use crate::operations::{self, Task};
use crate::pattern_places;
use crate::record::Record;
use crate::text_places;
use std::collections::BTreeSet;

pub fn is_of_numerals(stem: &str) -> bool {
    operations::find(stem).is_some_and(|one| one.is_of_numerals())
}

/// Three tables for each reader, an attribute a column, and one for the writers.
pub fn of_numerals(names: &[&str], records: &[Record]) -> String {
    let stem = |name: &str| name.split_once('.').map_or(name.to_string(), |(stem, _)| stem.to_string());
    let is_writer = |name: &str| operations::find(name).is_some_and(|one| one.task == Task::Write);
    let numerals = names.iter().copied().filter(|name| is_of_numerals(&stem(name)) && !name.ends_with(".NUMBER"));
    let (writers, readers): (Vec<&str>, Vec<&str>) = numerals.partition(|name| is_writer(name));
    let mut text = String::new();
    for one in readers.iter().map(|name| stem(name)).collect::<BTreeSet<_>>() {
        let of_one = readers.iter().filter(|name| stem(name) == one);
        let columns: Vec<Column> = of_one.map(|name| (name.split_once('.').map_or("plain", |(_, word)| word), *name)).collect();
        text += &places(&format!("{one}: texts"), &text_places::names_of_texts(), &columns, records);
        let head = |what: &str| format!("{one}: {what}, above zero/below");
        text += &places(&head("where the exact value lies"), &text_places::names_of_values(), &columns, records);
        text += &places(&head("what was answered"), text_places::names_of_answers(), &columns, records);
    }
    let columns: Vec<Column> = writers.iter().map(|name| (*name, *name)).collect();
    text + &places("patterns, and their texts", pattern_places::names(), &columns, records)
}
