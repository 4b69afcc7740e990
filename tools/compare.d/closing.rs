//! The tables at the end of a command, made of the records of its builds: an operation a row, and a run a row; then the
//! entries that explained something, and the places that were met, with an operation a column. Under attributes each
//! operation has tables of its own, with an attribute a column, and so has each reader of numerals.

use crate::attribute_numbers::NUMBERS;
use crate::closing_numerals::{is_of_numerals, of_numerals};
use crate::forms::forms;
use crate::operations::{self, Form};
use crate::places::{places_of_values, places_with_flags};
use crate::record::Record;
use crate::rounded_places::{BELOW_ZERO, names_of_answers, names_of_places};
use std::collections::{BTreeMap, BTreeSet};

const HEADS: [&str; 7] = [
    "operation",
    "release",
    "overflow checks",
    "explained",
    "not explained",
    "beside the value",
    "NaNs",
];
/// The columns of figures, which stand to the right.
const FIGURES: [usize; 4] = [1, 2, 3, 4];

/// All of them, for a reader of plain text. A table that would have no row is left out.
pub fn plain(records: &[Record]) -> String {
    let names = operations(records);
    let mut lines = vec![HEADS.map(String::from).to_vec()];
    for name in &names {
        lines.push(cells(records.iter().filter(|record| record.operation == *name)));
    }
    let entries: BTreeSet<&str> =
        records.iter().flat_map(|run| run.explained.keys().map(String::as_str)).collect();
    let entries: Vec<&str> = entries.into_iter().collect();
    let whole: Vec<Column> = names.iter().map(|name| (*name, *name)).collect();
    let mut text = table(&lines, |column| FIGURES.contains(&column));
    text += &by_name("explained, by entry of docs/DIFFERENCES.md", &entries, &whole, records, |run| {
        &run.explained
    });
    let (flagged, others) = by_flags(&whole);
    text += &places("operands, by where the exact answer lies", &places_with_flags(), &flagged, records);
    text += &places("operands of what has no flags, by where they lie", &places_of_values(), &others, records);
    text + &under_attributes(&names, records) + &of_numerals(&names, records)
}

/// Two tables for each operation, and one for numbers.
fn under_attributes(names: &[&str], records: &[Record]) -> String {
    let mut text = String::new();
    let parts = names.iter().filter_map(|name| Some((*name, name.split_once('.')?)));
    let parts = parts.filter(|(_, (stem, word))| !is_of_numerals(stem) || *word == "NUMBER");
    let is_numbered = |name: &str| forms().iter().any(|form| form.name == name && form.form == Form::Numbered);
    let (numbers, attributes): (Vec<_>, Vec<_>) = parts.partition(|(name, _)| is_numbered(name));
    for of_one in attributes.chunk_by(|(_, one), (_, other)| one.0 == other.0) {
        let columns: Vec<Column> = of_one.iter().map(|(name, (_, word))| (*word, *name)).collect();
        let head = |what: &str| format!("{}: {what}, above zero/below", of_one[0].1.0);
        text += &places(&head("where the exact value lies"), &names_of_places(), &columns, records);
        text += &places(&head("what was answered"), names_of_answers(), &columns, records);
    }
    let columns: Vec<Column> = numbers.iter().map(|(name, (stem, _))| (*stem, *name)).collect();
    text + &places("numbers for an attribute", NUMBERS, &columns, records)
}

/// What stands above a column, and the operation whose counts it has.
pub type Column<'a> = (&'a str, &'a str);

/// The operations without an attribute: those with flags, and the others.
fn by_flags<'a>(columns: &[Column<'a>]) -> (Vec<Column<'a>>, Vec<Column<'a>>) {
    let tells_flags = |name: &str| operations::find(name).is_some_and(|one| one.tells_flags());
    let plain = columns.iter().filter(|(_, name)| !name.contains('.') && !is_of_numerals(name)).copied();
    plain.partition(|(_, name)| tells_flags(name))
}

pub fn places(head: &str, names: &[&str], columns: &[Column], records: &[Record]) -> String {
    by_name(head, names, columns, records, |run| &run.places)
}

/// The operations, each once, in the order of the run.
fn operations(records: &[Record]) -> Vec<&str> {
    let mut names: Vec<&str> = Vec::new();
    for record in records {
        if !names.contains(&record.operation.as_str()) {
            names.push(&record.operation);
        }
    }
    names
}

/// A row for each name, and those of the columns that have counts: both builds' together. What has counts below zero too has
/// both in one cell.
fn by_name(
    head: &str,
    names: &[&str],
    columns: &[Column],
    records: &[Record],
    counts: fn(&Record) -> &BTreeMap<String, u64>,
) -> String {
    let has_counts = |name: &str| records.iter().any(|run| run.operation == name && !counts(run).is_empty());
    let columns: Vec<&Column> = columns.iter().filter(|(_, name)| has_counts(name)).collect();
    if columns.is_empty() {
        return String::new();
    }
    let heads = [head].into_iter().chain(columns.iter().map(|(title, _)| *title));
    let mut lines: Vec<Vec<String>> = vec![heads.map(String::from).collect()];
    for name in names {
        let count = |column: &Column, name: &str| {
            let runs = records.iter().filter(|run| run.operation == column.1);
            let found: Vec<u64> = runs.filter_map(|run| counts(run).get(name)).copied().collect();
            if found.is_empty() { "-".to_string() } else { found.iter().sum::<u64>().to_string() }
        };
        let below = format!("{name}{BELOW_ZERO}");
        let is_signed = columns.iter().any(|column| count(column, &below) != "-");
        let cell = |column: &&Column| match is_signed {
            true => format!("{}/{}", count(column, name), count(column, &below)),
            false => count(column, name),
        };
        let line: Vec<String> = [name.to_string()].into_iter().chain(columns.iter().map(cell)).collect();
        let has_count = line[1..].iter().any(|cell| cell.contains(|one: char| one.is_ascii_digit()));
        lines.extend(has_count.then_some(line));
    }
    format!("\n{}", table(&lines, |column| column > 0))
}

fn cells<'a>(runs: impl Iterator<Item = &'a Record> + Clone) -> Vec<String> {
    let operands = |build: &str| {
        let of_build = runs.clone().find(|run| run.build == build);
        of_build.map_or("-".to_string(), |run| run.operands.clone())
    };
    let explained: u64 = runs.clone().flat_map(|run| run.explained.values()).sum();
    let first = runs.clone().next().expect("an operation is named by a run of it");
    vec![
        first.operation.clone(),
        operands("release"),
        operands("overflow checks"),
        explained.to_string(),
        found(runs),
        first.beside.clone(),
        first.nans.clone(),
    ]
}

fn counts(explained: &BTreeMap<String, u64>) -> String {
    let texts: Vec<String> =
        explained.iter().map(|(entry, count)| format!("{count} {entry}")).collect();
    if texts.is_empty() { "none".to_string() } else { texts.join(", ") }
}

/// Differences, and whatever else makes a run fail.
fn found<'a>(runs: impl Iterator<Item = &'a Record> + Clone) -> String {
    let mut text = runs.clone().map(|run| run.unexplained).sum::<u64>().to_string();
    let panics = runs.clone().map(|run| run.panics).sum::<u64>();
    if panics > 0 {
        text += &format!(", {panics} panics");
    }
    for entry in runs.flat_map(|run| &run.unmet).collect::<BTreeSet<_>>() {
        text += &format!(", {entry} not met");
    }
    text
}

/// The lines in columns, a rule after the first; figures stand to the right.
fn table(lines: &[Vec<String>], is_figure: impl Fn(usize) -> bool) -> String {
    let width = |column: usize| lines.iter().map(|line| line[column].len()).max().unwrap_or(0);
    let widths: Vec<usize> = (0..lines[0].len()).map(width).collect();
    let rule: Vec<String> = widths.iter().map(|width| "-".repeat(*width)).collect();
    let cell = |(column, text): (usize, &String)| match is_figure(column) {
        true => format!("{text:>width$}", width = widths[column]),
        false => format!("{text:<width$}", width = widths[column]),
    };
    let aligned = |line: &Vec<String>| {
        let cells: Vec<String> = line.iter().enumerate().map(cell).collect();
        format!("{}\n", cells.join("  ").trim_end())
    };
    [&lines[0], &rule].into_iter().chain(&lines[1..]).map(aligned).collect()
}

/// One row a run, for docs/RUNS.md.
pub fn markdown(records: &[Record]) -> String {
    let mut text =
        "| operation | operands | seed | ours, and build | differences | explained, by kind |\n\
                    |---|---|---|---|---|---|\n"
            .to_string();
    for run in records {
        let Record { operation, operands, seed, on, build, .. } = run;
        let (found, explained) = (run.unexplained + run.panics, counts(&run.explained));
        text += &format!(
            "| {operation} | {operands} | {seed} | {on}, {build} | {found} | {explained} |\n"
        );
    }
    text
}

#[cfg(test)]
mod tests {
    use super::*;

    fn record(build: &str, unexplained: u64, explained: &[(&str, u64)]) -> Record {
        Record {
            operation: "fma64".to_string(),
            operands: if build == "release" { "1000" } else { "100" }.to_string(),
            build: build.to_string(),
            unexplained,
            explained: explained.iter().map(|(entry, n)| (entry.to_string(), *n)).collect(),
            nans: "equal".to_string(),
            ..Record::default()
        }
    }
    fn squeezed(table: &str) -> Vec<String> {
        let squeeze = |line: &str| line.split_whitespace().collect::<Vec<_>>().join(" ");
        table.lines().map(squeeze).collect()
    }
    fn row(records: &[Record]) -> String {
        squeezed(&plain(records))[2].clone()
    }

    #[test]
    fn both_builds_of_an_operation_are_one_row() {
        let builds = [
            record("release", 1, &[("one", 20), ("two", 3)]),
            record("overflow checks", 4, &[("one", 2)]),
        ];
        assert_eq!(row(&builds), "fma64 1000 100 25 5 equal");
        assert_eq!(row(&builds[..1]), "fma64 1000 - 23 1 equal");
        assert_eq!(row(&builds[1..]), "fma64 - 100 2 4 equal");
        let table = squeezed(&plain(&builds));
        assert_eq!(table.len(), 3 + 1 + 4);
        assert_eq!(table[4], "explained, by entry of docs/DIFFERENCES.md fma64");
        assert_eq!(table[6..], ["one 22", "two 3"]);
    }
    #[test]
    fn what_makes_a_run_fail_is_named() {
        let mut builds = [record("release", 0, &[]), record("overflow checks", 0, &[])];
        assert_eq!(row(&builds), "fma64 1000 100 0 0 equal");
        builds[1].panics = 2;
        builds[0].unmet = vec!["one".to_string()];
        builds[1].unmet = vec!["one".to_string()];
        assert_eq!(row(&builds), "fma64 1000 100 0 0, 2 panics, one not met equal");
    }
    #[test]
    fn operations_stand_in_the_order_of_the_run() {
        let mut other = record("release", 0, &[]);
        other.operation = "ceil64".to_string();
        let table = plain(&[record("release", 0, &[]), other, record("overflow checks", 0, &[])]);
        let firsts = table.lines().skip(2).filter_map(|line| line.split_whitespace().next());
        assert_eq!(firsts.collect::<Vec<_>>(), ["fma64", "ceil64"]);
    }
    #[test]
    fn a_place_is_counted_where_the_operation_has_it() {
        let mut runs = [record("release", 0, &[]), record("release", 0, &[])];
        runs[1].operation = "trunc64".to_string();
        let [x, y] = ["x a quiet NaN", "y a quiet NaN"].map(String::from);
        runs[0].places = BTreeMap::from([(x.clone(), 7), (y, 0)]);
        runs[1].places = BTreeMap::from([(x, 9)]);
        let table = squeezed(&plain(&runs));
        assert_eq!(table[5], "operands, by where the exact answer lies fma64 trunc64");
        assert_eq!(table[7..], ["x a quiet NaN 7 9", "y a quiet NaN 0 -"]);
    }
    #[test]
    fn under_attributes_each_operation_has_tables_of_its_own() {
        let names = ["fma64.up", "fma64.down", "sqrt32.up", "sqrt32.NUMBER"];
        let mut runs = names.map(|name| Record { operation: name.to_string(), ..record("release", 0, &[]) });
        let counts = |counts: &[(&str, u64)]| counts.iter().map(|(name, n)| (name.to_string(), *n)).collect();
        let half = "half of the least subnormal number";
        let below = format!("{half}{BELOW_ZERO}");
        runs[0].places = counts(&[(half, 3), (&below, 0), ("-0 of terms of unlike signs", 5)]);
        runs[1].places = counts(&[(&below, 4)]);
        runs[2].places = counts(&[("a quiet NaN", 6)]);
        runs[3].places = counts(&[("5", 7)]);
        let table = squeezed(&plain(&runs));
        let at = |head: &str| table.iter().position(|line| line == head).unwrap_or_else(|| panic!("{head}: {table:?}"));
        let lies = at("fma64: where the exact value lies, above zero/below up down");
        assert_eq!(table[lies + 2..lies + 4], ["half of the least subnormal number 3/0 -/4", ""]);
        let made = at("fma64: what was answered, above zero/below up down");
        assert_eq!(table[made + 2], "-0 of terms of unlike signs 5 -");
        assert_eq!(table[at("sqrt32: where the exact value lies, above zero/below up") + 2], "a quiet NaN 6");
        assert_eq!(table[at("numbers for an attribute sqrt32") + 2..], ["5 7"]);
        assert!(!table.iter().any(|line| line.starts_with("operands, by where")));
    }
}
