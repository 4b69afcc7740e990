//! The rows as tables of Markdown, and what is to be known of the answers.

use crate::run::{Pair, RoundedRow, Row, Run, ATTRIBUTES};

/// The columns of words, which stand to the left; figures stand to the right.
const WORDS: usize = 3;

pub fn text(run: &Run) -> String {
    let mut text = table(&heads("libm"), run.rows.iter().map(cells));
    let mut add = |is_there: bool, head: &str, table: String| text += &if is_there { format!("\n{head}:\n\n{table}") } else { String::new() };
    let rounded = table(&rounded_heads("flags"), run.rounded.iter().map(rounded_cells));
    add(!run.rounded.is_empty(), "Under each attribute, beside our own calls without one; leasts", rounded);
    let numerals = table(&heads("C"), run.numerals.iter().map(cells));
    add(!run.numerals.is_empty(), "Numerals, beside the C library", numerals);
    let rounded = table(&rounded_heads("C"), run.rounded_numerals.iter().map(rounded_cells));
    add(!run.rounded_numerals.is_empty(), "Numerals read under each attribute, beside our own call without one and the C library's; leasts", rounded);
    text += &match run.differences.as_slice() {
        [] => "\nBoth sides answer alike on all these operands".to_string(),
        some => format!("\n**The two sides do not answer alike**: {}", some.join("; ")),
    };
    let has_flags = run.rows.iter().any(|row| row.operation.ends_with("_flags"));
    text + if has_flags { "; flags and libm's statuses are not compared here.\n" } else { ".\n" }
}

fn heads(other: &str) -> Vec<String> {
    let sides = ["ours", other].map(|side| [format!("{side}, least"), format!("{side}, median")]);
    let words = ["operation", "operands", "calls"].map(String::from).into_iter();
    words.chain(sides.into_iter().flatten()).chain(["ratio of leasts", "ratio of medians"].map(String::from)).collect()
}

/// Under attributes, leasts alone.
fn rounded_heads(other: &str) -> Vec<String> {
    let before = ["operation", "operands", "calls", "plain", other].map(String::from).into_iter();
    let after = ["plain", other].map(|side| format!("greatest / {side}"));
    before.chain(ATTRIBUTES.map(String::from)).chain(after).collect()
}

fn figure(number: f64) -> String {
    format!("{number:.2}")
}

fn cells(row: &Row) -> Vec<String> {
    let (ours, theirs) = (&row.ours, &row.theirs);
    vec![
        row.operation.to_string(),
        row.set.to_string(),
        row.calls.to_string(),
        figure(ours.least),
        figure(ours.median),
        figure(theirs.least),
        figure(theirs.median),
        row.ratio_text(),
        figure(ours.median / theirs.median),
    ]
}

fn rounded_cells(row: &RoundedRow) -> Vec<String> {
    let pairs = [&row.beside_plain, &row.beside_other];
    let least = |pairs: &[Pair; ATTRIBUTES.len()]| pairs.iter().map(|pair| pair.without).fold(f64::INFINITY, f64::min);
    let greatest = |pairs: &[Pair; ATTRIBUTES.len()]| pairs.iter().map(|pair| pair.under / pair.without).fold(0.0, f64::max);
    let words = [row.operation, row.set, row.calls].map(String::from).into_iter();
    let under = row.beside_plain.iter().map(|pair| figure(pair.under));
    words.chain(pairs.map(least).map(figure)).chain(under).chain(pairs.map(greatest).map(figure)).collect()
}

fn table(heads: &[String], rows: impl Iterator<Item = Vec<String>>) -> String {
    let rules = (0..heads.len()).map(|column| if column < WORDS { "---" } else { "---:" }.to_string()).collect();
    let lines: Vec<Vec<String>> = [heads.to_vec(), rules].into_iter().chain(rows).collect();
    let width = |column: usize| lines.iter().map(|line| line[column].len()).max().unwrap_or(0);
    let widths: Vec<usize> = (0..heads.len()).map(width).collect();
    let cell = |(column, text): (usize, &String)| match column < WORDS {
        true => format!("{text:<width$}", width = widths[column]),
        false => format!("{text:>width$}", width = widths[column]),
    };
    let line = |cells: &Vec<String>| format!("| {} |\n", cells.iter().enumerate().map(cell).collect::<Vec<_>>().join(" | "));
    lines.iter().map(line).collect()
}
