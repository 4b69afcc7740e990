//! What a run leaves behind: lines with libm's answers, and a record of each operation's run for the tables at the end.

use crate::kinds::{in_values, known_of};
use crate::lines::write_request;
use crate::plain::exact;
use crate::request::{Answer, Beside};
use crate::run::{Run, operation_of};
use crate::stream::requests;
use crate::table::{OTHER, Row};
use crate::tally::Tally;
use std::collections::{BTreeMap, HashSet};
use std::io::Write;

/// `count` different requests, with libm's values, or the plain program's where libm's own text is not given or it has no
/// such operation, and the plain program's flags. Where any two NaNs are equal the canonical one is written, and operands on
/// which libm's value is known to differ are left out, so that what is written is what ours must answer.
pub fn print_lines(row: &Row, seed: u64, count: u64) {
    let operation = operation_of(row);
    let known = known_of(row);
    let mut seen = HashSet::new();
    for (_, request) in requests(row, seed, count) {
        if seen.len() as u64 == count {
            break;
        }
        let crates = row.crates.filter(|other| other.who == OTHER).map(|libm| (libm.answer)(&request));
        let answer = match crates {
            None => exact(operation, &request),
            Some(_) if in_values(&known, &request).is_some() => continue,
            Some(crates) => {
                let wanted = row.wanted(operation.format, &crates);
                match row.beside {
                    Beside::Flags => Answer { word: wanted.word, ..exact(operation, &request) },
                    _ => wanted,
                }
            }
        };
        let text = write_request(operation, &request.fields(operation));
        if seen.insert(text.clone()) {
            println!("{text} -> {}", answer.text(operation, row.beside));
        }
    }
}

/// One operation's run by one build. The builds of one command are programs of their own, and share a file of these.
#[derive(Clone, Debug, Default, PartialEq, Eq)]
pub struct Record {
    pub operation: String,
    pub operands: String,
    pub seed: String,
    pub on: String,
    pub build: String,
    pub unexplained: u64,
    pub panics: u64,
    /// How many differences each entry of docs/DIFFERENCES.md explains.
    pub explained: BTreeMap<String, u64>,
    /// How many operands there were in each place where flags are decided.
    pub places: BTreeMap<String, u64>,
    /// The known differences, and the places, that should have been met and were not.
    pub unmet: Vec<String>,
    /// What stands beside the value, and whether it is compared; and what becomes of NaNs.
    pub beside: String,
    pub nans: String,
}

impl Record {
    pub fn of(run: &Run, tally: &Tally) -> Record {
        Record {
            operation: tally.operation.name.to_string(),
            operands: match tally.calls {
                Some(calls) => format!("{} in {calls} calls", tally.operands),
                None => tally.operands.clone(),
            },
            seed: tally.seed.clone(),
            on: run.on.clone(),
            build: run.build.clone(),
            unexplained: tally.unexplained,
            panics: tally.panics,
            explained: tally.explained_by().map(|(entry, n)| (entry.to_string(), n)).collect(),
            places: tally.counted_places().map(|(place, n)| (place.to_string(), n)).collect(),
            unmet: tally.unmet.iter().map(|entry| entry.to_string()).collect(),
            beside: tally.beside.to_string(),
            nans: tally.nans.to_string(),
        }
    }

    /// Fields that no tab stands in, with tabs between them. After the fixed ones each begins with what it is of.
    fn line(&self) -> String {
        let [unexplained, panics] = [self.unexplained, self.panics].map(|count| count.to_string());
        let words = [&self.operation, &self.operands, &self.seed, &self.on, &self.build];
        let fixed = [&unexplained, &panics, &self.beside, &self.nans];
        let counted = |of: &'static str, counts: &BTreeMap<String, u64>| {
            counts.iter().map(|(name, count)| format!("{of} {count} {name}")).collect::<Vec<_>>()
        };
        let unmet = self.unmet.iter().map(|name| format!("unmet {name}")).collect();
        let rest = [counted("explained", &self.explained), counted("place", &self.places), unmet];
        let fields = words.into_iter().chain(fixed).cloned();
        fields.chain(rest.concat()).collect::<Vec<String>>().join("\t")
    }

    fn read(line: &str) -> Option<Record> {
        let fields: Vec<&str> = line.split('\t').collect();
        let (fixed, rest) = fields.split_at_checked(9)?;
        let [operation, operands, seed, on, build, _, _, beside, nans] =
            std::array::from_fn(|place| fixed[place].to_string());
        let mut record = Record { operation, operands, seed, on, build, ..Record::default() };
        (record.unexplained, record.panics) = (fixed[5].parse().ok()?, fixed[6].parse().ok()?);
        (record.beside, record.nans) = (beside, nans);
        for field in rest {
            let (of, name) = field.split_once(' ')?;
            let counts = match of {
                "unmet" => {
                    record.unmet.push(name.to_string());
                    continue;
                }
                "explained" => &mut record.explained,
                "place" => &mut record.places,
                _ => return None,
            };
            let (count, name) = name.split_once(' ')?;
            counts.insert(name.to_string(), count.parse().ok()?);
        }
        Some(record)
    }
}

pub fn append(path: &str, run: &Run, tallies: &[Tally]) -> Result<(), String> {
    let unwritten = |error: std::io::Error| format!("cannot write {path}: {error}");
    let mut file =
        std::fs::OpenOptions::new().append(true).create(true).open(path).map_err(unwritten)?;
    for tally in tallies {
        writeln!(file, "{}", Record::of(run, tally).line()).map_err(unwritten)?;
    }
    Ok(())
}

pub fn read(path: &str) -> Result<Vec<Record>, String> {
    let text =
        std::fs::read_to_string(path).map_err(|error| format!("cannot read {path}: {error}"))?;
    let record = |line| Record::read(line).ok_or_else(|| format!("{path} has no record '{line}'"));
    text.lines().map(record).collect()
}

#[cfg(test)]
mod tests {
    use super::*;

    #[test]
    fn a_record_is_read_as_it_was_written() {
        let mut record = Record {
            operation: "fma64".to_string(),
            operands: "all 4294967296".to_string(),
            unexplained: 3,
            panics: 1,
            ..Record::default()
        };
        assert_eq!(Record::read(&record.line()), Some(record.clone()));
        record.explained = BTreeMap::from([("one".to_string(), 12), ("two".to_string(), 1)]);
        record.places = BTreeMap::from([("x a quiet NaN".to_string(), 7)]);
        record.unmet = vec!["three".to_string(), "a place of words".to_string()];
        record.nans = "bit for bit".to_string();
        assert_eq!(Record::read(&record.line()), Some(record));
        assert_eq!(Record::read("fma64\t100"), None);
    }
}
