//! What was answered for one request is counted, and reported where it is not as it must be.

use crate::format::Format;
use crate::kinds::{Case, compares_status, in_status, in_values};
use crate::lines::write_request;
use crate::places::places_met;
use crate::plain;
use crate::request::{Answer, Beside, Request};
use crate::run::operation_of;
use crate::table::{OTHER, Row};
use crate::tally::{PRINTED, Tally};

/// What was answered for one request.
pub struct Sides {
    pub ours: Answer,
    /// What our call for the value alone gave, where there is one.
    pub alone: Option<u64>,
    /// What the side beside ours gave, where there is one.
    pub crates: Option<Answer>,
    /// The plain program's answer, where that judges.
    pub exact: Option<Answer>,
}

pub fn settle(row: &Row, request: &Request, sides: &Sides, tally: &mut Tally) {
    match row.beside {
        Beside::Refusal => *tally.refusals.entry(sides.ours.number).or_default() += 1,
        Beside::RefusalAndFlags => {
            *tally.refusals.entry(sides.ours.refused.into()).or_default() += 1
        }
        _ => {}
    }
    if let Some(exact) = sides.exact {
        settle_ours(row, request, sides, &exact, tally);
        if let (Some(crates), Some(other)) = (&sides.crates, row.crates) {
            settle_other(row, request, crates, &exact, other.who, tally);
        }
        let places = places_met(tally.operation, request, &exact);
        places.into_iter().flatten().for_each(|place| tally.places[place] += 1);
    } else if let Some(crates) = sides.crates {
        if !same(row, tally.operation.format, &sides.ours, &crates) {
            let texts = [&sides.ours, &crates].map(|one| text_of(row, one));
            report(row, request, &texts[0], OTHER, &texts[1], tally);
        }
    }
}

/// Ours beside the judge's, and its value beside that of the call for the value alone.
fn settle_ours(row: &Row, request: &Request, sides: &Sides, exact: &Answer, tally: &mut Tally) {
    let (ours, alone) = (&sides.ours, sides.alone.unwrap_or(sides.ours.word));
    if ours != exact {
        report(row, request, &text_of(row, ours), "the judge", &text_of(row, exact), tally);
    } else if ours.word != alone {
        let alone = Answer::value(alone).text(tally.operation, Beside::Nothing);
        report(row, request, &text_of(row, ours), "the call for the value alone", &alone, tally);
    }
}

/// The other side beside the judge's: its value, and its status where that is compared.
fn settle_other(
    row: &Row,
    request: &Request,
    crates: &Answer,
    exact: &Answer,
    who: &str,
    tally: &mut Tally,
) {
    let in_values = || in_values(&tally.known, request);
    let (mut explained, mut is_explained) = ([None, None], true);
    if !same(row, tally.operation.format, exact, crates) {
        // A judge that errs explains nothing.
        explained[0] = in_values().filter(|_| *exact == plain::exact(tally.operation, request));
        is_explained = explained[0].is_some();
    }
    // A status counts beside a value that is right, or whose difference is known.
    if is_explained && compares_status(row) {
        let case = Case { operation: tally.operation, request, exact };
        let (says, kind) = in_status(&tally.known, &case);
        // What libm has lost it takes for nothing.
        let lost = || in_values().filter(|_| crates.number == 0);
        explained[1] = if crates.number == says { kind } else { lost() };
        is_explained = crates.number == says || explained[1].is_some();
    }
    if is_explained {
        explained[1] = explained[1].filter(|_| explained[0] != explained[1]);
        explained.into_iter().flatten().for_each(|place| tally.explained[place] += 1);
        return;
    }
    let crates = crates.text(tally.operation, beside_others(row));
    report(row, request, &text_of(row, exact), who, &crates, tally);
}

/// What is compared beside the other side's value.
fn beside_others(row: &Row) -> Beside {
    match row.beside {
        beside if !beside.has_flags() => beside,
        _ if compares_status(row) => Beside::Flags,
        _ => Beside::Nothing,
    }
}

fn text_of(row: &Row, answer: &Answer) -> String {
    answer.text(operation_of(row), row.beside)
}

/// Whether ours has the value of the other side's answer. Flags are no part of it.
pub fn same(row: &Row, format: Format, ours: &Answer, crates: &Answer) -> bool {
    let wanted = row.wanted(format, crates);
    ours.word == wanted.word && (row.beside.has_flags() || ours.number == wanted.number)
}

/// `right` is taken for right, and `who` gives another answer.
fn report(
    row: &Row,
    request: &Request,
    right: &str,
    who: &str,
    other: &str,
    tally: &mut Tally,
) {
    tally.unexplained += 1;
    if tally.unexplained > PRINTED {
        return;
    }
    let operation = tally.operation;
    let exact = text_of(row, &plain::exact(operation, request));
    let request = write_request(operation, &request.fields(operation));
    println!("difference: {request} -> {right}; {who} gives {other}; exact: {exact}");
}
