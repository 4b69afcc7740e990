//! Each numeral read or written wrongly in a run of its own, which must find it, and the exact answers, in which a run finds
//! nothing. The calls answer by the plain program, with the one fault that stands here.

use crate::attributes::Attribute;
use crate::format::{Format, WIDTH_32, WIDTH_64};
use crate::numeral_calls::{Calls, Numeral, numerals};
use crate::operations::Form;
use crate::plain;
use crate::request::Answer;
use crate::run::{Run, Spoiled};
use crate::tally::Tally;
use crate::wrong_reads::{self, Reading, WrongRead};
use crate::wrong_writes::{self, WrongWrite, Writing};
use crate::{reading, writing};
use std::cell::Cell;

thread_local! {
    static READ: Cell<Option<&'static WrongRead>> = const { Cell::new(None) };
    static WRITE: Cell<Option<&'static WrongWrite>> = const { Cell::new(None) };
}

fn rounded(format: Format, number: u32, text: &[u8]) -> Answer {
    let attribute = Attribute::of_number(number);
    let (refusal, value) = attribute.map_or((10, 0), |attribute| plain::read(format, attribute, text));
    let mut answer = Answer::refusal(refusal, value);
    if let Some(fault) = READ.get() {
        (fault.spoil)(&Reading { format, number, text }, &mut answer);
    }
    answer
}
fn written(format: Format, x: u64, out: &mut [u8]) -> Answer {
    let text = String::from_utf8(plain::text_of(format, x)).unwrap();
    let writing = Writing { format, x, room: out };
    let mut answer = writing.of(&text);
    if let Some(fault) = WRITE.get() {
        (fault.spoil)(&writing, &text, &mut answer);
    }
    out.copy_from_slice(&answer.output);
    Answer::refusal(answer.refused, answer.length.into())
}

const CALLS_64: Calls = Calls {
    read: |text| rounded(WIDTH_64, 0, text),
    rounded: |number, text| rounded(WIDTH_64, number, text),
    write: |x, out| written(WIDTH_64, x, out),
    libms: oracle::api::read64,
};
const CALLS_32: Calls = Calls {
    read: |text| rounded(WIDTH_32, 0, text),
    rounded: |number, text| rounded(WIDTH_32, number, text),
    write: |x, out| written(WIDTH_32, x, out),
    libms: |number, text| oracle::api::read32(number, text).map(u64::from),
};

/// Ours by the plain program.
fn by_the_plain_program(width: u32) -> impl Iterator<Item = Numeral> {
    let of_width = numerals().iter().filter(move |one| one.operation.format.width == width);
    of_width.map(move |one| Numeral { calls: if width == 64 { CALLS_64 } else { CALLS_32 }, ..*one })
}

fn drawn(numeral: &Numeral, spoiled: Spoiled, count: u64) -> Tally {
    let run = Run { seed: 1, on: String::new(), build: String::new(), spoiled };
    if numeral.is_writer() { writing::drawn(&run, numeral, count) } else { reading::drawn(&run, numeral, count) }
}

/// Whether a run of one of the names finds something.
fn is_found(width: u32, is_writer: bool) -> bool {
    let mut all = by_the_plain_program(width).filter(|one| one.is_writer() == is_writer);
    all.any(|numeral| drawn(&numeral, Spoiled::Nothing, 3000).unexplained > 0)
}
/// The same where texts are read wrongly, and where patterns are written wrongly.
fn is_found_with(read: &'static WrongRead, width: u32, is_writer: bool) -> bool {
    READ.set(Some(read));
    let is_found = is_found(width, is_writer);
    READ.set(None);
    is_found
}
fn is_found_written(write: &'static WrongWrite, width: u32) -> bool {
    WRITE.set(Some(write));
    let is_found = is_found(width, true);
    WRITE.set(None);
    is_found
}

#[test]
fn each_text_that_is_read_wrongly_is_found() {
    for fault in &wrong_reads::WRONG {
        for width in [64, 32] {
            assert!(is_found_with(fault, width, false), "{width}: {}", fault.name);
        }
    }
}
#[test]
fn each_pattern_that_is_written_wrongly_is_found() {
    for fault in &wrong_writes::WRONG {
        let is_of_64 = fault.name != "digits-not-from-the-left";
        let is_of_32 = fault.name != "last-digit-rounded";
        assert_eq!([64, 32].map(|width| is_found_written(fault, width)), [is_of_64, is_of_32], "{}", fault.name);
    }
}
#[test]
fn a_reader_that_errs_is_found_by_what_is_written() {
    let fault = |name| wrong_reads::WRONG.iter().find(|one| one.name == name).expect("a fault of the list");
    for name in ["weight-of-the-point-lost", "zero-loses-its-sign", "nan-of-another-pattern"] {
        assert!(is_found_with(fault(name), 64, true), "{name}");
    }
    // No writer has an exponent of five digits.
    assert!(!is_found_with(fault("exponent-of-four-digits"), 64, true));
}
#[test]
fn nothing_is_found_in_the_exact_answers_and_every_place_is_met() {
    for numeral in [64, 32].into_iter().flat_map(by_the_plain_program) {
        let tally = drawn(&numeral, Spoiled::Nothing, 20_000);
        assert!(tally.is_clean(), "{}: {:?}", numeral.operation.name, tally.unmet);
        assert!(tally.kinds.iter().all(|count| *count > 0));
    }
}
/// How many of three spoiled texts are found. libm's reader is a side of those in the grammar, where it has the attribute.
fn found_of_three(numeral: &Numeral, spoiled: Spoiled) -> std::ops::RangeInclusive<u64> {
    match numeral.operation.form {
        _ if spoiled != Spoiled::Crate || numeral.is_writer() || numeral.beside().is_some() => 3..=3,
        Form::Attribute(Attribute::Away) => 0..=0,
        Form::Numbered => 0..=3,
        _ => 1..=3,
    }
}
#[test]
fn a_spoiled_side_is_seen() {
    for spoiled in [Spoiled::Ours, Spoiled::Number, Spoiled::Refusal, Spoiled::Judge, Spoiled::Crate] {
        for numeral in by_the_plain_program(64) {
            let found = drawn(&numeral, spoiled, 3000).unexplained;
            assert!(found_of_three(&numeral, spoiled).contains(&found), "{}: {spoiled:?}, {found}", numeral.operation.name);
        }
    }
}
