//! The operations that have no flags: as those in `rows_with_flags`.

use crate::parts::{FOR_LEADING, FOR_PARTS};
use crate::reductions::{FOR_REDUCTIONS, by_the_crate};
use crate::remainders::FOR_REMAINDERS;
use crate::request::{Answer, Beside};
use crate::steps::FOR_STEPS;
use crate::table::{Judge, Nans, OTHER, Row, STALE, Status, other};
use oracle::api;

extern "C" {
    fn pk_fmod64(x: u64, y: u64) -> u64;
    fn pk_fmod32(x: u32, y: u32) -> u32;
    fn pk_remquo64(x: u64, y: u64, quotient: *mut i32) -> u64;
    fn pk_reduce64(x: u64, e: u32, y: u64, value: *mut u64) -> u32;
    fn pk_reduce32(x: u32, e: u32, y: u32, value: *mut u32) -> u32;
    fn pk_modf64(x: u64, whole: *mut u64) -> u64;
    fn pk_modf32(x: u32, whole: *mut u32) -> u32;
    fn pk_frexp64(x: u64, exponent: *mut i32) -> u64;
    fn pk_frexp32(x: u32, exponent: *mut i32) -> u32;
    fn pk_ilogb64(x: u64) -> i32;
    fn pk_ilogb32(x: u32) -> i32;
    fn pk_nextafter64(x: u64, y: u64) -> u64;
    fn pk_nextafter32(x: u32, y: u32) -> u32;
}

/// With a quotient or an exponent.
fn with_number(call: impl FnOnce(&mut i32) -> u64) -> Answer {
    let mut number = STALE as i32;
    let word = call(&mut number);
    Answer::numbered((word, number))
}
fn with_whole<W: From<u32> + Into<u64>>(call: impl FnOnce(&mut W) -> W) -> Answer {
    let mut whole = W::from(STALE);
    let fraction = call(&mut whole);
    Answer::parts([fraction.into(), whole.into()])
}
fn with_value<W: From<u32> + Into<u64>>(call: impl FnOnce(&mut W) -> u32) -> Answer {
    let mut value = W::from(STALE);
    let refusal = call(&mut value);
    Answer::refusal(refusal, value.into())
}

// The calls are safe as those of `rows_with_flags` are.
pub static OF_VALUES: [Row; 13] = [
    Row {
        name: "fmod64",
        nans: Nans::Equal,
        judge: Judge::Crate,
        beside: Beside::Nothing,
        status: Status::Nothing,
        draws: &FOR_REMAINDERS,
        ours: |r| unsafe { Answer::value(pk_fmod64(r.x(), r.y())) },
        alone: None,
        crates: other(OTHER, |r| Answer::value(api::fmod64(r.x(), r.y()))),
    },
    Row {
        name: "fmod32",
        nans: Nans::Equal,
        judge: Judge::Crate,
        beside: Beside::Nothing,
        status: Status::Nothing,
        draws: &FOR_REMAINDERS,
        ours: |r| unsafe { Answer::value(pk_fmod32(r.x32(), r.y32()).into()) },
        alone: None,
        crates: other(OTHER, |r| Answer::value(api::fmod32(r.x32(), r.y32()).into())),
    },
    Row {
        name: "remquo64",
        nans: Nans::Equal,
        judge: Judge::Crate,
        beside: Beside::Quotient,
        status: Status::Nothing,
        draws: &FOR_REMAINDERS,
        ours: |r| with_number(|quotient| unsafe { pk_remquo64(r.x(), r.y(), quotient) }),
        alone: None,
        crates: other(OTHER, |r| Answer::numbered(api::remquo64(r.x(), r.y()))),
    },
    Row {
        name: "reduce64",
        nans: Nans::Plain,
        judge: Judge::Crate,
        beside: Beside::Refusal,
        status: Status::Nothing,
        draws: &FOR_REDUCTIONS,
        ours: |r| with_value(|value: &mut u64| unsafe { pk_reduce64(r.x(), r.shift(), r.y(), value) }),
        alone: None,
        crates: other(OTHER, |r| by_the_crate(64, r, || api::reduce64(r.x(), r.shift(), r.y()))),
    },
    Row {
        name: "reduce32",
        nans: Nans::Plain,
        judge: Judge::Crate,
        beside: Beside::Refusal,
        status: Status::Nothing,
        draws: &FOR_REDUCTIONS,
        ours: |r| with_value(|value: &mut u32| unsafe { pk_reduce32(r.x32(), r.shift(), r.y32(), value) }),
        alone: None,
        crates: other(OTHER, |r| by_the_crate(32, r, || api::reduce32(r.x32(), r.shift(), r.y32()).into())),
    },
    Row {
        name: "modf64",
        nans: Nans::Equal,
        judge: Judge::Plain,
        beside: Beside::Whole,
        status: Status::Nothing,
        draws: &FOR_PARTS,
        ours: |r| with_whole(|whole: &mut u64| unsafe { pk_modf64(r.x(), whole) }),
        alone: None,
        crates: other(OTHER, |r| Answer::parts(api::modf64(r.x()).into())),
    },
    Row {
        name: "modf32",
        nans: Nans::Equal,
        judge: Judge::Plain,
        beside: Beside::Whole,
        status: Status::Nothing,
        draws: &FOR_PARTS,
        ours: |r| with_whole(|whole: &mut u32| unsafe { pk_modf32(r.x32(), whole) }),
        alone: None,
        crates: other("the later text of modff", |r| Answer::parts32(api::modf32(r.x32()))),
    },
    Row {
        name: "frexp64",
        nans: Nans::Equal,
        judge: Judge::Plain,
        beside: Beside::Exponent,
        status: Status::Nothing,
        draws: &FOR_LEADING,
        ours: |r| with_number(|exponent| unsafe { pk_frexp64(r.x(), exponent) }),
        alone: None,
        crates: other(OTHER, |r| Answer::numbered(api::frexp64(r.x()))),
    },
    Row {
        name: "frexp32",
        nans: Nans::Equal,
        judge: Judge::Plain,
        beside: Beside::Exponent,
        status: Status::Nothing,
        draws: &FOR_LEADING,
        ours: |r| with_number(|exponent| unsafe { pk_frexp32(r.x32(), exponent).into() }),
        alone: None,
        crates: other("the later text of frexpf", |r| Answer::numbered32(api::frexp32(r.x32()))),
    },
    Row {
        name: "ilogb64",
        nans: Nans::Plain,
        judge: Judge::Plain,
        beside: Beside::Nothing,
        status: Status::Nothing,
        draws: &FOR_LEADING,
        ours: |r| unsafe { Answer::exponent(pk_ilogb64(r.x())) },
        alone: None,
        crates: other(OTHER, |r| Answer::exponent(api::ilogb64(r.x()))),
    },
    Row {
        name: "ilogb32",
        nans: Nans::Plain,
        judge: Judge::Plain,
        beside: Beside::Nothing,
        status: Status::Nothing,
        draws: &FOR_LEADING,
        ours: |r| unsafe { Answer::exponent(pk_ilogb32(r.x32())) },
        alone: None,
        crates: other("the later text of ilogbf", |r| Answer::exponent(api::ilogb32(r.x32()))),
    },
    Row {
        name: "nextafter64",
        nans: Nans::Equal,
        judge: Judge::Plain,
        beside: Beside::Nothing,
        status: Status::Nothing,
        draws: &FOR_STEPS,
        ours: |r| unsafe { Answer::value(pk_nextafter64(r.x(), r.y())) },
        alone: None,
        crates: other(OTHER, |r| Answer::value(api::nextafter64(r.x(), r.y()))),
    },
    Row {
        name: "nextafter32",
        nans: Nans::Equal,
        judge: Judge::Plain,
        beside: Beside::Nothing,
        status: Status::Nothing,
        draws: &FOR_STEPS,
        ours: |r| unsafe { Answer::value(pk_nextafter32(r.x32(), r.y32()).into()) },
        alone: None,
        crates: other("the later text of nextafterf", |r| Answer::value(api::nextafter32(r.x32(), r.y32()).into())),
    },
];
