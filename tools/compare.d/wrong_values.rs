//! Wrong values of ceil, modf, frexp, ilogb and nextafter: each is an exact answer, changed in one way. A run must find every
//! one of them, in a program and in an archive.

use crate::format::Format;
use crate::request::{Answer, Request};
use crate::wrong_flags::{Wrong, wrong};

const CEILS: &[&str] = &["ceil64", "ceil32"];
const MODFS: &[&str] = &["modf64", "modf32"];
const FREXPS: &[&str] = &["frexp64", "frexp32"];
const ILOGBS: &[&str] = &["ilogb64", "ilogb32"];
const STEPS: &[&str] = &["nextafter64", "nextafter32"];

pub static WRONG: [Wrong; 21] = [
    wrong("ceil-of-minus-a-half-is-plus-zero", CEILS, |f, r, a| {
        give(a, a.word == f.sign_bit() && !f.is_zero(r.x()), 0)
    }),
    wrong("ceil-of-a-half-is-zero", CEILS, |f, r, a| give(a, r.x() < f.one(), 0)),
    wrong("ceil-below-zero-goes-away-from-it", CEILS, |f, r, a| {
        let is_cut = f.is_negative(r.x()) && f.is_finite(r.x()) && f.magnitude(r.x()) < f.one();
        give(a, is_cut && !f.is_zero(r.x()), f.sign_bit() | f.one())
    }),
    // modf
    wrong("zero-fraction-loses-its-sign", MODFS, |f, _, a| give(a, f.is_zero(a.word), 0)),
    wrong("zero-before-the-point-loses-its-sign", MODFS, |f, _, a| {
        beside(a, f.is_zero(a.number as u64), 0)
    }),
    wrong("infinity-has-a-nan-for-its-fraction", MODFS, |f, r, a| {
        give(a, f.is_infinite(r.x()), f.canonical_nan())
    }),
    wrong("a-nan-comes-back-before-the-point", MODFS, |f, r, a| {
        beside(a, f.is_nan(r.x()), r.x() as i64)
    }),
    wrong("fraction-of-one-digit-is-zero", MODFS, |f, r, a| {
        let is_power = f.fraction_field(a.word) == 0 && f.magnitude(r.x()) > f.one();
        give(a, is_power, f.sign(r.x()))
    }),
    // frexp
    wrong("subnormal-fraction-one-bit-off", FREXPS, |f, r, a| a.word ^= u64::from(is_subnormal(f, r))),
    wrong("subnormal-exponent-one-off", FREXPS, |f, r, a| a.number += i64::from(is_subnormal(f, r))),
    wrong("power-of-two-has-the-fraction-one", FREXPS, |f, _, a| {
        let is_half = f.magnitude(a.word) == f.one() - f.smallest_normal();
        *a = if is_half { Answer { word: f.sign(a.word) | f.one(), number: a.number - 1, ..*a } } else { *a };
    }),
    wrong("zero-has-an-exponent", FREXPS, |f, r, a| beside(a, f.is_zero(r.x()), 1 - i64::from(f.bias()))),
    wrong("infinity-has-an-exponent", FREXPS, |f, r, a| {
        beside(a, f.is_infinite(r.x()), i64::from(f.bias()) + 2)
    }),
    // ilogb
    wrong("subnormal-ilogb-one-off", ILOGBS, |f, r, a| {
        a.word = a.word.wrapping_add(u64::from(is_subnormal(f, r)))
    }),
    wrong("ilogb-of-zero-is-the-other-number-of-iso-c", ILOGBS, |f, r, a| {
        give(a, f.is_zero(r.x()), Answer::exponent(-i32::MAX).word)
    }),
    wrong("ilogb-of-a-nan-is-that-of-infinity", ILOGBS, |f, r, a| {
        give(a, f.is_nan(r.x()), Answer::exponent(i32::MAX).word)
    }),
    // nextafter
    wrong("the-least-subnormal-number-is-stepped-over", STEPS, |f, r, a| {
        give(a, f.is_zero(r.x()) && f.magnitude(a.word) == 1, a.word + 1)
    }),
    wrong("to-zero-from-below-it-is-plus-zero", STEPS, |f, r, a| {
        give(a, !f.is_zero(r.x()) && a.word == f.sign_bit(), 0)
    }),
    wrong("of-zeros-x-is-given", STEPS, |f, r, a| {
        give(a, f.is_zero(r.x()) && f.is_zero(r.y()), r.x())
    }),
    wrong("the-largest-number-stays", STEPS, |f, r, a| {
        give(a, f.is_finite(r.x()) && f.is_infinite(a.word), r.x())
    }),
    wrong("infinity-stays", STEPS, |f, r, a| {
        give(a, f.is_infinite(r.x()) && f.is_finite(a.word), r.x())
    }),
];

fn give(answer: &mut Answer, strikes: bool, word: u64) {
    answer.word = if strikes { word } else { answer.word };
}
fn beside(answer: &mut Answer, strikes: bool, number: i64) {
    answer.number = if strikes { number } else { answer.number };
}
fn is_subnormal(format: Format, request: &Request) -> bool {
    (1..format.smallest_normal()).contains(&format.magnitude(request.x()))
}
