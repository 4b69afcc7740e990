//! Answers with right values and wrong flags, and values that go with them: each is an exact answer, changed in one way. A
//! run must find every one of them, in a program and in an archive.

use crate::answers_flags;
use crate::attributes::Attribute;
use crate::format::Format;
use crate::request::flags::{DIVBYZERO, INEXACT, INVALID, OVERFLOW, UNDERFLOW};
use crate::request::{Answer, Request};

/// One fault, of the operations that may have it.
pub struct Wrong {
    pub name: &'static str,
    pub operations: &'static [&'static str],
    pub spoil: fn(Format, &Request, &mut Answer),
}

pub const fn wrong(
    name: &'static str,
    operations: &'static [&'static str],
    spoil: fn(Format, &Request, &mut Answer),
) -> Wrong {
    Wrong { name, operations, spoil }
}

const ALL: &[&str] = &[
    "sqrt64", "sqrt32", "floor64", "floor32", "ceil64", "ceil32", "trunc64", "trunc32", "fma64", "fma32",
    "scalbn64", "scalbn32",
];
const WHOLES: &[&str] = &["floor64", "floor32", "ceil64", "ceil32", "trunc64", "trunc32"];
const ROOTS: &[&str] = &["sqrt64", "sqrt32"];
const FUSED: &[&str] = &["fma64", "fma32"];
const SCALED: &[&str] = &["scalbn64", "scalbn32"];
const ROUNDED: &[&str] = &["fma64", "fma32", "scalbn64", "scalbn32"];

pub static WRONG: [Wrong; 28] = [
    // invalid
    wrong("quiet-nan-raises-invalid", ALL, |f, r, a| raise(a, INVALID, has_nan(f, r))),
    wrong("signalling-nan-unseen", ALL, |f, r, a| {
        lower(a, INVALID, r.words.iter().any(|x| f.is_signalling(*x)))
    }),
    wrong("signalling-nan-with-inexact", ALL, |f, r, a| {
        raise(a, INEXACT, r.words.iter().any(|x| f.is_signalling(*x)))
    }),
    wrong("signalling-nan-unseen-as-z", FUSED, |f, r, a| {
        lower(a, INVALID, f.is_signalling(r.z()) && !f.is_signalling(r.x() | r.y()))
    }),
    wrong("below-zero-valid", ROOTS, |f, r, a| lower(a, INVALID, f.is_negative(r.x()))),
    wrong("minus-zero-invalid", ROOTS, |f, r, a| raise(a, INVALID, r.x() == f.sign_bit())),
    wrong("zero-times-infinity-plus-quiet-nan-valid", FUSED, |f, r, a| {
        lower(a, INVALID, is_no_product(f, r) && f.is_nan(r.z()) && !f.is_signalling(r.z()))
    }),
    wrong("zero-times-infinity-valid", FUSED, |f, r, a| {
        lower(a, INVALID, is_no_product(f, r) && !f.is_nan(r.z()))
    }),
    wrong("infinity-less-infinity-valid", FUSED, |f, r, a| {
        lower(a, INVALID, f.is_infinite(r.z()) && f.is_nan(a.word) && !is_no_product(f, r))
    }),
    wrong("nan-comes-back", ALL, |f, r, a| a.word = if f.is_nan(r.x()) { r.x() } else { a.word }),
    // division by zero
    wrong("division-by-zero-raised", ALL, |f, r, a| raise(a, DIVBYZERO, f.is_infinite(r.x()))),
    wrong("division-by-zero-of-zero", ALL, |f, r, a| raise(a, DIVBYZERO, f.is_zero(r.x()))),
    // overflow
    wrong("overflow-without-inexact", ROUNDED, |_, _, a| {
        lower(a, INEXACT, a.number & i64::from(OVERFLOW) != 0)
    }),
    wrong("overflow-unseen", ROUNDED, |_, _, a| lower(a, OVERFLOW, true)),
    wrong("overflow-one-number-late", FUSED, |f, r, a| {
        let is_first = a.number & i64::from(OVERFLOW) != 0 && cut_off(f, r) == f.largest_finite();
        // Up to the power of two past the largest number that number is the answer.
        if is_first && !is_past(f, r) {
            *a = Answer::flags(f.sign(a.word) | f.largest_finite(), INEXACT);
        }
    }),
    wrong("overflow-flag-one-number-late", FUSED, |f, r, a| {
        lower(a, OVERFLOW, f.is_infinite(a.word) && !is_past(f, r))
    }),
    wrong("overflow-one-number-early", ROUNDED, |f, _, a| {
        raise(a, OVERFLOW | INEXACT, f.magnitude(a.word) == f.largest_finite())
    }),
    wrong("infinite-operand-overflows", ROUNDED, |f, _, a| {
        raise(a, OVERFLOW | INEXACT, f.is_infinite(a.word))
    }),
    // underflow
    wrong("tininess-before-rounding", FUSED, |f, r, a| {
        let is_tiny = f.magnitude(a.word) == f.smallest_normal() && cut_off(f, r) < f.smallest_normal();
        raise(a, UNDERFLOW, a.number == i64::from(INEXACT) && is_tiny)
    }),
    wrong("tininess-by-the-answer", ROUNDED, |f, _, a| {
        lower(a, UNDERFLOW, f.magnitude(a.word) == f.smallest_normal())
    }),
    wrong("underflow-without-inexact", ROUNDED, |_, _, a| {
        lower(a, INEXACT, a.number & i64::from(UNDERFLOW) != 0)
    }),
    wrong("exact-subnormal-underflows", ROUNDED, |f, _, a| {
        raise(a, UNDERFLOW, (1..f.smallest_normal()).contains(&f.magnitude(a.word)))
    }),
    wrong("underflow-to-zero-unseen", ROUNDED, |f, _, a| lower(a, UNDERFLOW, f.is_zero(a.word))),
    // inexact
    wrong("inexact-root-unseen", ROOTS, |_, _, a| lower(a, INEXACT, true)),
    wrong("exact-root-inexact", ROOTS, |f, _, a| raise(a, INEXACT, f.is_finite(a.word))),
    wrong("half-unseen", WHOLES, |f, r, a| {
        lower(a, INEXACT, f.fraction_field(r.x()) == 0 && f.magnitude(r.x()) < f.one())
    }),
    wrong("integer-inexact", WHOLES, |f, r, a| {
        raise(a, INEXACT, f.is_finite(r.x()))
    }),
    wrong("exact-scaling-inexact", SCALED, |f, r, a| {
        raise(a, INEXACT, r.n() != 0 && f.is_finite(a.word) && !f.is_zero(a.word))
    }),
];

fn raise(answer: &mut Answer, flags: u32, strikes: bool) {
    answer.number |= if strikes { flags.into() } else { 0 };
}
fn lower(answer: &mut Answer, flags: u32, strikes: bool) {
    answer.number &= if strikes { !i64::from(flags) } else { -1 };
}

fn has_nan(format: Format, request: &Request) -> bool {
    request.words.iter().any(|x| format.is_nan(*x))
}
fn is_no_product(f: Format, r: &Request) -> bool {
    f.is_zero(r.x()) && f.is_infinite(r.y()) || f.is_infinite(r.x()) && f.is_zero(r.y())
}
/// The magnitude of fma's answer toward zero.
fn cut_off(format: Format, request: &Request) -> u64 {
    format.magnitude(answers_flags::fma(format, Attribute::Zero, request.words).0)
}
/// Whether a sum that overflows reaches the power of two past the largest number: half of it then has the next exponent.
fn is_past(format: Format, request: &Request) -> bool {
    let halved = |x: u64| if format.exponent_field(x) > 1 { x - format.smallest_normal() } else { 0 };
    let [x, y, z] = request.words;
    let [x, y] = if format.magnitude(x) > format.magnitude(y) { [halved(x), y] } else { [x, halved(y)] };
    let half = Request::three_words([x, y, halved(z)]);
    cut_off(format, &half) > format.largest_finite() - format.smallest_normal()
}
