//! Answers under an attribute that are wrong in one way each. A run must find every one of them, in a program and in an
//! archive.

use crate::answers_flags;
use crate::attributes::Attribute::{self, Away, Down, Even, Up, Zero};
use crate::format::Format;
use crate::operations::Operation;
use crate::raised::word_of;
use crate::request::flags::{INEXACT, OVERFLOW, UNDERFLOW};
use crate::request::{Answer, Request};

pub struct WrongRounded {
    pub name: &'static str,
    pub operations: &'static [&'static str],
    /// Changes an exact answer where the fault strikes.
    pub spoil: fn(&Case, &mut Answer),
}

/// An operation without an attribute, and operands with the number of one.
pub struct Case<'a> {
    pub operation: &'a Operation,
    pub request: &'a Request,
}

impl Case<'_> {
    fn format(&self) -> Format {
        self.operation.format
    }
    fn is(&self, attribute: Attribute) -> bool {
        Attribute::of_number(self.request.attribute) == Some(attribute)
    }
    fn is_refused(&self) -> bool {
        Attribute::of_number(self.request.attribute).is_none()
    }
    /// The exact answer under an attribute, done.
    fn under(&self, attribute: Attribute) -> Answer {
        let plain = Request { attribute: 0, ..*self.request };
        let (word, raised) = answers_flags::under(self.operation, attribute, &plain.fields(self.operation));
        Answer::flags(word, word_of(raised))
    }
    /// Whether fma's terms are of unlike signs and come to zero, all of them zeros or none.
    fn vanishes(&self, answer: &Answer, of_zeros: bool) -> bool {
        let (f, [x, y, z]) = (self.format(), self.request.words);
        let is_unlike = f.sign(x) ^ f.sign(y) != f.sign(z);
        f.is_zero(answer.word) && answer.number == 0 && is_unlike && f.is_zero(z) == of_zeros
    }
    /// How many places the first digit of z stands above that of fma's product.
    fn gap(&self) -> i64 {
        let exponent = |x: u64| i64::from(self.format().exponent_field(x));
        let [x, y, z] = self.request.words.map(exponent);
        if x * y * z == 0 { 0 } else { z + i64::from(self.format().bias()) - x - y }
    }
}

const fn wrong(
    name: &'static str,
    operations: &'static [&'static str],
    spoil: fn(&Case, &mut Answer),
) -> WrongRounded {
    WrongRounded { name, operations, spoil }
}

const ALL: &[&str] = &["sqrt64", "sqrt32", "fma64", "fma32", "scalbn64", "scalbn32"];
/// Those whose values may be below zero, ties, and past the ends of the range.
const SIGNED: &[&str] = &["fma64", "fma32", "scalbn64", "scalbn32"];
const FUSED: &[&str] = &["fma64", "fma32"];

pub static WRONG: [WrongRounded; 32] = [
    // which way
    wrong("toward-zero-goes-down", SIGNED, |c, a| takes(c, a, Zero, Down)),
    wrong("toward-zero-goes-up", ALL, |c, a| takes(c, a, Zero, Up)),
    wrong("down-goes-toward-zero", SIGNED, |c, a| takes(c, a, Down, Zero)),
    wrong("up-goes-toward-zero", ALL, |c, a| takes(c, a, Up, Zero)),
    wrong("down-goes-up", ALL, |c, a| takes(c, a, Down, Up)),
    wrong("up-goes-down", ALL, |c, a| takes(c, a, Up, Down)),
    wrong("up-goes-to-nearest", ALL, |c, a| takes(c, a, Up, Even)),
    wrong("ties-away-as-even", SIGNED, |c, a| takes(c, a, Away, Even)),
    wrong("ties-even-as-away", SIGNED, |c, a| takes(c, a, Even, Away)),
    wrong("exact-value-goes-up", ALL, |c, a| {
        let is_number = c.format().is_finite(a.word) && !c.format().is_zero(a.word);
        a.word += u64::from(c.is(Up) && a.number == 0 && is_number && !c.is_refused())
    }),
    wrong("far-digit-unseen", FUSED, |c, a| {
        let is_far = c.gap() > 2 * i64::from(c.format().width);
        a.word = if is_far && (c.is(Up) || c.is(Down)) && a.number != 0 { c.request.z() } else { a.word }
    }),
    wrong("less-than-half-a-unit-is-zero", SIGNED, |c, a| {
        let is_lost = c.format().magnitude(a.word) == 1 && c.format().is_zero(c.under(Even).word);
        a.word ^= u64::from(is_lost && c.is(Up))
    }),
    // zero sums
    wrong("zero-sum-plus-rounding-down", FUSED, |c, a| {
        a.word &= if c.is(Down) && c.vanishes(a, false) { 0 } else { u64::MAX }
    }),
    wrong("zeros-of-unlike-signs-plus-rounding-down", FUSED, |c, a| {
        a.word &= if c.is(Down) && c.vanishes(a, true) { 0 } else { u64::MAX }
    }),
    wrong("zero-sum-minus-toward-zero", FUSED, |c, a| {
        a.word |= if c.is(Zero) && c.vanishes(a, false) { c.format().sign_bit() } else { 0 }
    }),
    wrong("zeros-of-one-sign-plus-rounding-up", FUSED, |c, a| {
        a.word &= if c.is(Up) && c.request.words.iter().all(|x| c.format().is_zero(*x)) { 0 } else { u64::MAX }
    }),
    // past the ends of the range
    wrong("infinity-toward-zero", SIGNED, |c, a| gives(c, a, c.is(Zero), c.format().infinity())),
    wrong("infinity-below-zero-rounding-up", SIGNED, |c, a| {
        gives(c, a, c.is(Up) && c.format().is_negative(a.word), c.format().infinity())
    }),
    wrong("infinity-above-zero-rounding-down", SIGNED, |c, a| {
        gives(c, a, c.is(Down) && !c.format().is_negative(a.word), c.format().infinity())
    }),
    wrong("largest-number-rounding-up", SIGNED, |c, a| gives(c, a, c.is(Up), c.format().largest_finite())),
    wrong("overflow-unseen-with-the-largest-number", SIGNED, |c, a| {
        a.number &= if c.format().is_finite(a.word) { !i64::from(OVERFLOW) } else { -1 }
    }),
    wrong("overflow-past-the-largest-number-toward-zero", FUSED, |c, a| {
        let is_past = a.number == i64::from(INEXACT) && c.format().magnitude(a.word) == c.format().largest_finite();
        a.number |= if c.is(Zero) && is_past { OVERFLOW.into() } else { 0 }
    }),
    // flags
    wrong("flags-lost", ALL, |_, a| a.number = 0),
    // A scaled number has the same ones under every attribute.
    wrong("flags-of-nearest-even", FUSED, |c, a| {
        a.number = if c.is_refused() { 0 } else { c.under(Even).number }
    }),
    wrong("tininess-by-the-answer-rounding-up", SIGNED, |c, a| {
        let is_least = c.format().magnitude(a.word) == c.format().smallest_normal();
        a.number &= if c.is(Up) && is_least { !i64::from(UNDERFLOW) } else { -1 }
    }),
    wrong("tininess-before-rounding-up", FUSED, |c, a| {
        let is_least = c.format().magnitude(a.word) == c.format().smallest_normal();
        let is_below = || c.format().magnitude(c.under(Zero).word) < c.format().smallest_normal();
        a.number |= if c.is(Up) && is_least && a.number != 0 && is_below() { UNDERFLOW.into() } else { 0 }
    }),
    // refusals
    wrong("refusal-not-given", ALL, |c, a| {
        *a = if c.is_refused() { c.under(Even) } else { *a }
    }),
    wrong("five-taken-for-away", ALL, |c, a| {
        *a = if c.request.attribute == 5 { c.under(Away) } else { *a }
    }),
    wrong("low-byte-taken-for-the-number", ALL, |c, a| {
        let low = Attribute::of_number(c.request.attribute & 0xff);
        *a = low.map_or(*a, |attribute| c.under(attribute))
    }),
    wrong("another-refusal", ALL, |c, a| a.refused = if c.is_refused() { 1 } else { a.refused }),
    wrong("refused-with-a-value", ALL, |c, a| {
        a.word = if c.is_refused() { c.under(Even).word } else { a.word }
    }),
    wrong("refused-with-flags", ALL, |c, a| {
        a.number = if c.is_refused() { c.under(Even).number } else { a.number }
    }),
];

/// One attribute is taken for another.
fn takes(case: &Case, answer: &mut Answer, one: Attribute, other: Attribute) {
    *answer = if case.is(one) { case.under(other) } else { *answer };
}
/// Another magnitude where a value overflows.
fn gives(case: &Case, answer: &mut Answer, strikes: bool, magnitude: u64) {
    let overflows = answer.number & i64::from(OVERFLOW) != 0;
    let sign = case.operation.format.sign(answer.word);
    answer.word = if strikes && overflows { sign | magnitude } else { answer.word };
}
