//! Faults of modf, frexp, ilogb and nextafter at one exponent, one length or one step: the operands that are drawn must meet
//! each.

use crate::faults::{Fault, fault, strike};
use crate::format::Format;
use crate::request::Request;

pub const PARTED: &[&str] =
    &["modf64", "modf32", "frexp64", "frexp32", "ilogb64", "ilogb32", "nextafter64", "nextafter32"];
const MODFS: &[&str] = &["modf64", "modf32"];
const LEADING: &[&str] = &["frexp64", "frexp32", "ilogb64", "ilogb32"];
const STEPS: &[&str] = &["nextafter64", "nextafter32"];

pub static OF_PARTS: [Fault; 16] = [
    fault(PARTED, "a NaN keeps its payload", |f, r, a| strike(a, f.is_nan(r.x()) && r.x() & 1 == 1)),
    fault(PARTED, "a signalling NaN below zero", |f, r, a| {
        strike(a, f.is_signalling(r.x()) && f.is_negative(r.x()))
    }),
    fault(PARTED, "-0", |f, r, a| strike(a, r.x() == f.sign_bit())),
    fault(PARTED, "infinity below zero", |f, r, a| strike(a, r.x() == f.sign_bit() | f.infinity())),
    fault(PARTED, "the largest number", |f, r, a| strike(a, f.magnitude(r.x()) == f.largest_finite())),
    fault(PARTED, "the least subnormal number", |f, r, a| strike(a, f.magnitude(r.x()) == 1)),
    fault(PARTED, "one length of a subnormal number", |f, r, a| {
        strike(a, f.magnitude(r.x()).checked_ilog2() == Some(7))
    }),
    fault(MODFS, "the first number past which there is no fraction", |f, r, a| {
        strike(a, f.magnitude(r.x()) == past_point(f))
    }),
    fault(MODFS, "the last number that has a fraction", |f, r, a| {
        strike(a, f.magnitude(r.x()) == past_point(f) - 1)
    }),
    fault(MODFS, "one place of the point", |f, r, a| {
        strike(a, f.exponent_field(r.x()) == f.bias() + 11 && !f.is_zero(a.word))
    }),
    fault(LEADING, "the largest subnormal number", |f, r, a| {
        strike(a, f.magnitude(r.x()) == f.smallest_normal() - 1)
    }),
    fault(LEADING, "one power of two", |f, r, a| {
        strike(a, f.magnitude(r.x()) == u64::from(f.bias() / 3) << f.fraction_bits)
    }),
    fault(STEPS, "y one number below x", |f, r, a| {
        strike(a, is_above_zero(f, r) && r.y() + 1 == r.x())
    }),
    fault(STEPS, "y the negative of x", |f, r, a| {
        strike(a, f.is_finite(r.x()) && r.x() ^ r.y() == f.sign_bit())
    }),
    fault(STEPS, "y a NaN", |f, r, a| strike(a, f.is_nan(r.y()) && !f.is_nan(r.x()))),
    fault(STEPS, "two NaNs, one of them signalling", |f, r, a| {
        strike(a, f.is_nan(r.x()) && f.is_nan(r.y()) && f.is_signalling(r.x()) != f.is_signalling(r.y()))
    }),
];

/// 2^52 or 2^23.
fn past_point(format: Format) -> u64 {
    format.one() + u64::from(format.fraction_bits) * format.smallest_normal()
}
fn is_above_zero(format: Format, request: &Request) -> bool {
    (1..format.infinity()).contains(&request.x())
}
