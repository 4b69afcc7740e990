//! Faults that a run must show: the exact answers, each time with one thing wrong. No fault is in any side; what is tried
//! is whether the operands that are drawn meet it.

use crate::faults_parts::{OF_PARTS, PARTED};
use crate::faults_rounded::{FUSED, OF_FUSED, OF_ROOTS, ROOTS};
use crate::faults_whole::{OF_WHOLES, WHOLES};
use crate::format::{Format, WIDTH_32, WIDTH_64};
use crate::kinds::{in_values, known_of};
use crate::plain::exact;
use crate::request::{Answer, Request};
use crate::run::operation_of;
use crate::settle::same;
use crate::stream::requests;
use crate::table;

pub struct Fault {
    pub rows: &'static [&'static str],
    pub what: &'static str,
    /// Changes an exact answer where the fault strikes.
    pub spoil: fn(Format, &Request, &mut Answer),
}

pub const fn fault(
    rows: &'static [&'static str],
    what: &'static str,
    spoil: fn(Format, &Request, &mut Answer),
) -> Fault {
    Fault { rows, what, spoil }
}

const REMAINDERS: &[&str] = &["fmod64", "fmod32", "remquo64"];
const REMQUO: &[&str] = &["remquo64"];
const REDUCTIONS: &[&str] = &["reduce64", "reduce32"];

static FAULTS: [Fault; 22] = [
    fault(REMAINDERS, "a zero loses its sign", |f, _, a| {
        a.word = if f.is_zero(a.word) { 0 } else { a.word }
    }),
    fault(REMAINDERS, "by infinity, a NaN", |f, r, a| {
        a.word = if f.is_infinite(r.y()) { f.canonical_nan() } else { a.word }
    }),
    fault(REMAINDERS, "by zero, x", |f, r, a| {
        a.word = if f.is_zero(r.y()) { r.x() } else { a.word }
    }),
    fault(REMAINDERS, "one gap is left out", |f, r, a| strike(a, gap(f, r) == i64::from(f.bias()))),
    fault(REMAINDERS, "the widest gap is left out", |f, r, a| {
        strike(a, gap(f, r) == i64::from(2 * f.bias() - 1 + f.fraction_bits))
    }),
    fault(REMAINDERS, "a subnormal y of one length", |f, r, a| {
        strike(a, f.magnitude(r.y()).checked_ilog2() == Some(7))
    }),
    fault(REMAINDERS, "a subnormal x of one length", |f, r, a| {
        strike(a, f.magnitude(r.x()).checked_ilog2() == Some(7))
    }),
    fault(REMAINDERS, "the least subnormal divides all", |f, r, a| {
        strike(a, f.magnitude(r.y()) == 1 && f.is_finite(r.x()))
    }),
    fault(REMQUO, "the quotient's sign is the remainder's", |f, _, a| {
        a.number = if f.is_negative(a.word) { -a.number.abs() } else { a.number.abs() }
    }),
    fault(REMQUO, "the quotient keeps 32 bits", |f, r, a| {
        a.number += (whole(f, r).1 & 1 << 31) as i64
    }),
    fault(REMQUO, "the quotient stops at its greatest", |f, r, a| {
        a.number = if whole(f, r).0 > 31 { i64::from(i32::MAX) } else { a.number }
    }),
    fault(REMQUO, "ties go away from zero", |f, r, a| {
        strike(a, is_tie(f, r) && whole(f, r).1 % 2 == 0)
    }),
    fault(REMQUO, "ties go toward zero", |f, r, a| {
        strike(a, is_tie(f, r) && whole(f, r).1 % 2 == 1)
    }),
    fault(REDUCTIONS, "x = 2y is done", |f, r, a| {
        done(
            a,
            u128::from(r.x()) == 2 * u128::from(r.y())
                && r.y() <= f.all_ones() >> 2
                && r.shift() <= 4096,
        )
    }),
    fault(REDUCTIONS, "x = 2y - 1 is refused", |_, r, a| {
        refused(a, u128::from(r.x()) + 1 == 2 * u128::from(r.y()), 4)
    }),
    fault(REDUCTIONS, "y past its limit is done", |f, r, a| {
        done(a, r.y() == (f.all_ones() >> 2) + 1 && r.x() < 2 && r.shift() <= 4096)
    }),
    fault(REDUCTIONS, "y at its limit is refused", |f, r, a| {
        refused(a, r.y() == f.all_ones() >> 2, 4)
    }),
    fault(REDUCTIONS, "the shift 4097 is done", |_, r, a| {
        done(a, r.shift() == 4097 && a.number == 5)
    }),
    fault(REDUCTIONS, "the shift 4096 is refused", |_, r, a| refused(a, r.shift() == 4096, 5)),
    fault(REDUCTIONS, "5 comes before 4", |_, r, a| refused(a, r.shift() > 4096, 5)),
    fault(REDUCTIONS, "y zero is done", |_, r, a| done(a, r.y() == 0)),
    fault(REDUCTIONS, "a whole number of steps is one step too many", |f, r, a| {
        strike(a, a.number == 0 && r.shift() > 0 && r.shift() % (f.width - 1) == 0)
    }),
];

pub fn strike(answer: &mut Answer, strikes: bool) {
    answer.word ^= u64::from(strikes);
}
fn done(answer: &mut Answer, strikes: bool) {
    answer.number *= i64::from(!strikes);
}
fn refused(answer: &mut Answer, strikes: bool, number: u32) {
    if strikes {
        *answer = Answer::refusal(number, 0);
    }
}

/// How far apart the leading digits stand; nothing that can be met where there are none.
fn gap(format: Format, request: &Request) -> i64 {
    let [x, y] = [request.x(), request.y()].map(|z| match format.is_finite(z) {
        true => i64::from(format.units(z).bits()),
        false => 0,
    });
    if x * y == 0 { i64::MIN } else { x - y }
}
fn is_division(format: Format, request: &Request) -> bool {
    format.is_finite(request.x()) && format.is_finite(request.y()) && !format.is_zero(request.y())
}
/// The length of the whole part of x / y, and its last word.
fn whole(format: Format, request: &Request) -> (u32, u64) {
    if !is_division(format, request) {
        return (0, 0);
    }
    let (quotient, _) = format.units(request.x()).div_rem(&format.units(request.y()));
    (quotient.bits(), quotient.low_word())
}
fn is_tie(format: Format, request: &Request) -> bool {
    is_division(format, request) && {
        let (halves, rest) = format.units(request.x()).shl(1).div_rem(&format.units(request.y()));
        rest.is_zero() && halves.is_odd()
    }
}

#[test]
fn each_fault_is_met() {
    let mut tried = 0;
    let all = FAULTS.iter().chain(&OF_ROOTS).chain(&OF_FUSED).chain(&OF_WHOLES).chain(&OF_PARTS);
    for Fault { rows, what, spoil } in all {
        for row in rows.iter().filter_map(|name| table::find(name)) {
            let operation = operation_of(row);
            let is_met = |request: &Request| {
                let right = exact(operation, request);
                let mut answer = right;
                spoil(operation.format, request, &mut answer);
                answer != right
            };
            let mut stream = requests(row, 1, 50_000).take(50_000);
            assert!(stream.any(|(_, request)| is_met(&request)), "{}: {what}", row.name);
            tried += 1;
        }
    }
    assert_eq!(tried, 8 * 3 + 5 + 9 * 2 + 10 * 2 + 16 * 2 + 14 * 6 + 3 * 2 + 7 * 8 + 3 * 2 + 2 * 4 + 4 * 2);
}

#[test]
fn exact_answers_are_no_faults() {
    for name in [REMAINDERS, REDUCTIONS, ROOTS, FUSED, WHOLES, PARTED].concat() {
        let row = table::find(name).unwrap();
        let operation = operation_of(row);
        let known = known_of(row);
        assert!([WIDTH_64, WIDTH_32].contains(&operation.format));
        for (_, request) in requests(row, 1, 20_000).take(20_000) {
            let (right, crates) = (exact(operation, &request), row.others(&request).unwrap());
            let is_known = in_values(&known, &request).is_some();
            assert!(is_known || same(row, operation.format, &right, &crates), "{name} {request:?}");
        }
    }
}
