//! Faults of floor, ceil and trunc, in values and in flags: the operands that are drawn must meet each, and a run must find it.

use crate::faults::{Fault, fault};
use crate::faults_flags::{RIGHT, run};
use crate::halves::is_power_below_one;
use crate::operations::Operation;
use crate::request::{Answer, Request};
use crate::table;

pub const WHOLES: &[&str] = &["trunc64", "trunc32", "floor64", "floor32", "ceil64", "ceil32"];
const CEILS: &[&str] = &["ceil64", "ceil32"];
const FLOORS: &[&str] = &["floor64", "floor32"];

pub static OF_WHOLES: [Fault; 17] = [
    fault(WHOLES, "a power of two below one says OK", |f, r, a| {
        says(a, is_power_below_one(f, r.x()), 0)
    }),
    fault(WHOLES, "the least normal number says OK", |f, r, a| {
        says(a, f.magnitude(r.x()) == f.smallest_normal(), 0)
    }),
    fault(WHOLES, "a subnormal power of two says OK", |f, r, a| {
        says(a, f.magnitude(r.x()) < f.smallest_normal() && r.x().count_ones() == 1, 0)
    }),
    fault(WHOLES, "two digits below one say OK", |f, r, a| {
        let two = f.exponent_field(r.x()) > 0 && f.fraction_field(r.x()).is_power_of_two();
        says(a, two && f.magnitude(r.x()) < f.one(), 0)
    }),
    fault(WHOLES, "a power of two below one is INVALID", |f, r, a| {
        says(a, is_power_below_one(f, r.x()), 1)
    }),
    fault(WHOLES, "an integer is INEXACT", |f, r, a| {
        says(a, a.word == r.x() && f.is_finite(r.x()) && !f.is_zero(r.x()), 32)
    }),
    fault(WHOLES, "one is INEXACT", |f, r, a| says(a, f.magnitude(r.x()) == f.one(), 32)),
    fault(WHOLES, "a zero is INEXACT", |f, r, a| says(a, f.is_zero(r.x()), 32)),
    fault(WHOLES, "infinity is INEXACT", |f, r, a| says(a, f.is_infinite(r.x()), 32)),
    fault(WHOLES, "a NaN is INEXACT", |f, r, a| says(a, f.is_nan(r.x()), 32)),
    fault(WHOLES, "a signalling NaN is OK", |f, r, a| says(a, f.is_signalling(r.x()), 0)),
    fault(WHOLES, "a NaN comes back as it was", |f, r, a| gives(a, f.is_nan(r.x()), r.x())),
    fault(WHOLES, "a NaN keeps its sign", |f, r, a| {
        a.word |= if f.is_nan(r.x()) { f.sign(r.x()) } else { 0 }
    }),
    fault(WHOLES, "-0 loses its sign", |f, r, a| gives(a, r.x() == f.sign_bit(), 0)),
    fault(FLOORS, "powers of two between -1 and 0 go to -0", |f, r, a| {
        gives(a, is_power_below_one(f, r.x()) && f.is_negative(r.x()), f.sign_bit())
    }),
    fault(CEILS, "powers of two between 0 and 1 go to +0", |f, r, a| {
        gives(a, is_power_below_one(f, r.x()) && !f.is_negative(r.x()), 0)
    }),
    fault(CEILS, "all digits before the point set, and it is not carried", |f, r, a| {
        let is_power = f.fraction_field(a.word) == 0 && f.magnitude(a.word) > f.one();
        gives(a, is_power && f.magnitude(r.x()) < f.magnitude(a.word), a.word - f.smallest_normal())
    }),
];

fn says(answer: &mut Answer, strikes: bool, flags: i64) {
    answer.number = if strikes { flags } else { answer.number };
}
fn gives(answer: &mut Answer, strikes: bool, word: u64) {
    answer.word = if strikes { word } else { answer.word };
}

#[test]
fn each_fault_is_found() {
    for Fault { rows, what, spoil } in &OF_WHOLES {
        for row in rows.iter().filter_map(|name| table::find(name)) {
            let ours = |operation: &Operation, request: &Request, answer: &mut Answer| {
                spoil(operation.format, request, answer)
            };
            assert!(run(row, 20_000, &ours, RIGHT).unexplained > 0, "{}: {what}", row.name);
        }
    }
}
#[test]
fn a_crate_that_gives_another_value_there_is_found() {
    for row in WHOLES.iter().filter_map(|name| table::find(name)) {
        let tally = run(row, 20_000, RIGHT, &|operation, request, answer| {
            let format = operation.format;
            gives(answer, is_power_below_one(format, request.x()), format.one())
        });
        assert!(tally.unexplained > 0, "{}", row.name);
    }
}
