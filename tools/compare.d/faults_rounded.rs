//! Faults of sqrt and fma that the operands drawn must meet, and what exact computation says of a root and of a sum.

use crate::big::Big;
use crate::faults::{Fault, fault, strike};
use crate::format::Format;
use crate::fused_places::sum;
use crate::plain::fma;
use crate::request::{Answer, Request};

pub const ROOTS: &[&str] = &["sqrt64", "sqrt32"];
pub const FUSED: &[&str] = &["fma64", "fma32"];

pub static OF_ROOTS: [Fault; 10] = [
    fault(ROOTS, "the root is cut off", |f, r, a| {
        a.word -= u64::from(is_root(f, r) && root_of(f, r, a).cmp(&square(f, r.x())).is_gt())
    }),
    fault(ROOTS, "the root is rounded up", |f, r, a| {
        a.word += u64::from(is_root(f, r) && root_of(f, r, a).cmp(&square(f, r.x())).is_lt())
    }),
    fault(ROOTS, "a root beside a tie goes the wrong way", |f, r, a| {
        strike(a, is_root(f, r) && is_near_a_tie(f, r.x(), a.word, f.fraction_bits - 5))
    }),
    fault(ROOTS, "a root that is not exact is OK", |f, r, a| {
        a.number *= i64::from(!is_root(f, r) || root_of(f, r, a) == square(f, r.x()))
    }),
    fault(ROOTS, "-0 loses its sign", |f, r, a| a.word &= !f.sign(r.x())),
    fault(ROOTS, "-0 is INVALID", |f, r, a| a.number |= i64::from(r.x() == f.sign_bit())),
    fault(ROOTS, "subnormals below zero are OK", |f, r, a| {
        a.number *= i64::from(!f.is_negative(r.x()) || f.exponent_field(r.x()) > 0)
    }),
    fault(ROOTS, "a quiet NaN is INVALID", |f, r, a| {
        a.number |= i64::from(f.magnitude(r.x()) >= f.canonical_nan())
    }),
    fault(ROOTS, "a subnormal of one length", |f, r, a| {
        strike(a, is_root(f, r) && r.x().checked_ilog2() == Some(7))
    }),
    fault(ROOTS, "the largest number", |f, r, a| strike(a, r.x() == f.largest_finite())),
];

pub static OF_FUSED: [Fault; 16] = [
    fault(FUSED, "the product is rounded first", |f, r, a| {
        a.word = fma(f, fma(f, r.x(), r.y(), 0), f.one(), r.z())
    }),
    fault(FUSED, "ties go away from zero", |f, r, a| {
        strike(a, is_tie(f, r.words) && a.word % 2 == 0)
    }),
    fault(FUSED, "a tail far below a tie is lost", |f, r, a| strike(a, is_near_tie(f, r, 1))),
    fault(FUSED, "a tail is lost that two words do not hold", |f, r, a| {
        strike(a, is_near_tie(f, r, f.width + 8))
    }),
    fault(FUSED, "subnormal results are rounded twice", |f, r, a| {
        strike(a, is_rounded_twice(f, r))
    }),
    fault(FUSED, "the tie below infinity goes down", |f, r, a| {
        strike(a, is_sum(f, r) && sum(f, r.words) == f.scaled_overflow(f.unit_shift()))
    }),
    fault(FUSED, "infinity begins past the largest number", |f, r, a| {
        strike(
            a,
            is_sum(f, r)
                && a.word & !f.sign_bit() == f.largest_finite()
                && is_above_the_largest(f, r),
        )
    }),
    fault(FUSED, "a zero sum is -0", |f, r, a| {
        a.word |= if is_sum(f, r) && sum(f, r.words).is_zero() { f.sign_bit() } else { 0 }
    }),
    fault(FUSED, "zeros of two signs give -0", |f, r, a| {
        let zeros = (f.is_zero(r.x()) || f.is_zero(r.y())) && f.is_zero(r.z());
        a.word |= if zeros && f.is_zero(a.word) { f.sign_bit() } else { 0 }
    }),
    fault(FUSED, "what rounds to zero loses its sign", |f, r, a| {
        a.word &= if f.is_zero(a.word) && is_sum(f, r) { 0 } else { u64::MAX }
    }),
    fault(FUSED, "a product that rounds to zero gives z", |f, r, a| {
        a.word = if is_sum(f, r) && f.is_zero(r.z()) && f.is_zero(a.word) { r.z() } else { a.word }
    }),
    fault(FUSED, "infinities of two signs give one of them", |f, r, a| {
        a.word = if f.is_infinite(r.z()) && f.is_nan(a.word) { r.z() } else { a.word }
    }),
    fault(FUSED, "zero times infinity is z", |f, r, a| {
        let zero =
            f.is_zero(r.x()) && f.is_infinite(r.y()) || f.is_infinite(r.x()) && f.is_zero(r.y());
        a.word = if zero { r.z() } else { a.word }
    }),
    fault(FUSED, "one gap is left out", |f, r, a| strike(a, gap(f, r) == Some(f.width as i32 - 1))),
    fault(FUSED, "z is left out far below", |f, r, a| {
        a.word = match gap(f, r) {
            Some(gap) if gap < -(3 * f.width as i32) => fma(f, r.x(), r.y(), 0),
            _ => a.word,
        }
    }),
    fault(FUSED, "the product is left out two words below", |f, r, a| {
        a.word = match gap(f, r) {
            Some(gap) if gap > f.fraction_bits as i32 => r.z(),
            _ => a.word,
        }
    }),
];

/// Whether there is a root to speak of.
fn is_root(format: Format, request: &Request) -> bool {
    let x = request.x();
    format.is_finite(x) && !format.is_negative(x) && !format.is_zero(x)
}
/// A number in the measure in which the squares of units are whole.
pub fn square(format: Format, x: u64) -> Big {
    format.scaled_units(x, format.unit_shift())
}
fn root_of(format: Format, request: &Request, answer: &Answer) -> Big {
    let root = if is_root(format, request) { format.units(answer.word) } else { Big::zero() };
    root.mul(&root)
}
/// Whether the root of x is within a 2^-part of a last place of a midpoint.
pub fn is_near_a_tie(format: Format, x: u64, root: u64, part: u32) -> bool {
    let four = square(format, x).shl(2);
    [root - 1, root].into_iter().any(|low| {
        let (below, above) = (format.units(low), format.units(low + 1));
        let ends = below.add(&above);
        let middle = ends.mul(&ends);
        let off = if middle >= four { middle.sub(&four) } else { four.sub(&middle) };
        off.shl(part) < ends.mul(&above.sub(&below))
    })
}

/// Whether all three are finite and neither factor is zero.
fn is_sum(format: Format, request: &Request) -> bool {
    request.words.iter().all(|word| format.is_finite(*word))
        && !format.is_zero(request.x())
        && !format.is_zero(request.y())
}
/// The place of half a last place of a number of this magnitude.
fn half_place(format: Format, sum: &Big) -> u32 {
    sum.bits().saturating_sub(format.fraction_bits + 2).max(format.unit_shift() - 1)
}
fn is_middle(format: Format, sum: &Big) -> bool {
    sum.bits() > 0 && sum.twos() == half_place(format, sum)
}
pub fn is_tie(format: Format, words: [u64; 3]) -> bool {
    words.iter().all(|word| format.is_finite(*word)) && is_middle(format, &sum(format, words))
}
/// Whether the sum is a tie but for digits at least so many places further down.
fn is_near_tie(format: Format, request: &Request, places: u32) -> bool {
    is_sum(format, request) && {
        let sum = sum(format, request.words);
        let cut = half_place(format, &sum).saturating_sub(places);
        let kept = sum.shr(cut).shl(cut);
        kept != sum && is_middle(format, &kept)
    }
}
/// Whether a subnormal sum is a tie once it is rounded to a whole significand, and is none itself.
fn is_rounded_twice(format: Format, request: &Request) -> bool {
    is_sum(format, request) && {
        let sum = sum(format, request.words);
        let cut = sum.bits().saturating_sub(format.fraction_bits + 1);
        let rounded = sum.shr(cut.max(1) - 1).add(&Big::from(1)).shr(1).shl(cut);
        let least = format.scaled_units(format.smallest_normal(), format.unit_shift());
        cut > 0 && sum < least && rounded != sum && is_middle(format, &rounded)
    }
}
fn is_above_the_largest(format: Format, request: &Request) -> bool {
    sum(format, request.words) > format.scaled_units(format.largest_finite(), format.unit_shift())
}
/// How far the leading digit of z stands above that of the product.
pub fn gap(format: Format, request: &Request) -> Option<i32> {
    let product = || format.units(request.x()).mul(&format.units(request.y())).bits() as i32;
    (is_sum(format, request) && !format.is_zero(request.z()))
        .then(|| format.units(request.z()).bits() as i32 + format.unit_shift() as i32 - product())
}
