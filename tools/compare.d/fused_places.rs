//! Where the exact sum of fma lies, as far as flags turn on it.

use crate::big::Big;
use crate::format::Format;
use crate::operations::Operation;
use crate::places::places;
use crate::plain::below;
use crate::request::flags::{OVERFLOW, UNDERFLOW};
use crate::request::{Answer, Request};

places! { Fused, FUSED:
    SignallingX "x a signalling NaN",
    SignallingY "y a signalling NaN",
    SignallingZ "z a signalling NaN",
    QuietX "x a quiet NaN",
    QuietY "y a quiet NaN",
    QuietZ "z a quiet NaN",
    Nans "more than one NaN",
    NoProductQuiet "zero times infinity plus a quiet NaN",
    NoProductSignalling "zero times infinity plus a signalling NaN",
    NoProduct "zero times infinity",
    NoSum "infinity less infinity",
    Infinite "infinite, exact",
    Zero "zero, exact",
    Further "overflow, further up",
    PastHalf "the largest number and more than half a place",
    Half "the largest number and half a place",
    BelowHalf "the largest number and less than half a place",
    Largest "the largest number, exactly",
    Exact "normal result, exact",
    Inexact "normal result, inexact",
    JustAbove "just above the least normal number",
    Least "the least normal number, exactly",
    PastThreeQuarters "past three quarters of the way to the least normal number",
    ThreeQuarters "three quarters of the way to the least normal number",
    HalfWay "from half to three quarters of the way to the least normal number",
    BesideLargest "beside the largest subnormal number, inexact",
    SmallExact "subnormal result, exact",
    SmallInexact "subnormal result, inexact",
    ToZero "rounded to zero",
}

pub fn fused(operation: &Operation, request: &Request, exact: &Answer) -> Fused {
    let f = operation.format;
    let answer = f.magnitude(exact.word);
    match answer {
        _ if f.is_nan(answer) => no_number(f, request.words),
        _ if exact.number == 0 && f.is_infinite(answer) => Fused::Infinite,
        _ if exact.number == 0 && answer == 0 => Fused::Zero,
        _ if answer >= f.largest_finite() => about_the_largest(operation, request, exact),
        _ if answer > f.smallest_normal() && exact.number == 0 => Fused::Exact,
        _ if answer > f.smallest_normal() => Fused::Inexact,
        _ if answer == f.smallest_normal() => about_the_least(operation, request, exact),
        _ if exact.number == 0 => Fused::SmallExact,
        0 => Fused::ToZero,
        _ if answer == f.smallest_normal() - 1 => Fused::BesideLargest,
        _ => Fused::SmallInexact,
    }
}

/// The answer is a NaN.
fn no_number(f: Format, [x, y, z]: [u64; 3]) -> Fused {
    let no_product = f.is_zero(x) && f.is_infinite(y) || f.is_infinite(x) && f.is_zero(y);
    let signals = |x: u64, one: Fused, other: Fused| if f.is_signalling(x) { one } else { other };
    match [x, y, z].map(|one| f.is_nan(one)) {
        [false, false, true] if no_product => {
            signals(z, Fused::NoProductSignalling, Fused::NoProductQuiet)
        }
        [true, false, false] => signals(x, Fused::SignallingX, Fused::QuietX),
        [false, true, false] => signals(y, Fused::SignallingY, Fused::QuietY),
        [false, false, true] => signals(z, Fused::SignallingZ, Fused::QuietZ),
        [false, false, false] if no_product => Fused::NoProduct,
        [false, false, false] => Fused::NoSum,
        _ => Fused::Nans,
    }
}

/// The answer is infinite and not exact, or the largest number.
fn about_the_largest(operation: &Operation, request: &Request, exact: &Answer) -> Fused {
    let f = operation.format;
    if exact.number & i64::from(OVERFLOW) == 0 {
        return match exact.number {
            0 => Fused::Largest,
            _ if below(operation, request) == f.largest_finite() => Fused::BelowHalf,
            _ => Fused::Inexact,
        };
    }
    let sum = sum(f, request.words);
    match sum.cmp(&f.scaled_overflow(f.unit_shift())) {
        std::cmp::Ordering::Equal => Fused::Half,
        _ if sum.bits() > f.bias() + 1 + 2 * f.unit_shift() => Fused::Further,
        _ => Fused::PastHalf,
    }
}

/// The answer is the least normal number.
fn about_the_least(operation: &Operation, request: &Request, exact: &Answer) -> Fused {
    let f = operation.format;
    let three_quarters = || {
        let least = f.scaled_units(f.smallest_normal(), f.unit_shift());
        least.sub(&Big::placed(1, f.unit_shift() - 2))
    };
    match exact.number {
        0 => Fused::Least,
        _ if below(operation, request) == f.smallest_normal() => Fused::JustAbove,
        flags if flags & i64::from(UNDERFLOW) != 0 => Fused::HalfWay,
        _ if sum(f, request.words) == three_quarters() => Fused::ThreeQuarters,
        _ => Fused::PastThreeQuarters,
    }
}

/// The magnitude of the exact sum of finite operands, in squares of units.
pub fn sum(format: Format, [x, y, z]: [u64; 3]) -> Big {
    let product = format.units(x).mul(&format.units(y));
    let addend = format.scaled_units(z, format.unit_shift());
    match format.sign(x) ^ format.sign(y) == format.sign(z) {
        true => product.add(&addend),
        false if product >= addend => product.sub(&addend),
        false => addend.sub(&product),
    }
}

#[cfg(test)]
mod tests {
    use super::*;
    use crate::operations::find;
    use crate::plain::exact;

    fn fma(x: u64, y: u64, z: u64) -> &'static str {
        let (operation, request) = (find("fma64").unwrap(), Request::three_words([x, y, z]));
        FUSED[fused(operation, &request, &exact(operation, &request)) as usize]
    }
    const LEAST: u64 = 0x0010000000000000;
    const LARGEST: u64 = 0x7fefffffffffffff;
    const ONE: u64 = 0x3ff0000000000000;
    const NEGATIVE: u64 = 1 << 63;
    /// 2^exponent.
    fn power(exponent: i64) -> u64 {
        ((exponent + 1023) as u64) << 52
    }

    #[test]
    fn parts_of_the_smallest_unit_below_the_least_normal_number() {
        let off = |part: u64| fma(NEGATIVE | 1, part, LEAST);
        assert_eq!(off(power(-3)), "past three quarters of the way to the least normal number");
        assert_eq!(off(power(-2)), "three quarters of the way to the least normal number");
        let between = "from half to three quarters of the way to the least normal number";
        assert_eq!(off(power(-2) + 1), between);
        assert_eq!(off(power(-1)), between);
        assert_eq!(off(power(-1) + 1), "beside the largest subnormal number, inexact");
        assert_eq!(off(ONE), "subnormal result, exact");
        assert_eq!(fma(1, power(-2), LEAST), "just above the least normal number");
        assert_eq!(fma(LEAST, ONE, 0), "the least normal number, exactly");
    }
    #[test]
    fn parts_of_the_last_place_past_the_largest_number() {
        let and = |part: u64| fma(power(970), part, LARGEST);
        assert_eq!(and(ONE - 1), "the largest number and less than half a place");
        assert_eq!(and(ONE), "the largest number and half a place");
        assert_eq!(and(ONE + 1), "the largest number and more than half a place");
        assert_eq!(and(power(1)), "overflow, further up");
        assert_eq!(and(0), "the largest number, exactly");
        assert_eq!(fma(power(970), NEGATIVE | (ONE - 1), LARGEST), "normal result, inexact");
    }
}
