//! Where the operands of modf, frexp, ilogb and nextafter lie, as far as their answers turn on it.

use crate::format::Format;
use crate::places::places;

places! { Parted, PARTED:
    SignallingX "x a signalling NaN",
    QuietX "x a quiet NaN",
    Infinite "x infinite",
    Zero "x zero",
    Small "x below one, subnormal",
    BelowOne "x below one, normal",
    OneDigit "one digit of x behind the point",
    MoreDigits "more digits of x behind the point",
    Integer "x an integer, the point among its digits",
    PastPoint "x an integer, the point past its digits",
}
places! { Leading, LEADING:
    SignallingX "x a signalling NaN",
    QuietX "x a quiet NaN",
    Infinite "x infinite",
    Zero "x zero",
    Least "x the least subnormal number",
    SmallPower "x a subnormal power of two",
    Small "x subnormal, no power of two",
    LeastNormal "x the least normal number",
    Power "x a normal power of two",
    Normal "x normal, no power of two",
    Largest "x the largest number",
}
places! { Step, STEPS:
    NanX "x a NaN, y none",
    NanY "y a NaN, x none",
    Nans "x and y NaNs",
    Zeros "zeros of one sign",
    UnlikeZeros "zeros of unlike signs",
    Same "x and y the same, not zero",
    FromZero "from zero to the least subnormal number",
    ToZero "from the least subnormal number to zero",
    Small "from a subnormal number to the next",
    ToNormal "from the largest subnormal to the least normal number",
    FromNormal "from the least normal to the largest subnormal number",
    ToPower "away from zero to a power of two",
    FromPower "toward zero from a power of two",
    ToInfinity "from the largest number to infinity",
    FromInfinity "from infinity to the largest number",
    Away "away from zero, within a binade",
    Toward "toward zero, within a binade, y of the same sign",
    Across "toward zero, within a binade, y of the other sign",
}

pub fn parted(f: Format, x: u64) -> Parted {
    let (magnitude, field) = (f.magnitude(x), f.exponent_field(x));
    match x {
        _ if f.is_signalling(x) => Parted::SignallingX,
        _ if f.is_nan(x) => Parted::QuietX,
        _ if f.is_infinite(x) => Parted::Infinite,
        _ if f.is_zero(x) => Parted::Zero,
        _ if field == 0 => Parted::Small,
        _ if magnitude < f.one() => Parted::BelowOne,
        _ if field >= f.bias() + f.fraction_bits => Parted::PastPoint,
        _ => match behind_point(f, x).count_ones() {
            0 => Parted::Integer,
            1 => Parted::OneDigit,
            _ => Parted::MoreDigits,
        },
    }
}

/// The digits behind the point of a number from one on, as its pattern has them.
fn behind_point(f: Format, x: u64) -> u64 {
    let before = f.exponent_field(x) - f.bias();
    f.fraction_field(x) & ((f.smallest_normal() >> before) - 1)
}

pub fn leading(f: Format, x: u64) -> Leading {
    let magnitude = f.magnitude(x);
    match magnitude {
        _ if f.is_signalling(x) => Leading::SignallingX,
        _ if f.is_nan(x) => Leading::QuietX,
        _ if f.is_infinite(x) => Leading::Infinite,
        0 => Leading::Zero,
        1 => Leading::Least,
        _ if magnitude == f.smallest_normal() => Leading::LeastNormal,
        _ if magnitude == f.largest_finite() => Leading::Largest,
        _ if magnitude > f.smallest_normal() && f.fraction_field(x) == 0 => Leading::Power,
        _ if magnitude > f.smallest_normal() => Leading::Normal,
        _ if magnitude.is_power_of_two() => Leading::SmallPower,
        _ => Leading::Small,
    }
}

/// By the step from x to the answer.
pub fn step(f: Format, x: u64, y: u64, answer: u64) -> Step {
    match [x, y].map(|one| f.is_nan(one)) {
        [true, true] => return Step::Nans,
        [true, false] => return Step::NanX,
        [false, true] => return Step::NanY,
        [false, false] => {}
    }
    let (from, to, least) = (f.magnitude(x), f.magnitude(answer), f.smallest_normal());
    let is_power = |magnitude: u64| f.fraction_field(magnitude) == 0;
    match (from, to) {
        _ if f.is_zero(x) && f.is_zero(y) && x != y => Step::UnlikeZeros,
        _ if x == y && from == 0 => Step::Zeros,
        _ if x == y => Step::Same,
        (0, _) => Step::FromZero,
        (_, 0) => Step::ToZero,
        _ if from < least && to < least => Step::Small,
        _ if from < least => Step::ToNormal,
        _ if to < least => Step::FromNormal,
        _ if f.is_infinite(to) => Step::ToInfinity,
        _ if f.is_infinite(from) => Step::FromInfinity,
        _ if to > from && is_power(to) => Step::ToPower,
        _ if to > from => Step::Away,
        _ if is_power(from) => Step::FromPower,
        _ if f.sign(x) == f.sign(y) => Step::Toward,
        _ => Step::Across,
    }
}

#[cfg(test)]
mod tests {
    use super::*;
    use crate::format::{WIDTH_32, WIDTH_64};

    #[test]
    fn where_the_point_stands_is_told() {
        for f in [WIDTH_64, WIDTH_32] {
            let place = |x: u64| PARTED[parted(f, x | f.sign_bit()) as usize];
            let half = f.smallest_normal() >> 1;
            assert_eq!(place(f.one() - 1), "x below one, normal");
            assert_eq!(place(f.one()), "x an integer, the point among its digits");
            assert_eq!(place(f.one() | half), "one digit of x behind the point");
            assert_eq!(place(f.one() | half | 1), "more digits of x behind the point");
            // Two and three, then the numbers about 2^52 or 2^23, from where on no digit is behind the point.
            let two = f.one() + f.smallest_normal();
            assert_eq!(place(two | half), "x an integer, the point among its digits");
            assert_eq!(place(two | half >> 1), "one digit of x behind the point");
            let past = f.one() + u64::from(f.fraction_bits) * f.smallest_normal();
            assert_eq!(place(past - 1), "one digit of x behind the point");
            assert_eq!(place(past - 2), "x an integer, the point among its digits");
            assert_eq!(place(past), "x an integer, the point past its digits");
        }
    }
    #[test]
    fn steps_are_told_by_both_ends() {
        for f in [WIDTH_64, WIDTH_32] {
            let (minus, least, largest) = (f.sign_bit(), f.smallest_normal(), f.largest_finite());
            let place = |x, y, answer| STEPS[step(f, x, y, answer) as usize];
            assert_eq!(place(0, minus, minus), "zeros of unlike signs");
            assert_eq!(place(minus, minus, minus), "zeros of one sign");
            assert_eq!(place(minus, 1, 1), "from zero to the least subnormal number");
            assert_eq!(place(minus | 1, 1, minus), "from the least subnormal number to zero");
            assert_eq!(place(least - 1, least, least), "from the largest subnormal to the least normal number");
            assert_eq!(place(least, 0, least - 1), "from the least normal to the largest subnormal number");
            assert_eq!(place(f.one() - 1, largest, f.one()), "away from zero to a power of two");
            assert_eq!(place(f.one(), 0, f.one() - 1), "toward zero from a power of two");
            assert_eq!(place(largest, f.infinity(), f.infinity()), "from the largest number to infinity");
            assert_eq!(place(f.infinity(), 0, largest), "from infinity to the largest number");
            assert_eq!(place(f.one() + 2, minus, f.one() + 1), "toward zero, within a binade, y of the other sign");
        }
    }
}
