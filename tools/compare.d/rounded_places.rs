//! What the operands of a run under an attribute were, told by the exact value: where it lies, and what the attribute made of
//! it. Each of the two is counted for values above and below zero apart, as an attribute may turn on the sign.

use crate::attributes::Attribute;
use crate::format::Format;
use crate::locations::{LOCATIONS, Location, Magnitude};
use crate::operations::{Form, Operation, Task};
use crate::places::places;
use crate::request::flags::{OVERFLOW, UNDERFLOW};
use crate::request::{Answer, Request};
use std::sync::OnceLock;

// What has no place among the numbers, or one of its own.
places! { Apart, APART:
    SignallingNan "a signalling NaN",
    QuietNan "a quiet NaN",
    BelowZero "the root of a number below zero",
    ZeroTimesInfinity "zero times infinity",
    InfinityLessInfinity "infinity less infinity",
    Infinite "infinite, exactly",
    Zero "zero, exactly",
    UnlikeTerms "a zero sum of terms of unlike signs",
    UnlikeZeros "a zero sum of zeros of unlike signs",
    LikeZeros "a zero sum of zeros of one sign",
    ZeroProduct "a zero product, and z not zero",
    JustAboveRoot "a normal number and a sixteenth of a place or less",
    JustBelowRoot "a normal number but for a sixteenth of a place or less",
    SmallRoot "the root of a subnormal number, exactly",
    SmallRootInexact "the root of a subnormal number, inexact",
}
places! { Made, MADE:
    Exact "the exact value",
    Inward "rounded toward zero",
    Outward "rounded away from zero",
    Infinity "infinity by overflow",
    Largest "the largest number by overflow",
    ToZero "zero by underflow",
    LeastSubnormal "the least subnormal number for less",
    LeastNormal "the least normal number with underflow",
    PlusZero "+0 of terms of unlike signs",
    MinusZero "-0 of terms of unlike signs",
}

/// What stands after a name where the value is below zero.
pub const BELOW_ZERO: &str = ", below zero";

/// The names without a sign: where values lie, and what was made of them.
pub fn names_of_places() -> Vec<&'static str> {
    [APART, LOCATIONS].concat()
}
pub fn names_of_answers() -> &'static [&'static str] {
    MADE
}

#[derive(Clone, Copy)]
enum What {
    Apart(Apart),
    At(Location),
    Made(Made),
}

impl What {
    /// The place among all names, by the sign of the value.
    fn place(self, is_negative: bool) -> usize {
        let place = match self {
            What::Apart(apart) => apart as usize,
            What::At(location) => APART.len() + location as usize,
            What::Made(made) => APART.len() + LOCATIONS.len() + made as usize,
        };
        2 * place + usize::from(is_negative)
    }
    /// Whether the sign of the answer says something of the value: of no number, and of a zero of unlike signs, it does not.
    fn has_sign(self) -> bool {
        use Apart::*;
        match self {
            What::Apart(SignallingNan | QuietNan | BelowZero | ZeroTimesInfinity | InfinityLessInfinity) => false,
            What::Apart(UnlikeTerms | UnlikeZeros) | What::Made(Made::PlusZero | Made::MinusZero) => false,
            _ => true,
        }
    }
}

/// All names, each followed by the same below zero.
pub fn names() -> &'static [&'static str] {
    static NAMES: OnceLock<Vec<&'static str>> = OnceLock::new();
    NAMES.get_or_init(|| {
        let below = |name: &str| -> &'static str { String::leak(format!("{name}{BELOW_ZERO}")) };
        let all = [APART, LOCATIONS, MADE].concat();
        all.into_iter().flat_map(|name| [name, below(name)]).collect()
    })
}

/// The places of an operand among the names: of its value, and of what was made of it.
pub fn places_met(
    operation: &Operation,
    request: &Request,
    exact: &Answer,
) -> [Option<usize>; 2] {
    let format = operation.format;
    let is_negative = format.is_negative(exact.word);
    let (lies, below) = match operation.task {
        Task::Sqrt => root(format, request.x(), exact),
        Task::Scalbn => scaled(format, request),
        _ => fused(format, request, exact),
    };
    let made = match lies {
        What::Apart(Apart::UnlikeTerms | Apart::UnlikeZeros) if is_negative => Some(Made::MinusZero),
        What::Apart(Apart::UnlikeTerms | Apart::UnlikeZeros) => Some(Made::PlusZero),
        _ => below.map(|below| made(format, exact, below)),
    };
    [Some(lies), made.map(What::Made)].map(|met| Some(met?.place(is_negative && met?.has_sign())))
}

/// What an inexact value with this number below it became, or an exact one.
fn made(format: Format, exact: &Answer, below: u64) -> Made {
    let magnitude = format.magnitude(exact.word);
    let raises = |flag: u32| exact.number & i64::from(flag) != 0;
    match magnitude {
        _ if exact.number == 0 => Made::Exact,
        _ if raises(OVERFLOW) && format.is_infinite(magnitude) => Made::Infinity,
        _ if raises(OVERFLOW) => Made::Largest,
        0 => Made::ToZero,
        1 if below == 0 => Made::LeastSubnormal,
        _ if raises(UNDERFLOW) && magnitude == format.smallest_normal() => Made::LeastNormal,
        _ if magnitude > below => Made::Outward,
        _ => Made::Inward,
    }
}

/// A value, and the greatest magnitude that is not above its own, where it has one.
type Found = (What, Option<u64>);

fn nan(format: Format, operands: &[u64]) -> What {
    let signals = operands.iter().any(|operand| format.is_signalling(*operand));
    What::Apart(if signals { Apart::SignallingNan } else { Apart::QuietNan })
}

/// The root lies beside the answer: squares say on which side, and how near.
fn root(format: Format, x: u64, exact: &Answer) -> Found {
    match x {
        _ if format.is_nan(x) => return (nan(format, &[x]), None),
        _ if format.is_zero(x) => return (What::Apart(Apart::Zero), None),
        _ if format.is_negative(x) => return (What::Apart(Apart::BelowZero), None),
        _ if format.is_infinite(x) => return (What::Apart(Apart::Infinite), None),
        _ => {}
    }
    let (number, exponent) = format.significand(x);
    // The digits of a number, and x in squares of its last place.
    let beside = |pattern: u64| {
        let (digits, place) = format.significand(pattern);
        (u128::from(digits), u128::from(number) << (exponent - 2 * place))
    };
    let is_above = |pattern: u64| beside(pattern).0.pow(2) > beside(pattern).1;
    let below = exact.word - u64::from(is_above(exact.word));
    let (digits, square) = beside(below);
    // A judge that errs, as one that is made to, has no root beside its answer.
    let off = square.saturating_sub(digits * digits);
    let to_next = ((digits + 1) * (digits + 1)).saturating_sub(square);
    let what = match off {
        0 if format.exponent_field(x) == 0 => What::Apart(Apart::SmallRoot),
        _ if format.exponent_field(x) == 0 => What::Apart(Apart::SmallRootInexact),
        0 => What::At(Location::Normal),
        _ if 8 * off <= digits => What::Apart(Apart::JustAboveRoot),
        _ if 8 * to_next <= digits => What::Apart(Apart::JustBelowRoot),
        _ if off <= digits => What::At(Location::NormalAndLess),
        _ => What::At(Location::NormalAndMore),
    };
    (what, Some(below))
}

fn scaled(format: Format, request: &Request) -> Found {
    match request.x() {
        x if format.is_nan(x) => (nan(format, &[x]), None),
        x if format.is_infinite(x) => (What::Apart(Apart::Infinite), None),
        x if format.is_zero(x) => (What::Apart(Apart::Zero), None),
        _ => located(format, &Magnitude::of_scaled(format, request)),
    }
}

fn located(format: Format, value: &Magnitude) -> Found {
    let (location, below) = value.located(format);
    (What::At(location), Some(below))
}

fn fused(format: Format, request: &Request, exact: &Answer) -> Found {
    let [x, y, z] = request.words;
    let is_zero = |operand: u64| format.is_zero(operand);
    let is_zero_product = is_zero(x) || is_zero(y);
    if request.words.iter().any(|operand| !format.is_finite(*operand)) {
        return (not_finite(format, request.words, exact), None);
    }
    if is_zero_product && is_zero(z) {
        let is_like = format.sign(x) ^ format.sign(y) == format.sign(z);
        return (What::Apart(if is_like { Apart::LikeZeros } else { Apart::UnlikeZeros }), None);
    }
    let value = Magnitude::of_sum(format, request);
    if value.is_zero() {
        return (What::Apart(Apart::UnlikeTerms), None);
    }
    let (what, below) = located(format, &value);
    (if is_zero_product { What::Apart(Apart::ZeroProduct) } else { what }, below)
}

/// An operand is infinite or a NaN.
fn not_finite(format: Format, [x, y, z]: [u64; 3], exact: &Answer) -> What {
    let zero_times_infinity =
        format.is_zero(x) && format.is_infinite(y) || format.is_infinite(x) && format.is_zero(y);
    match exact.word {
        _ if zero_times_infinity => What::Apart(Apart::ZeroTimesInfinity),
        _ if [x, y, z].iter().any(|operand| format.is_nan(*operand)) => nan(format, &[x, y, z]),
        answer if format.is_nan(answer) => What::Apart(Apart::InfinityLessInfinity),
        _ => What::Apart(Apart::Infinite),
    }
}

/// Whether a run of the operation must meet a place: the values that it has, of the signs that they have, and what its
/// attribute makes of them.
pub fn is_asked(operation: &Operation, place: usize) -> bool {
    match operation.form {
        Form::Attribute(attribute) => asked(operation.task, attribute).contains(&place),
        _ => false,
    }
}

fn asked(task: Task, attribute: Attribute) -> Vec<usize> {
    let apart = apart_of(task).iter().map(|apart| What::Apart(*apart));
    let at = locations_of(task).iter().map(|location| What::At(*location));
    let made = made_of(task).iter().map(|made| What::Made(*made));
    let mut places = Vec::new();
    for what in apart.chain(at).chain(made) {
        for is_negative in [false, true] {
            let is_met = match what {
                _ if is_negative && !what.has_sign() => false,
                What::Apart(Apart::Zero) => true,
                // No other root is below zero.
                _ if is_negative && task == Task::Sqrt => false,
                What::Made(made) => makes(attribute, made, is_negative),
                _ => true,
            };
            places.extend(is_met.then_some(what.place(is_negative)));
        }
    }
    places
}

fn apart_of(task: Task) -> &'static [Apart] {
    use Apart::*;
    match task {
        Task::Sqrt => &[
            SignallingNan, QuietNan, BelowZero, Infinite, Zero, JustAboveRoot, JustBelowRoot, SmallRoot, SmallRootInexact,
        ],
        Task::Scalbn => &[SignallingNan, QuietNan, Infinite, Zero],
        _ => &[
            SignallingNan, QuietNan, ZeroTimesInfinity, InfinityLessInfinity, Infinite, UnlikeTerms, UnlikeZeros, LikeZeros,
            ZeroProduct,
        ],
    }
}

/// A scaled number has no more digits than a significand, so that it lies between two normal numbers nowhere.
fn locations_of(task: Task) -> &'static [Location] {
    use Location::*;
    match task {
        Task::Sqrt => &[NormalAndMore, NormalAndLess, Normal],
        Task::Scalbn => &[
            PastNext, Next, Largest, Normal, Least, HalfWay, LargestSubnormal, SubnormalAndMore, SubnormalAndHalf,
            SubnormalAndLess, Subnormal, MoreThanHalfUnit, HalfUnit, LessThanHalfUnit,
        ],
        _ => &[
            PastNext, Next, LargestAndMore, LargestAndHalf, LargestAndLess, Largest, NormalAndMore, NormalAndHalf,
            NormalAndLess, Normal, JustAboveLeast, Least, PastThreeQuarters, ThreeQuarters, PastHalf, HalfWay, BelowHalf,
            LargestSubnormal, SubnormalAndMore, SubnormalAndHalf, SubnormalAndLess, Subnormal, MoreThanHalfUnit, HalfUnit,
            LessThanHalfUnit,
        ],
    }
}

fn made_of(task: Task) -> &'static [Made] {
    use Made::*;
    match task {
        Task::Sqrt => &[Exact, Inward, Outward],
        Task::Scalbn => &[Exact, Inward, Outward, Infinity, Largest, ToZero, LeastSubnormal, LeastNormal],
        _ => &[Exact, Inward, Outward, Infinity, Largest, ToZero, LeastSubnormal, LeastNormal, PlusZero, MinusZero],
    }
}

/// Whether an attribute makes this of values of a sign (4.3, 6.3, 7.4).
fn makes(attribute: Attribute, made: Made, is_negative: bool) -> bool {
    let (is_outward, is_inward) = match attribute {
        Attribute::Even | Attribute::Away => (true, true),
        Attribute::Zero => (false, true),
        Attribute::Down => (is_negative, !is_negative),
        Attribute::Up => (!is_negative, is_negative),
    };
    match made {
        Made::Exact => true,
        Made::Outward | Made::Infinity | Made::LeastSubnormal | Made::LeastNormal => is_outward,
        Made::Inward | Made::ToZero => is_inward,
        Made::Largest => !is_outward,
        Made::PlusZero => attribute != Attribute::Down,
        Made::MinusZero => attribute == Attribute::Down,
    }
}

#[cfg(test)]
mod tests {
    use super::*;
    use crate::plain::exact;
    use crate::run::operation_of;
    use crate::table::find;

    /// Where the value lies, and what becomes of it.
    fn met(name: &str, request: Request) -> Vec<&'static str> {
        let operation = operation_of(find(name).unwrap());
        let places = places_met(operation, &request, &exact(operation, &request));
        let places: Vec<usize> = places.into_iter().flatten().collect();
        assert!(places.iter().all(|place| is_asked(operation, *place)), "{name} {request:x?}");
        places.into_iter().map(|place| names()[place]).collect()
    }
    const ONE: u64 = 0x3ff0000000000000;
    const MINUS: u64 = 1 << 63;
    const LARGEST: u64 = 0x7fefffffffffffff;

    #[test]
    fn sums_that_vanish_are_told_from_zeros() {
        let fma = |name, words| met(name, Request::three_words(words));
        let unlike = "a zero sum of terms of unlike signs";
        assert_eq!(fma("fma64.down", [ONE, ONE, ONE | MINUS]), [unlike, "-0 of terms of unlike signs"]);
        assert_eq!(fma("fma64.up", [ONE, ONE, ONE | MINUS]), [unlike, "+0 of terms of unlike signs"]);
        let unlike = "a zero sum of zeros of unlike signs";
        assert_eq!(fma("fma64.down", [MINUS, ONE, 0]), [unlike, "-0 of terms of unlike signs"]);
        assert_eq!(fma("fma64.down", [MINUS, ONE, MINUS]), ["a zero sum of zeros of one sign, below zero"]);
        let zero_product = "a zero product, and z not zero, below zero";
        assert_eq!(fma("fma64.even", [0, ONE, ONE | MINUS]), [zero_product, "the exact value, below zero"]);
    }
    #[test]
    fn what_overflows_becomes_infinite_or_the_largest_number() {
        let scaled = |name, x| met(name, Request::word_and_number(x, 1));
        let past = "past the next number that would be";
        assert_eq!(scaled("scalbn64.zero", LARGEST), [past, "the largest number by overflow"]);
        assert_eq!(scaled("scalbn64.up", LARGEST), [past, "infinity by overflow"]);
        let past = "past the next number that would be, below zero";
        assert_eq!(scaled("scalbn64.up", LARGEST | MINUS), [past, "the largest number by overflow, below zero"]);
        assert_eq!(scaled("scalbn64.down", LARGEST | MINUS), [past, "infinity by overflow, below zero"]);
    }
    #[test]
    fn what_underflows_becomes_zero_or_the_least_number() {
        let scaled = |name, x, n| met(name, Request::word_and_number(x, n));
        let half = "half of the least subnormal number";
        assert_eq!(scaled("scalbn64.even", ONE, -1075), [half, "zero by underflow"]);
        assert_eq!(scaled("scalbn64.away", ONE, -1075), [half, "the least subnormal number for less"]);
        let way = "the largest subnormal number and half a place";
        assert_eq!(scaled("scalbn64.up", 0x3fffffffffffffff, -1023), [way, "the least normal number with underflow"]);
        assert_eq!(scaled("scalbn64.zero", 0x3fffffffffffffff, -1023), [way, "rounded toward zero"]);
    }
    #[test]
    fn a_root_is_placed_by_squares() {
        let root = |name, x| met(name, Request::word(x));
        assert_eq!(root("sqrt64.up", 0x4010000000000000), ["a normal number, exactly", "the exact value"]);
        // A place and two places off one: the root is half as far off, but for a little.
        let less = "a normal number and less than half a place";
        assert_eq!(root("sqrt32.up", 0x3f7fffff), [less, "rounded away from zero"]);
        assert_eq!(root("sqrt32.even", 0x3f800001), [less, "rounded toward zero"]);
        let just_below = "a normal number but for a sixteenth of a place or less";
        assert_eq!(root("sqrt32.down", 0x3f800002), [just_below, "rounded toward zero"]);
        assert_eq!(root("sqrt32.away", 0x3f7ffffe), [just_below, "rounded away from zero"]);
        assert_eq!(root("sqrt64.zero", 4), ["the root of a subnormal number, exactly", "the exact value"]);
        assert_eq!(root("sqrt64.zero", MINUS), ["zero, exactly, below zero"]);
        assert_eq!(root("sqrt64.zero", MINUS | 4), ["the root of a number below zero"]);
    }
    #[test]
    fn an_attribute_makes_what_it_can_make() {
        let of = |attribute, made, is_negative| makes(attribute, made, is_negative);
        assert!(of(Attribute::Zero, Made::Largest, true) && !of(Attribute::Zero, Made::Infinity, true));
        assert!(of(Attribute::Down, Made::Infinity, true) && of(Attribute::Down, Made::Largest, false));
        assert!(!of(Attribute::Even, Made::Largest, false) && !of(Attribute::Away, Made::Largest, true));
        assert!(of(Attribute::Down, Made::MinusZero, false) && !of(Attribute::Down, Made::PlusZero, false));
    }
}
