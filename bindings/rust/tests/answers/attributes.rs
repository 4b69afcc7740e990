//! The functions under an attribute: what they give, by the attribute's number, and what attributes
//! are.

use std::fmt::LowerHex;

use paskerotim::*;

use crate::claims::{Operands, ATTRIBUTES};
use crate::known::hex;

pub const ALL: [Attribute; 5] = [
    Attribute::Even,
    Attribute::Zero,
    Attribute::Down,
    Attribute::Up,
    Attribute::Away,
];

/// The answer as a line has it. A number that is no attribute is none here either: what a C caller
/// gets for it is what such a line claims.
fn by_number<T: LowerHex + Default>(
    number: u32,
    call: impl FnOnce(Attribute) -> (T, Flags),
) -> String {
    match Attribute::from_number(number) {
        Some(attribute) => {
            let (value, flags) = call(attribute);
            format!("0 {} {flags}", hex(value))
        }
        None => format!("10 {} OK", hex(T::default())),
    }
}

pub fn on_patterns(number: u32, operation: &str, o: &Operands) -> String {
    match operation {
        "sqrt64" => by_number(number, |a| sqrt64_rounded(a, o.word64(0))),
        "sqrt32" => by_number(number, |a| sqrt32_rounded(a, o.word32(0))),
        "scalbn64" => by_number(number, |a| scalbn64_rounded(a, o.word64(0), o.signed(1))),
        "scalbn32" => by_number(number, |a| scalbn32_rounded(a, o.word32(0), o.signed(1))),
        "fma64" => by_number(number, |a| {
            fma64_rounded(a, o.word64(0), o.word64(1), o.word64(2))
        }),
        "fma32" => by_number(number, |a| {
            fma32_rounded(a, o.word32(0), o.word32(1), o.word32(2))
        }),
        other => panic!("no operation {other} under an attribute"),
    }
}

/// The same of the functions on numbers, as patterns.
pub fn on_numbers(number: u32, operation: &str, o: &Operands) -> String {
    let double = |place| f64::from_bits(o.word64(place));
    let single = |place| f32::from_bits(o.word32(place));
    let doubles = |(value, flags): (f64, Flags)| (value.to_bits(), flags);
    let singles = |(value, flags): (f32, Flags)| (value.to_bits(), flags);
    match operation {
        "sqrt64" => by_number(number, |a| doubles(sqrt_rounded(a, double(0)))),
        "sqrt32" => by_number(number, |a| singles(sqrtf_rounded(a, single(0)))),
        "scalbn64" => by_number(number, |a| {
            doubles(scalbn_rounded(a, double(0), o.signed(1)))
        }),
        "scalbn32" => by_number(number, |a| {
            singles(scalbnf_rounded(a, single(0), o.signed(1)))
        }),
        "fma64" => by_number(number, |a| {
            doubles(fma_rounded(a, double(0), double(1), double(2)))
        }),
        "fma32" => by_number(number, |a| {
            singles(fmaf_rounded(a, single(0), single(1), single(2)))
        }),
        other => panic!("no operation {other} under an attribute"),
    }
}

#[test]
fn attributes_have_their_numbers() {
    assert_eq!(ALL.map(Attribute::number), [0, 1, 2, 3, 4]);
    for attribute in ALL {
        let number = attribute.number();
        assert_eq!(Attribute::from_number(number), Some(attribute));
        let name = format!("{attribute:?}").to_lowercase();
        assert_eq!(ATTRIBUTES[number as usize], name);
    }
    for number in [5, 7, 1 << 31, u32::MAX] {
        assert_eq!(Attribute::from_number(number), None);
    }
}

/// The ends of a band are neighbours or, where the answer is exact, one number; the others round to
/// one of them.
#[test]
fn a_band_holds_the_other_answers() {
    for x in 1..2000 {
        let [even, zero, down, up, away] = ALL.map(|a| sqrt_rounded(a, f64::from(x)));
        let exact = down.0 * down.0 == f64::from(x) && down.0 == down.0.trunc();
        assert_eq!(up.0.to_bits() - down.0.to_bits(), u64::from(!exact), "{x}");
        for (root, flags) in [even, zero, down, up, away] {
            assert!(root == down.0 || root == up.0, "{x}");
            assert_eq!(flags.inexact, !exact, "{x}");
        }
        assert_eq!((zero, even), (down, away), "{x}");
        assert_eq!(even.0, f64::from(x).sqrt(), "{x}");
    }
}
