//! The operations that take a number apart, modf, frexp and ilogb, and nextafter: what they give, and
//! how they go together.

use std::fmt::LowerHex;

use paskerotim::*;

use crate::claims::Operands;
use crate::known::hex;

fn two<T: LowerHex>((fraction, whole): (T, T)) -> String {
    format!("{} {}", hex(fraction), hex(whole))
}

fn with_exponent<T: LowerHex>((fraction, exponent): (T, i32)) -> String {
    format!("{} {exponent}", hex(fraction))
}

pub fn on_patterns(operation: &str, o: &Operands) -> String {
    match operation {
        "modf64" => two(modf64(o.word64(0))),
        "modf32" => two(modf32(o.word32(0))),
        "frexp64" => with_exponent(frexp64(o.word64(0))),
        "frexp32" => with_exponent(frexp32(o.word32(0))),
        "ilogb64" => ilogb64(o.word64(0)).to_string(),
        "ilogb32" => ilogb32(o.word32(0)).to_string(),
        "nextafter64" => hex(nextafter64(o.word64(0), o.word64(1))),
        "nextafter32" => hex(nextafter32(o.word32(0), o.word32(1))),
        other => panic!("no operation {other}"),
    }
}

/// The same of the functions on numbers, as patterns.
pub fn on_numbers(operation: &str, o: &Operands) -> Option<String> {
    let double = |place| f64::from_bits(o.word64(place));
    let single = |place| f32::from_bits(o.word32(place));
    let doubles = |(fraction, whole): (f64, f64)| two((fraction.to_bits(), whole.to_bits()));
    let singles = |(fraction, whole): (f32, f32)| two((fraction.to_bits(), whole.to_bits()));
    Some(match operation {
        "modf64" => doubles(modf(double(0))),
        "modf32" => singles(modff(single(0))),
        "frexp64" => {
            let (fraction, exponent) = frexp(double(0));
            with_exponent((fraction.to_bits(), exponent))
        }
        "frexp32" => {
            let (fraction, exponent) = frexpf(single(0));
            with_exponent((fraction.to_bits(), exponent))
        }
        "ilogb64" => ilogb(double(0)).to_string(),
        "ilogb32" => ilogbf(single(0)).to_string(),
        "nextafter64" => hex(nextafter(double(0), double(1)).to_bits()),
        "nextafter32" => hex(nextafterf(single(0), single(1)).to_bits()),
        _ => return None,
    })
}

/// Finite numbers of either sign from every binade, subnormal ones among them.
fn numbers() -> impl Iterator<Item = f64> {
    (0..0x7ff).flat_map(|exponent| {
        [0u64, 1, 0x5555555555555, 0x8000000000000, 0xfffffffffffff]
            .into_iter()
            .map(move |fraction| f64::from_bits(exponent << 52 | fraction))
            .flat_map(|x| [x, -x])
    })
}

#[test]
fn the_two_parts_of_modf_add_to_the_number() {
    for x in numbers() {
        let (fraction, whole) = modf(x);
        assert_eq!(fraction + whole, x);
        assert!(fraction.abs() < 1.0);
        assert_eq!(whole.to_bits(), trunc(x).to_bits());
        let signs = (fraction.is_sign_negative(), whole.is_sign_negative());
        assert_eq!(signs, (x.is_sign_negative(), x.is_sign_negative()));
    }
}

#[test]
fn scalbn_puts_together_what_frexp_takes_apart() {
    for x in numbers().filter(|x| *x != 0.0) {
        let (fraction, exponent) = frexp(x);
        assert!((0.5..1.0).contains(&fraction.abs()));
        assert_eq!(scalbn(fraction, exponent).to_bits(), x.to_bits());
        assert_eq!(ilogb(x), exponent - 1);
    }
}

#[test]
fn nextafter_goes_one_pattern_on_and_back() {
    for x in numbers().filter(|x| *x != 0.0) {
        let outward = nextafter(x, f64::INFINITY.copysign(x));
        assert_eq!(outward.to_bits(), x.to_bits() + 1);
        assert_eq!(nextafter(outward, 0.0).to_bits(), x.to_bits());
        assert_eq!(nextafter(x, x).to_bits(), x.to_bits());
    }
    assert_eq!(nextafter(0.0, -1.0).to_bits(), 0x8000000000000001);
    assert_eq!(nextafter(-0.0, 0.0).to_bits(), 0);
}

/// What ISO C leaves to the library, by its name and its number.
#[test]
fn what_has_no_exponent_has_a_number() {
    for x in [0.0, -0.0] {
        assert_eq!((ilogb(x), ilogbf(x as f32)), (ILOGB_ZERO, ILOGB_ZERO));
    }
    for x in [f64::INFINITY, f64::NEG_INFINITY] {
        assert_eq!(
            (ilogb(x), ilogbf(x as f32)),
            (ILOGB_INFINITY, ILOGB_INFINITY)
        );
        assert_eq!((frexp(x), frexpf(x as f32)), ((x, 0), (x as f32, 0)));
    }
    assert_eq!(
        (ILOGB_ZERO, ILOGB_NAN, ILOGB_INFINITY),
        (-2147483648, -2147483648, 2147483647)
    );
}
