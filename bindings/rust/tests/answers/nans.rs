//! NaNs: every operation answers the canonical one, and invalid is raised where one signals.

use paskerotim::*;

use crate::attributes::ALL;

const ONE64: u64 = 0x3ff0000000000000;
const ONE32: u32 = 0x3f800000;

/// Of either sign, with payloads of one bit, of all bits and of some; and whether it signals.
const NANS64: [(u64, bool); 8] = [
    (0x7ff8000000000000, false),
    (0x7ff0000000000001, true),
    (0xfff0000000000001, true),
    (0x7fffffffffffffff, false),
    (0xffffffffffffffff, false),
    (0xfff8000012345678, false),
    (0x7ff7ffffffffffff, true),
    (0xfff4000000000000, true),
];
const NANS32: [(u32, bool); 8] = [
    (0x7fc00000, false),
    (0x7f800001, true),
    (0xff800001, true),
    (0x7fffffff, false),
    (0xffffffff, false),
    (0xffc12345, false),
    (0x7fbfffff, true),
    (0xffa00000, true),
];

/// The canonical NaN with invalid or with nothing, and not invalid with anything.
fn canonical<T>(nan: T, invalid: bool) -> (T, Flags) {
    let raised = Flags {
        invalid,
        ..Flags::NONE
    };
    (nan, raised)
}

#[test]
fn of_one_operand() {
    for (nan, signals) in NANS64 {
        let wanted = canonical(NAN64, signals);
        assert_eq!(sqrt64_flags(nan), wanted);
        assert_eq!(floor64_flags(nan), wanted);
        assert_eq!(trunc64_flags(nan), wanted);
        assert_eq!(ceil64_flags(nan), wanted);
        assert_eq!(scalbn64_flags(nan, 7), wanted);
        assert_eq!(modf64(nan), (NAN64, NAN64));
        assert_eq!(frexp64(nan), (NAN64, 0));
        assert_eq!(ilogb64(nan), ILOGB_NAN);
        let number = f64::from_bits(nan);
        assert_eq!(floor(number).to_bits(), NAN64);
        assert_eq!(trunc(number).to_bits(), NAN64);
        assert_eq!(ceil(number).to_bits(), NAN64);
    }
    for (nan, signals) in NANS32 {
        let wanted = canonical(NAN32, signals);
        assert_eq!(sqrt32_flags(nan), wanted);
        assert_eq!(floor32_flags(nan), wanted);
        assert_eq!(trunc32_flags(nan), wanted);
        assert_eq!(ceil32_flags(nan), wanted);
        assert_eq!(scalbn32_flags(nan, 7), wanted);
        assert_eq!(modf32(nan), (NAN32, NAN32));
        assert_eq!(frexp32(nan), (NAN32, 0));
        assert_eq!(ilogb32(nan), ILOGB_NAN);
        let number = f32::from_bits(nan);
        assert_eq!(floorf(number).to_bits(), NAN32);
        assert_eq!(truncf(number).to_bits(), NAN32);
        assert_eq!(ceilf(number).to_bits(), NAN32);
    }
}

#[test]
fn of_several_operands() {
    for (nan, signals) in NANS64 {
        for (x, y) in [(nan, ONE64), (ONE64, nan), (nan, nan)] {
            assert_eq!(fma64_flags(x, y, ONE64), canonical(NAN64, signals));
            assert_eq!(fma64_flags(ONE64, x, y), canonical(NAN64, signals));
            assert_eq!(fmod64(x, y), NAN64);
            assert_eq!(nextafter64(x, y), NAN64);
            assert_eq!(remquo64(x, y), (NAN64, 0));
        }
    }
    for (nan, signals) in NANS32 {
        for (x, y) in [(nan, ONE32), (ONE32, nan), (nan, nan)] {
            assert_eq!(fma32_flags(x, y, ONE32), canonical(NAN32, signals));
            assert_eq!(fma32_flags(ONE32, x, y), canonical(NAN32, signals));
            assert_eq!(fmod32(x, y), NAN32);
            assert_eq!(nextafter32(x, y), NAN32);
        }
    }
}

/// Zero times infinity is invalid whatever is added to it; a NaN times either is not by itself.
#[test]
fn of_zero_times_infinity() {
    for (nan, signals) in NANS64 {
        let infinite = 0x7ff0000000000000;
        assert_eq!(fma64_flags(0, infinite, nan), canonical(NAN64, true));
        assert_eq!(fma64_flags(infinite, 0, nan), canonical(NAN64, true));
        assert_eq!(fma64_flags(nan, infinite, 0), canonical(NAN64, signals));
        assert_eq!(fma64_flags(0, nan, infinite), canonical(NAN64, signals));
    }
    for (nan, signals) in NANS32 {
        let infinite = 0x7f800000;
        assert_eq!(fma32_flags(0, infinite, nan), canonical(NAN32, true));
        assert_eq!(fma32_flags(infinite, 0, nan), canonical(NAN32, true));
        assert_eq!(fma32_flags(nan, infinite, 0), canonical(NAN32, signals));
        assert_eq!(fma32_flags(0, nan, infinite), canonical(NAN32, signals));
    }
}

#[test]
fn of_calls_under_an_attribute() {
    for attribute in ALL {
        for (nan, signals) in NANS64 {
            let wanted = canonical(NAN64, signals);
            assert_eq!(sqrt64_rounded(attribute, nan), wanted);
            assert_eq!(scalbn64_rounded(attribute, nan, 7), wanted);
            assert_eq!(fma64_rounded(attribute, ONE64, nan, ONE64), wanted);
            assert_eq!(fma64_rounded(attribute, ONE64, ONE64, nan), wanted);
        }
        for (nan, signals) in NANS32 {
            let wanted = canonical(NAN32, signals);
            assert_eq!(sqrt32_rounded(attribute, nan), wanted);
            assert_eq!(scalbn32_rounded(attribute, nan, 7), wanted);
            assert_eq!(fma32_rounded(attribute, ONE32, nan, ONE32), wanted);
            assert_eq!(fma32_rounded(attribute, ONE32, ONE32, nan), wanted);
        }
    }
}

#[test]
fn of_a_list() {
    let xs = NANS64.map(|(nan, _)| nan);
    let mut ys = [0; NANS64.len()];
    for op in [
        ListOperation::Sqrt,
        ListOperation::Floor,
        ListOperation::Trunc,
    ] {
        ys.fill(0);
        assert_eq!(list64(op, &xs, &mut ys), Ok(()));
        assert_eq!(ys, [NAN64; NANS64.len()]);
    }
}
