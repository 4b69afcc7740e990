//! What flags are: their bits, their words and their union.

use paskerotim::*;

/// The flags with their bits and words, in the order in which they are written.
const EACH: [(Flags, u32, &str); 5] = [
    (
        Flags {
            invalid: true,
            ..Flags::NONE
        },
        1,
        "INVALID",
    ),
    (
        Flags {
            division_by_zero: true,
            ..Flags::NONE
        },
        4,
        "DIVBYZERO",
    ),
    (
        Flags {
            overflow: true,
            ..Flags::NONE
        },
        8,
        "OVERFLOW",
    ),
    (
        Flags {
            underflow: true,
            ..Flags::NONE
        },
        16,
        "UNDERFLOW",
    ),
    (
        Flags {
            inexact: true,
            ..Flags::NONE
        },
        32,
        "INEXACT",
    ),
];

/// All 32 sets of flags, each joined from those that it has.
#[test]
fn every_set_has_its_bits_and_words() {
    for set in 0..32 {
        let of_set = EACH.iter().enumerate().filter(|(i, _)| set >> i & 1 == 1);
        let (mut flags, mut bits, mut words) = (Flags::NONE, 0, Vec::new());
        for (_, (flag, bit, word)) in of_set {
            flags |= *flag;
            bits += bit;
            words.push(*word);
        }
        let text = if set == 0 {
            "OK".to_string()
        } else {
            words.join("+")
        };
        assert_eq!((flags.bits(), flags.to_string()), (bits, text.clone()));
        assert_eq!(Flags::from_bits(bits), Some(flags));
        assert_eq!((flags.is_empty(), flags.any()), (set == 0, set != 0));
        assert_eq!(format!("{flags:>50}"), format!("{text:>50}"));
    }
}

#[test]
fn a_union_has_what_either_has() {
    for (one, bit, _) in EACH {
        assert_eq!((one | Flags::NONE, Flags::NONE | one), (one, one));
        for (other, other_bit, _) in EACH {
            assert_eq!((one | other).bits(), bit | other_bit);
        }
    }
    assert_eq!(Flags::default(), Flags::NONE);
}

#[test]
fn other_bits_are_no_flags() {
    for bits in [2, 64, 3, 1 << 31, u32::MAX] {
        assert_eq!(Flags::from_bits(bits), None);
    }
}

/// Each call says what it raises, whatever was raised before.
#[test]
fn calls_keep_nothing() {
    let (_, first) = scalbn_flags(1.0, 1024);
    let (root, second) = sqrt_flags(4.0);
    assert_eq!((first.bits(), root, second), (8 + 32, 2.0, Flags::NONE));
}
