//! Numbers for an attribute: those of the five, and those that no attribute has, which are refused.

use crate::attributes::ATTRIBUTES;
use crate::places::places;
use crate::random::Random;

places! { Number, NUMBERS:
    Attribute "the number of an attribute",
    Five "5",
    Six "6",
    Seven "7",
    Byte "8 to 254",
    LastByte "255",
    LowByte "more than 255, the low byte an attribute's",
    LowHalf "more than 65535, the low half an attribute's",
    Sign "2^31",
    Last "2^32 - 1",
    Other "another",
}

const COUNT: u64 = ATTRIBUTES.len() as u64;

pub fn number_of(number: u32) -> Number {
    let is_attribute = |part: u32| u64::from(part) < COUNT;
    match number {
        _ if is_attribute(number) => Number::Attribute,
        5 => Number::Five,
        6 => Number::Six,
        7 => Number::Seven,
        8..=254 => Number::Byte,
        255 => Number::LastByte,
        0x8000_0000 => Number::Sign,
        u32::MAX => Number::Last,
        _ if is_attribute(number & 0xffff) => Number::LowHalf,
        _ if is_attribute(number & 0xff) => Number::LowByte,
        _ => Number::Other,
    }
}

/// Numbers at which a routine may take one for an attribute's: beside the five, and with one of them in the low digits.
pub fn drawn(random: &mut Random) -> u32 {
    let attribute = random.below(COUNT) as u32;
    match random.below(12) {
        0 => attribute,
        1 => 5,
        2 => 6,
        3 => 7,
        4 => 8 + random.below(247) as u32,
        5 => 255,
        6 => (1 + random.below((1 << 24) - 1) as u32) << 8 | attribute,
        7 => (1 + random.below((1 << 16) - 1) as u32) << 16 | attribute,
        8 => 1 << 31,
        9 => u32::MAX,
        10 => (1 << (3 + random.below(29))) | attribute,
        _ => random.word() as u32,
    }
}

#[cfg(test)]
mod tests {
    use super::*;
    use std::collections::BTreeSet;

    #[test]
    fn numbers_of_every_kind_are_drawn() {
        let mut random = Random::new(1, 1);
        let drawn: BTreeSet<u32> = (0..2000).map(|_| drawn(&mut random)).collect();
        let kinds: BTreeSet<usize> = drawn.iter().map(|number| number_of(*number) as usize).collect();
        assert!(kinds.into_iter().eq(0..NUMBERS.len()));
        assert!((0..=7).chain([255, 1 << 31, u32::MAX]).all(|number| drawn.contains(&number)));
    }
    #[test]
    fn a_number_past_the_five_is_none_of_them() {
        assert!((0..5).all(|number| matches!(number_of(number), Number::Attribute)));
        let others = [5, 8, 256, 0x1_0004, 0x8000_0001, u32::MAX];
        assert!(others.iter().all(|number| !matches!(number_of(*number), Number::Attribute)));
    }
}
