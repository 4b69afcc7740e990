// Rounding under an attribute, with its flags, by the words of IEEE 754-2019 (4.3, 7.4 to 7.6).

use crate::big::Big;
use crate::format::Format;
use crate::operations::Flags;

/// The rounding-direction attributes, in the order of their numbers.
#[derive(Clone, Copy, Debug, PartialEq, Eq)]
pub enum Attribute {
    Even,
    Zero,
    Down,
    Up,
    Away,
}

pub const ATTRIBUTES: [(Attribute, &str); 5] = [
    (Attribute::Even, "even"),
    (Attribute::Zero, "zero"),
    (Attribute::Down, "down"),
    (Attribute::Up, "up"),
    (Attribute::Away, "away"),
];

/// What lies between a value and the number next below it in magnitude,
/// against half the gap to the next above.
#[derive(Clone, Copy, PartialEq, Eq)]
enum Rest {
    Nothing,
    BelowHalf,
    Half,
    AboveHalf,
}

impl Attribute {
    pub fn of_number(number: u32) -> Option<Attribute> {
        ATTRIBUTES.get(number as usize).map(|(attribute, _)| *attribute)
    }

    /// Whether the neighbour further from zero is the one to take (4.3).
    fn goes_outward(self, negative: bool, rest: Rest, is_odd: bool) -> bool {
        match (self, rest) {
            (_, Rest::Nothing) => false,
            (Attribute::Zero, _) => false,
            (Attribute::Down, _) => negative,
            (Attribute::Up, _) => !negative,
            (_, Rest::BelowHalf) => false,
            (_, Rest::AboveHalf) => true,
            (Attribute::Even, Rest::Half) => is_odd,
            (Attribute::Away, Rest::Half) => true,
        }
    }

    /// Whether an overflow gives infinity, not the largest finite number (7.4).
    fn overflows_to_infinity(self, negative: bool) -> bool {
        match self {
            Attribute::Even | Attribute::Away => true,
            Attribute::Zero => false,
            Attribute::Down => negative,
            Attribute::Up => !negative,
        }
    }
}

/// An exact value: number * 2^exponent with a sign.
pub struct Exact {
    pub negative: bool,
    pub number: Big,
    pub exponent: i64,
}

impl Exact {
    /// The binade of a value that is not zero: 2^top <= |value| < 2^(top + 1).
    fn top(&self) -> i64 {
        self.exponent + self.number.bits() as i64 - 1
    }

    /// The multiple of 2^place that the attribute chooses, and whether it is
    /// the value itself. The multiple must have at most 64 digits.
    fn rounded(&self, place: i64, attribute: Attribute) -> (u64, bool) {
        if place <= self.exponent {
            return (self.number.low_word() << (self.exponent - place), true);
        }
        let cut = (place - self.exponent) as u32;
        let below = self.number.word_from(cut);
        let rest = self.rest(cut);
        let outward = attribute.goes_outward(self.negative, rest, below & 1 == 1);
        (below + outward as u64, rest == Rest::Nothing)
    }

    /// The last `cut` digits of a number that is not zero, against their half.
    fn rest(&self, cut: u32) -> Rest {
        let half = self.number.word_from(cut - 1) & 1 == 1;
        let more = self.number.twos() < cut - 1;
        match (half, more) {
            (false, false) => Rest::Nothing,
            (false, true) => Rest::BelowHalf,
            (true, false) => Rest::Half,
            (true, true) => Rest::AboveHalf,
        }
    }
}

/// The number that is delivered for a value that is not zero, and its flags.
pub fn round(format: Format, attribute: Attribute, value: &Exact) -> (u64, Flags) {
    let digits = format.fraction_bits as i64;
    let (emin, emax) = (1 - format.bias() as i64, format.bias() as i64);
    let sign = if value.negative { format.sign_bit() } else { 0 };
    // With the exponent range unbounded every value gets a full significand.
    let full = value.top() - digits;
    let (unbounded, _) = value.rounded(full, attribute);
    let unbounded_top = full + unbounded.ilog2() as i64;
    // A full significand lies above the largest finite number exactly when its
    // binade does, and below the least normal number likewise.
    if unbounded_top > emax {
        let infinite = attribute.overflows_to_infinity(value.negative);
        let magnitude = if infinite { format.infinity() } else { format.largest_finite() };
        return (sign | magnitude, Flags::OVERFLOW.and(Flags::INEXACT));
    }
    let is_tiny = unbounded_top < emin;
    // The grid that there is: below 2^emin its places get no finer.
    let lowest = emin - digits;
    let place = full.max(lowest);
    let (multiple, is_exact) = value.rounded(place, attribute);
    // A significand's leading digit adds one to the exponent field.
    let magnitude = multiple + (((place - lowest) as u64) << format.fraction_bits);
    let flags = match (is_exact, is_tiny) {
        (true, _) => Flags::NONE,
        (false, false) => Flags::INEXACT,
        (false, true) => Flags::UNDERFLOW.and(Flags::INEXACT),
    };
    (sign | magnitude, flags)
}
