//! Where an exact value lies among the numbers of the format, as far as an attribute turns on it.

use crate::big::Big;
use crate::format::Format;
use crate::fused_places::sum;
use crate::places::places;
use crate::request::Request;

places! { Location, LOCATIONS:
    PastNext "past the next number that would be",
    Next "the next number that would be, exactly",
    LargestAndMore "the largest number and more than half a place",
    LargestAndHalf "the largest number and half a place",
    LargestAndLess "the largest number and less than half a place",
    Largest "the largest number, exactly",
    NormalAndMore "a normal number and more than half a place",
    NormalAndHalf "a normal number and half a place",
    NormalAndLess "a normal number and less than half a place",
    Normal "a normal number, exactly",
    JustAboveLeast "the least normal number and part of a place",
    Least "the least normal number, exactly",
    PastThreeQuarters "the largest subnormal number and more than three quarters of a place",
    ThreeQuarters "the largest subnormal number and three quarters of a place",
    PastHalf "the largest subnormal number and from half to three quarters of a place",
    HalfWay "the largest subnormal number and half a place",
    BelowHalf "the largest subnormal number and less than half a place",
    LargestSubnormal "the largest subnormal number, exactly",
    SubnormalAndMore "a subnormal number and more than half a place",
    SubnormalAndHalf "a subnormal number and half a place",
    SubnormalAndLess "a subnormal number and less than half a place",
    Subnormal "a subnormal number, exactly",
    MoreThanHalfUnit "more than half of the least subnormal number",
    HalfUnit "half of the least subnormal number",
    LessThanHalfUnit "less than half of the least subnormal number",
}

/// What is left of a value above the number next below it in magnitude, in parts of a place.
#[derive(Clone, Copy)]
enum Rest {
    Nothing,
    BelowHalf,
    Half,
    BelowThreeQuarters,
    ThreeQuarters,
    Above,
}

/// The magnitude of a value that is not zero: a number times a power of two.
pub struct Magnitude {
    number: Big,
    exponent: i64,
}

impl Magnitude {
    pub fn of(number: Big, exponent: i64) -> Magnitude {
        Magnitude { number, exponent }
    }
    /// Of the sum of fma.
    pub fn of_sum(format: Format, request: &Request) -> Magnitude {
        Magnitude { number: sum(format, request.words), exponent: -2 * i64::from(format.unit_shift()) }
    }
    /// Of a scaled number.
    pub fn of_scaled(format: Format, request: &Request) -> Magnitude {
        let (number, exponent) = format.significand(request.x());
        Magnitude { number: Big::from(number), exponent: exponent + i64::from(request.n()) }
    }
    pub fn is_zero(&self) -> bool {
        self.number.is_zero()
    }

    /// Where it lies, and the pattern of the greatest finite number that is not above it.
    pub fn located(&self, format: Format) -> (Location, u64) {
        let top = self.exponent + i64::from(self.number.bits()) - 1;
        let next = i64::from(format.bias()) + 1;
        if top >= next {
            let is_next = top == next && self.number.twos() + 1 == self.number.bits();
            let location = if is_next { Location::Next } else { Location::PastNext };
            return (location, format.largest_finite());
        }
        // The place of the last digit, which is no lower than that of the smallest unit.
        let lowest = -i64::from(format.unit_shift());
        let place = (top - i64::from(format.fraction_bits)).max(lowest);
        let (multiple, rest) = self.cut(place - self.exponent);
        let below = multiple + (((place - lowest) as u64) << format.fraction_bits);
        (location(format, below, rest), below)
    }

    /// The digits above so many, and what the others come to.
    fn cut(&self, digits: i64) -> (u64, Rest) {
        if digits <= 0 {
            return (self.number.low_word() << -digits, Rest::Nothing);
        }
        // Quarters of the place, with two digits more so that there are as many.
        let quarters = match digits {
            1 => self.number.word_from(0) << 1,
            _ => self.number.word_from(digits as u32 - 2),
        };
        let has_more = i64::from(self.number.twos()) < digits - 2;
        let rest = match (quarters & 3, has_more) {
            (0, false) => Rest::Nothing,
            (0 | 1, _) => Rest::BelowHalf,
            (2, false) => Rest::Half,
            (2, true) => Rest::BelowThreeQuarters,
            (_, false) => Rest::ThreeQuarters,
            (_, true) => Rest::Above,
        };
        (self.number.word_from(digits as u32), rest)
    }
}

/// Of a value below the next number that would be, by the number below it and what is left.
fn location(format: Format, below: u64, rest: Rest) -> Location {
    use Location::*;
    let least = format.smallest_normal();
    // The four of a kind: more than half a place, half a place, less than half a place, exactly.
    let of_four = |[more, half, less, exactly]: [Location; 4]| match rest {
        Rest::Nothing => exactly,
        Rest::BelowHalf => less,
        Rest::Half => half,
        _ => more,
    };
    match below {
        0 => of_four([MoreThanHalfUnit, HalfUnit, LessThanHalfUnit, LessThanHalfUnit]),
        _ if below == format.largest_finite() => {
            of_four([LargestAndMore, LargestAndHalf, LargestAndLess, Largest])
        }
        _ if below == least => of_four([JustAboveLeast, JustAboveLeast, JustAboveLeast, Least]),
        _ if below > least => of_four([NormalAndMore, NormalAndHalf, NormalAndLess, Normal]),
        _ if below < least - 1 => {
            of_four([SubnormalAndMore, SubnormalAndHalf, SubnormalAndLess, Subnormal])
        }
        _ => match rest {
            Rest::Nothing => LargestSubnormal,
            Rest::BelowHalf => BelowHalf,
            Rest::Half => HalfWay,
            Rest::BelowThreeQuarters => PastHalf,
            Rest::ThreeQuarters => ThreeQuarters,
            Rest::Above => PastThreeQuarters,
        },
    }
}

#[cfg(test)]
mod tests {
    use super::*;
    use crate::format::{WIDTH_32, WIDTH_64};

    /// Of so many sixteenths of a place above a pattern.
    fn off(format: Format, base: u64, sixteenths: u64) -> (&'static str, u64) {
        let value = format.scaled_units(base, 4).add(&Big::placed(sixteenths, place(format, base)));
        let exponent = -i64::from(format.unit_shift()) - 4;
        let (location, below) = Magnitude { number: value, exponent }.located(format);
        (LOCATIONS[location as usize], below)
    }
    /// The place of a pattern's last digit, counted from the smallest unit.
    fn place(format: Format, pattern: u64) -> u32 {
        format.exponent_field(pattern).max(1) - 1
    }

    #[test]
    fn parts_of_a_place_are_told_apart_everywhere() {
        for format in [WIDTH_64, WIDTH_32] {
            let (largest, least) = (format.largest_finite(), format.smallest_normal());
            let kinds = [(largest, "the largest number"), (format.one() + 3, "a normal number"), (5, "a subnormal number")];
            for (base, kind) in kinds {
                for (sixteenths, rest) in [
                    (0, ", exactly"),
                    (1, " and less than half a place"),
                    (7, " and less than half a place"),
                    (8, " and half a place"),
                    (9, " and more than half a place"),
                    (12, " and more than half a place"),
                    (15, " and more than half a place"),
                ] {
                    assert_eq!(off(format, base, sixteenths), (format!("{kind}{rest}").as_str(), base));
                }
            }
            for (sixteenths, rest) in [
                (0, ", exactly"),
                (7, " and less than half a place"),
                (8, " and half a place"),
                (9, " and from half to three quarters of a place"),
                (11, " and from half to three quarters of a place"),
                (12, " and three quarters of a place"),
                (13, " and more than three quarters of a place"),
            ] {
                let name = format!("the largest subnormal number{rest}");
                assert_eq!(off(format, least - 1, sixteenths), (name.as_str(), least - 1));
            }
        }
    }
    #[test]
    fn the_ends_are_places_of_their_own() {
        for format in [WIDTH_64, WIDTH_32] {
            let (largest, least) = (format.largest_finite(), format.smallest_normal());
            assert_eq!(off(format, largest, 16), ("the next number that would be, exactly", largest));
            assert_eq!(off(format, largest, 17), ("past the next number that would be", largest));
            assert_eq!(off(format, least, 0), ("the least normal number, exactly", least));
            assert_eq!(off(format, least, 1), ("the least normal number and part of a place", least));
            assert_eq!(off(format, 0, 7), ("less than half of the least subnormal number", 0));
            assert_eq!(off(format, 0, 8), ("half of the least subnormal number", 0));
            assert_eq!(off(format, 0, 9), ("more than half of the least subnormal number", 0));
        }
    }
    #[test]
    fn a_digit_far_below_counts() {
        let f = WIDTH_64;
        let far = Request::three_words([1, 1, f.one() | f.sign_bit()]);
        let (location, below) = Magnitude::of_sum(f, &far).located(f);
        assert_eq!(LOCATIONS[location as usize], "a normal number and more than half a place");
        assert_eq!(below, f.one() - 1);
        let (location, below) = Magnitude::of_scaled(f, &Request::word_and_number(f.one(), i32::MIN)).located(f);
        assert_eq!((LOCATIONS[location as usize], below), ("less than half of the least subnormal number", 0));
    }
}
