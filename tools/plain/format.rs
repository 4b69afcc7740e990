// The widths: where the fields of a pattern stand and which number it means.

use crate::big::Big;

/// A binary interchange format of IEEE 754. Patterns of every width are held
/// in the low bits of a 64-bit word.
#[derive(Clone, Copy, Debug, PartialEq, Eq)]
pub struct Format {
    pub width: u32,
    pub fraction_bits: u32,
}

pub const WIDTH_64: Format = Format { width: 64, fraction_bits: 52 };
pub const WIDTH_32: Format = Format { width: 32, fraction_bits: 23 };
pub const WIDTH_16: Format = Format { width: 16, fraction_bits: 10 };

impl Format {
    pub fn sign_bit(self) -> u64 {
        1 << (self.width - 1)
    }

    /// Every pattern of the width lies at or below this one.
    pub fn all_ones(self) -> u64 {
        u64::MAX >> (64 - self.width)
    }

    pub fn infinity(self) -> u64 {
        let exponent_bits = self.width - 1 - self.fraction_bits;
        ((1 << exponent_bits) - 1) << self.fraction_bits
    }

    pub fn largest_finite(self) -> u64 {
        self.infinity() - 1
    }

    pub fn smallest_normal(self) -> u64 {
        1 << self.fraction_bits
    }

    pub fn one(self) -> u64 {
        (self.bias() as u64) << self.fraction_bits
    }

    pub fn canonical_nan(self) -> u64 {
        self.infinity() | 1 << (self.fraction_bits - 1)
    }

    pub fn bias(self) -> u32 {
        (1 << (self.width - 2 - self.fraction_bits)) - 1
    }

    /// The smallest unit is 2 to the minus this: 1074 at 64, 149 at 32, 24 at 16.
    pub fn unit_shift(self) -> u32 {
        self.bias() - 1 + self.fraction_bits
    }

    pub fn magnitude(self, pattern: u64) -> u64 {
        pattern & (self.sign_bit() - 1)
    }

    pub fn sign(self, pattern: u64) -> u64 {
        pattern & self.sign_bit()
    }

    pub fn is_negative(self, pattern: u64) -> bool {
        self.sign(pattern) != 0
    }

    pub fn fraction_field(self, pattern: u64) -> u64 {
        pattern & (self.smallest_normal() - 1)
    }

    pub fn exponent_field(self, pattern: u64) -> u32 {
        (self.magnitude(pattern) >> self.fraction_bits) as u32
    }

    pub fn is_nan(self, pattern: u64) -> bool {
        self.magnitude(pattern) > self.infinity()
    }

    /// A NaN whose first fraction digit is 0.
    pub fn is_signalling(self, pattern: u64) -> bool {
        let first_digit = self.smallest_normal() >> 1;
        self.is_nan(pattern) && pattern & first_digit == 0
    }

    pub fn is_infinite(self, pattern: u64) -> bool {
        self.magnitude(pattern) == self.infinity()
    }

    pub fn is_finite(self, pattern: u64) -> bool {
        self.magnitude(pattern) < self.infinity()
    }

    pub fn is_zero(self, pattern: u64) -> bool {
        self.magnitude(pattern) == 0
    }

    /// The same pattern; any two NaNs count as equal.
    pub fn same_value(self, first: u64, second: u64) -> bool {
        first == second || self.is_nan(first) && self.is_nan(second)
    }

    /// The magnitude of a finite pattern: the first times 2 to the second.
    pub fn significand(self, pattern: u64) -> (u64, i64) {
        let lowest = -(self.unit_shift() as i64);
        let fraction = self.fraction_field(pattern);
        match self.exponent_field(pattern) {
            0 => (fraction, lowest),
            field => (fraction + self.smallest_normal(), lowest + field as i64 - 1),
        }
    }

    /// The magnitude of a finite pattern, in smallest units.
    pub fn units(self, pattern: u64) -> Big {
        self.scaled_units(pattern, 0)
    }

    /// The magnitude of a finite pattern in smallest units, times 2^shift.
    pub fn scaled_units(self, pattern: u64, shift: u32) -> Big {
        let fraction = self.fraction_field(pattern);
        match self.exponent_field(pattern) {
            0 => Big::placed(fraction, shift),
            field => Big::placed(fraction + self.smallest_normal(), field - 1 + shift),
        }
    }

    /// The first magnitude that rounds to infinity, in smallest units times
    /// 2^shift: half a last place above the largest finite number, which is
    /// 2^1024 - 2^970 at 64, 2^128 - 2^103 at 32 and 2^16 - 2^4 at 16.
    pub fn scaled_overflow(self, shift: u32) -> Big {
        let top = self.bias() + 1 + self.unit_shift() + shift;
        let half_place = top - self.fraction_bits - 2;
        Big::placed(1, top).sub(&Big::placed(1, half_place))
    }
}
