//! The flags of an answer, and the canonical NaN.

use core::fmt;
use core::ops::{BitOr, BitOrAssign};

/// The canonical NaN of 64 bits.
pub const NAN64: u64 = 0x7ff8000000000000;

/// The canonical NaN of 32 bits.
pub const NAN32: u32 = 0x7fc00000;

/// The exceptions of IEEE 754, clause 7, that an operation raises. Those of several calls are joined
/// by `|`.
///
/// ```
/// use paskerotim::{scalbn64_flags, sqrt64_flags, Flags};
///
/// let (_, root) = sqrt64_flags(0x4000000000000000);
/// let (_, scaled) = scalbn64_flags(0x3ff0000000000000, 1024);
/// assert_eq!(root, Flags { inexact: true, ..Flags::NONE });
/// assert_eq!((root | scaled).to_string(), "OVERFLOW+INEXACT");
/// ```
#[derive(Clone, Copy, Debug, Default, PartialEq, Eq, Hash)]
pub struct Flags {
    /// The operands have no answer, or one is a signalling NaN; a quiet NaN by itself raises
    /// nothing. It comes alone, with the canonical NaN.
    pub invalid: bool,
    /// Raised by no operation of this crate.
    pub division_by_zero: bool,
    /// A finite value, rounded with no bound on the exponent, would be past the largest finite number:
    /// the answer is infinity or, under an [`Attribute`](crate::Attribute), perhaps the largest
    /// number. It comes with `inexact`.
    pub overflow: bool,
    /// The answer is inexact and the value is tiny: rounded with no bound on the exponent, it would
    /// lie below the least normal number in magnitude and not be zero. It comes with `inexact`.
    pub underflow: bool,
    /// The answer is not the exact value; of floor, trunc and ceil, it is not the finite operand.
    pub inexact: bool,
}

/// The flags' bits and words, in the order in which they are written.
const INVALID: (u32, &str) = (1, "INVALID");
const DIVISION_BY_ZERO: (u32, &str) = (4, "DIVBYZERO");
const OVERFLOW: (u32, &str) = (8, "OVERFLOW");
const UNDERFLOW: (u32, &str) = (16, "UNDERFLOW");
const INEXACT: (u32, &str) = (32, "INEXACT");

impl Flags {
    /// No flag.
    pub const NONE: Self = Self {
        invalid: false,
        division_by_zero: false,
        overflow: false,
        underflow: false,
        inexact: false,
    };

    /// Whether no flag is raised.
    pub const fn is_empty(self) -> bool {
        self.bits() == 0
    }

    /// Whether any flag is raised.
    pub const fn any(self) -> bool {
        !self.is_empty()
    }

    /// The flags as a C caller gets them: invalid 1, division by zero 4, overflow 8, underflow 16,
    /// inexact 32.
    pub const fn bits(self) -> u32 {
        self.invalid as u32 * INVALID.0
            + self.division_by_zero as u32 * DIVISION_BY_ZERO.0
            + self.overflow as u32 * OVERFLOW.0
            + self.underflow as u32 * UNDERFLOW.0
            + self.inexact as u32 * INEXACT.0
    }

    /// The flags with these bits, if each bit is that of a flag.
    pub const fn from_bits(bits: u32) -> Option<Self> {
        let flags = Self {
            invalid: bits & INVALID.0 != 0,
            division_by_zero: bits & DIVISION_BY_ZERO.0 != 0,
            overflow: bits & OVERFLOW.0 != 0,
            underflow: bits & UNDERFLOW.0 != 0,
            inexact: bits & INEXACT.0 != 0,
        };
        if flags.bits() == bits {
            Some(flags)
        } else {
            None
        }
    }

    /// The answer of a call of the archive, with the flags whose bits it writes.
    pub(crate) fn of<T>(call: impl FnOnce(&mut u32) -> T) -> (T, Self) {
        let mut bits = 0;
        let answer = call(&mut bits);
        match Self::from_bits(bits) {
            Some(flags) => (answer, flags),
            None => panic!("the archive gave the flags {bits}, which this crate does not know"),
        }
    }
}

/// The flags that either raises.
impl BitOr for Flags {
    type Output = Self;

    fn bitor(self, other: Self) -> Self {
        Self {
            invalid: self.invalid || other.invalid,
            division_by_zero: self.division_by_zero || other.division_by_zero,
            overflow: self.overflow || other.overflow,
            underflow: self.underflow || other.underflow,
            inexact: self.inexact || other.inexact,
        }
    }
}

impl BitOrAssign for Flags {
    fn bitor_assign(&mut self, other: Self) {
        *self = *self | other;
    }
}

/// Writes `OK`, or the words of the flags joined by `+`: `INVALID`, `DIVBYZERO`, `OVERFLOW`,
/// `UNDERFLOW`, `INEXACT`.
impl fmt::Display for Flags {
    fn fmt(&self, f: &mut fmt::Formatter<'_>) -> fmt::Result {
        if self.is_empty() {
            return f.pad("OK");
        }
        // Room for the words of all five, so that the text as a whole is padded.
        let mut text = [0; 44];
        let mut end = 0;
        for (bit, word) in [INVALID, DIVISION_BY_ZERO, OVERFLOW, UNDERFLOW, INEXACT] {
            if self.bits() & bit == 0 {
                continue;
            }
            for byte in if end == 0 { "" } else { "+" }.bytes().chain(word.bytes()) {
                text[end] = byte;
                end += 1;
            }
        }
        f.pad(core::str::from_utf8(&text[..end]).map_err(|_| fmt::Error)?)
    }
}
