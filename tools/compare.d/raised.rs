//! The plain program's flags as a word of the face: the one place that knows how it writes them.

use crate::operations::Flags;
use crate::request::flags::{DIVBYZERO, INEXACT, INVALID, OVERFLOW, UNDERFLOW};

/// Each flag by its name. Division by zero is whatever is left: no operation here raises it.
pub fn word_of(raised: Flags) -> u32 {
    let named = [
        (Flags::INVALID, INVALID),
        (Flags::OVERFLOW, OVERFLOW),
        (Flags::UNDERFLOW, UNDERFLOW),
        (Flags::INEXACT, INEXACT),
    ];
    let (mut word, mut left) = (0, raised.0);
    for (flag, bit) in named {
        word |= if raised.0 & flag.0 != 0 { bit } else { 0 };
        left &= !flag.0;
    }
    word | if left != 0 { DIVBYZERO } else { 0 }
}
