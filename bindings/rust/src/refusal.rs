//! Why a call is refused.

use core::error::Error;
use core::fmt;

use crate::{LIST_LIMIT, SHIFT_LIMIT, TEXT_LIMIT};

/// Why the list call, the reduction, or the reader or the writer of numerals is refused. The reasons
/// are looked at in the order of their numbers: the first that holds is given, and none is given
/// otherwise.
#[derive(Clone, Copy, Debug, PartialEq, Eq, Hash)]
#[non_exhaustive]
pub enum Refusal {
    /// Number 1: the operation of a list call is not 1 sqrt, 2 floor or 3 trunc.
    UnknownOperation = 1,
    /// Number 2: either list is longer than [`LIST_LIMIT`] places.
    ListTooLong = 2,
    /// Number 3: the two lists have not the same length.
    LengthsDiffer = 3,
    /// Number 4: y of a reduction is above [`DIVISOR_LIMIT64`](crate::DIVISOR_LIMIT64) or, at 32
    /// bits, [`DIVISOR_LIMIT32`](crate::DIVISOR_LIMIT32); or x is not below 2y.
    OutOfRange = 4,
    /// Number 5: the shift of a reduction is above [`SHIFT_LIMIT`].
    ShiftTooGreat = 5,
    /// Number 6: the text that is to be read is longer than [`TEXT_LIMIT`] bytes.
    TextTooLong = 6,
    /// Number 7: the text that is to be read is no hexadecimal numeral.
    NotANumeral = 7,
    /// Number 8: the output holds fewer bytes than the text that is to be written needs.
    RoomTooSmall = 8,
}

impl Refusal {
    /// The refusal's number, as a C caller gets it.
    pub const fn number(self) -> u32 {
        self as u32
    }

    /// The refusal with this number, if there is one. 0 is none: it says that the call is done.
    pub const fn from_number(number: u32) -> Option<Self> {
        match number {
            1 => Some(Self::UnknownOperation),
            2 => Some(Self::ListTooLong),
            3 => Some(Self::LengthsDiffer),
            4 => Some(Self::OutOfRange),
            5 => Some(Self::ShiftTooGreat),
            6 => Some(Self::TextTooLong),
            7 => Some(Self::NotANumeral),
            8 => Some(Self::RoomTooSmall),
            _ => None,
        }
    }

    /// The answer that the archive's number stands for.
    pub(crate) fn given(number: u32) -> Result<(), Self> {
        match Self::from_number(number) {
            Some(refusal) => Err(refusal),
            None if number == 0 => Ok(()),
            None => panic!("the archive gave the refusal {number}, which this crate does not know"),
        }
    }
}

/// Writes the number and the reason.
impl fmt::Display for Refusal {
    fn fmt(&self, f: &mut fmt::Formatter<'_>) -> fmt::Result {
        write!(f, "refusal {}: ", self.number())?;
        match self {
            Self::UnknownOperation => write!(f, "the operation is not 1 sqrt, 2 floor or 3 trunc"),
            Self::ListTooLong => write!(f, "a list is longer than {LIST_LIMIT} places"),
            Self::LengthsDiffer => write!(f, "the two lists have not the same length"),
            Self::OutOfRange => write!(f, "y is above its limit, or x is not below 2y"),
            Self::ShiftTooGreat => write!(f, "the shift is above {SHIFT_LIMIT}"),
            Self::TextTooLong => write!(f, "the text is longer than {TEXT_LIMIT} bytes"),
            Self::NotANumeral => write!(f, "the text is no hexadecimal numeral"),
            Self::RoomTooSmall => write!(f, "the output holds fewer bytes than the text needs"),
        }
    }
}

impl Error for Refusal {}
