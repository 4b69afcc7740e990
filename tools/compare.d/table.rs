//! The operations that are run: one row says how ours is called, how libm's is, and what counts as the same answer.
//!
//! The kinds of the operands are those of docs/LINES.md, found by the name. The rows are in `rows_with_flags`,
//! `rows_of_values` and `rounded`; the list call stands here.

use crate::format::Format;
use crate::lists::ListCall;
use crate::quick::Draw;
use crate::request::{Answer, Beside, Request};
use crate::rounded::under_attributes;
use crate::rows_of_values::OF_VALUES;
use crate::rows_with_flags::WITH_FLAGS;

/// What becomes of NaN answers.
#[derive(Clone, Copy, Debug, PartialEq, Eq)]
pub enum Nans {
    /// Any two are equal, and ours must be the canonical one.
    Equal,
    /// They are compared as all other answers are.
    BitForBit,
    /// The words are plain numbers, and none of them is a NaN.
    Plain,
}

impl Nans {
    /// The word that ours must be where libm answers this one.
    pub fn ours(self, format: Format, crates: u64) -> u64 {
        match self == Nans::Equal && format.is_nan(crates) {
            true => format.canonical_nan(),
            false => crates,
        }
    }
    /// The rule for a reader of the closing table.
    pub fn text(self) -> &'static str {
        match self {
            Nans::Equal => "any two equal, ours canonical",
            Nans::BitForBit => "bit for bit",
            Nans::Plain => "none: plain numbers",
        }
    }
}

/// Whose the other side is, but where libm's own file is not given and a later text stands in its place.
pub const OTHER: &str = if cfg!(sqrt_plain) { "the plain root" } else { "libm" };

/// Whose answers are taken for right.
#[derive(Clone, Copy, Debug, PartialEq, Eq)]
pub enum Judge {
    /// libm's.
    Crate,
    /// The plain program's, of values and flags, on every operand. What runs beside ours is judged too.
    Plain,
}

/// What stands beside the value of the side beside ours, where ours has flags. Where it is nothing values alone are compared.
#[derive(Clone, Copy, Debug, PartialEq, Eq)]
pub enum Status {
    Nothing,
    /// libm's status.
    Libms,
    /// Flags of ours, from another call.
    Flags,
}

/// The side beside ours: who it is, and how it is called.
#[derive(Clone, Copy)]
pub struct Other {
    pub who: &'static str,
    pub answer: fn(&Request) -> Answer,
}

pub const fn other(who: &'static str, answer: fn(&Request) -> Answer) -> Option<Other> {
    Some(Other { who, answer })
}

#[derive(Clone, Copy)]
pub struct Row {
    pub name: &'static str,
    pub nans: Nans,
    pub judge: Judge,
    pub beside: Beside,
    pub status: Status,
    /// The kinds of its operands, of which each turn takes the next.
    pub draws: &'static [Draw],
    /// All of the answer, in one call.
    pub ours: fn(&Request) -> Answer,
    /// The call that gives the value alone, where there is one besides.
    pub alone: Option<fn(&Request) -> u64>,
    /// libm's, or what stands in its place; nothing where it has no such operation.
    pub crates: Option<Other>,
}

impl Row {
    pub fn others(&self, request: &Request) -> Option<Answer> {
        self.crates.map(|other| (other.answer)(request))
    }
    /// What ours must be, flags aside, where the side beside it answers this.
    pub fn wanted(&self, format: Format, crates: &Answer) -> Answer {
        let number = match self.beside {
            Beside::Whole => self.nans.ours(format, crates.number as u64) as i64,
            _ => crates.number,
        };
        Answer { word: self.nans.ours(format, crates.word), number, ..*crates }
    }
}

/// The list call: how ours is called, and the row of the operation that each number stands for.
pub struct Lists {
    pub name: &'static str,
    /// The rule of all its operations.
    pub nans: Nans,
    pub ours: ListCall,
    pub operations: [(u32, &'static str); 3],
}

/// What a place holds that a call is to write: no answer, so that one that is not written, or only added to, shows.
pub const STALE: u32 = 0xa5a5_a5a5;

extern "C" {
    fn pk_list64(op: u32, xs: *const u64, xs_len: usize, ys: *mut u64, ys_len: usize) -> u32;
}

// It is proved to touch nothing but the output, and the lists that are lent to it do not meet.
pub static LISTS: Lists = Lists {
    name: "list64",
    nans: Nans::Equal,
    ours: |number, lent| unsafe {
        pk_list64(number, lent.input, lent.input_length, lent.output, lent.output_length)
    },
    operations: [(1, "sqrt64"), (2, "floor64"), (3, "trunc64")],
};

/// The rows without an attribute.
pub fn plain_rows() -> impl Iterator<Item = &'static Row> {
    WITH_FLAGS.iter().chain(&OF_VALUES)
}

pub fn rows() -> impl Iterator<Item = &'static Row> {
    plain_rows().chain(under_attributes())
}

pub fn find(name: &str) -> Option<&'static Row> {
    rows().find(|row| row.name == name)
}

#[cfg(test)]
mod tests {
    use super::*;
    use crate::format::WIDTH_64;

    const NAN: u64 = 0x7ff8000000000000;

    #[test]
    fn where_nans_are_equal_ours_is_the_canonical_one() {
        let ours = |crates| Nans::Equal.ours(WIDTH_64, crates);
        assert_eq!((ours(NAN | 1), ours(0xfff0000000000001)), (NAN, NAN));
        assert_eq!(ours(0x7ff0000000000000), 0x7ff0000000000000);
    }
    #[test]
    fn bit_for_bit_means_nans_too() {
        assert_eq!(Nans::BitForBit.ours(WIDTH_64, 0xfff0000000000001), 0xfff0000000000001);
    }
    #[test]
    fn of_two_patterns_each_is_the_canonical_nan() {
        let row = find("modf64").unwrap();
        assert_eq!(row.wanted(WIDTH_64, &Answer::parts([NAN | 1, NAN | 2])), Answer::parts([NAN, NAN]));
        assert_eq!(row.wanted(WIDTH_64, &Answer::parts([0, NAN - 1])), Answer::parts([0, NAN]));
        let quotient = find("remquo64").unwrap();
        assert_eq!(quotient.wanted(WIDTH_64, &Answer::numbered((NAN | 1, -7))), Answer::numbered((NAN, -7)));
    }
}
