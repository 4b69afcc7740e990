//! What one call answers: a pattern or an exponent, or a pattern with a second word beside it.

use crate::format::{WIDTH_32, WIDTH_64};

pub trait Answer: Copy {
    /// All of the answer in one word, so that no part of it goes unused and a later call can wait for it.
    fn mixed(self) -> u64;
    /// Whether two answers are alike; any two NaNs are.
    fn same(self, other: Self) -> bool;
}

macro_rules! pattern {
    ($word:ty, $format:expr) => {
        impl Answer for $word {
            fn mixed(self) -> u64 {
                self as u64
            }
            fn same(self, other: $word) -> bool {
                $format.same_value(self as u64, other as u64)
            }
        }
    };
}
pattern!(u64, WIDTH_64);
pattern!(u32, WIDTH_32);

/// A quotient or an exponent.
impl Answer for i32 {
    fn mixed(self) -> u64 {
        self as u64
    }
    fn same(self, other: i32) -> bool {
        self == other
    }
}

/// Our flags, or libm's status.
#[derive(Clone, Copy, Default)]
#[repr(transparent)]
pub struct Flags(pub u32);

/// The two are not the same thing, so that any are alike here; tools/compare has a judge for both.
impl Answer for Flags {
    fn mixed(self) -> u64 {
        self.0.into()
    }
    fn same(self, _: Flags) -> bool {
        true
    }
}

impl<A: Answer, B: Answer> Answer for (A, B) {
    fn mixed(self) -> u64 {
        self.0.mixed() ^ self.1.mixed()
    }
    fn same(self, other: (A, B)) -> bool {
        self.0.same(other.0) && self.1.same(other.1)
    }
}
