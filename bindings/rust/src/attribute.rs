//! The rounding attributes, and a call under one.

use crate::Flags;

/// A rounding attribute of IEEE 754, clause 4.3: which number is the answer where the exact value is
/// none. An exact answer is the same under all five, but for the sign of fma's zero sums; another has
/// the exact value's sign, as a zero too.
///
/// A finite value past the largest finite number is infinity to the nearest, from halfway on, and
/// the largest number toward zero; down and up it is the one of these two that lies below or above
/// it.
///
/// A tolerance band has its ends by [`Attribute::Down`] and [`Attribute::Up`]: it holds the exact
/// value, and no band is tighter.
///
/// ```
/// use paskerotim::{sqrt64_rounded, sqrt_rounded, Attribute};
///
/// let (lower, flags) = sqrt64_rounded(Attribute::Down, 0x4000000000000000);
/// let (upper, _) = sqrt64_rounded(Attribute::Up, 0x4000000000000000);
/// assert_eq!((lower, upper), (0x3ff6a09e667f3bcc, 0x3ff6a09e667f3bcd));
/// assert!(flags.inexact);
///
/// // Where the root is a number, it is both ends.
/// let (lower, flags) = sqrt_rounded(Attribute::Down, 4.0);
/// let (upper, _) = sqrt_rounded(Attribute::Up, 4.0);
/// assert_eq!((lower, upper, flags.inexact), (2.0, 2.0, false));
/// ```
#[derive(Clone, Copy, Debug, PartialEq, Eq, Hash)]
pub enum Attribute {
    /// Number 0: to the nearest; of two that are equally near, the one whose last bit is 0. Functions
    /// that take no attribute round so.
    Even = 0,
    /// Number 1: toward zero, the nearest that is not greater in magnitude.
    Zero = 1,
    /// Number 2: toward negative infinity, the greatest that is not above the exact value.
    Down = 2,
    /// Number 3: toward positive infinity, the least that is not below the exact value.
    Up = 3,
    /// Number 4: to the nearest; of two that are equally near, the one that is greater in magnitude.
    Away = 4,
}

impl Attribute {
    /// The attribute's number, as a C caller gives it.
    pub const fn number(self) -> u32 {
        self as u32
    }

    /// The attribute with this number, if there is one. A C caller who gives another number is
    /// refused.
    pub const fn from_number(number: u32) -> Option<Self> {
        match number {
            0 => Some(Self::Even),
            1 => Some(Self::Zero),
            2 => Some(Self::Down),
            3 => Some(Self::Up),
            4 => Some(Self::Away),
            _ => None,
        }
    }

    /// The value and the flags that a call of the archive under this attribute writes.
    pub(crate) fn answer<T: Default>(
        self,
        call: impl FnOnce(u32, &mut T, &mut u32) -> u32,
    ) -> (T, Flags) {
        let mut value = T::default();
        let (refusal, flags) = Flags::of(|flags| call(self.number(), &mut value, flags));
        assert!(
            refusal == 0,
            "the archive gave the refusal {refusal} to the attribute {self:?}, which it should know"
        );
        (value, flags)
    }
}
