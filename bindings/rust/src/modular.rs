//! The reduction of whole numbers.

use crate::raw;
use crate::Refusal;

/// The greatest shift of a reduction.
pub const SHIFT_LIMIT: u32 = 4096;

/// The greatest divisor of a reduction at 64 bits.
pub const DIVISOR_LIMIT64: u64 = (1 << 62) - 1;

/// The greatest divisor of a reduction at 32 bits.
pub const DIVISOR_LIMIT32: u32 = (1 << 30) - 1;

/// (`x` times 2^`e`) mod `y`, of plain whole numbers and not of patterns.
///
/// # Errors
///
/// [`Refusal::OutOfRange`] where `y` is above [`DIVISOR_LIMIT64`] or `x` is not below 2`y`, so
/// always where `y` is zero; else [`Refusal::ShiftTooGreat`] where `e` is above [`SHIFT_LIMIT`].
///
/// ```
/// use paskerotim::{reduce64, Refusal};
///
/// assert_eq!(reduce64(1, 4096, 7), Ok(2));
/// assert_eq!(reduce64(1, 4097, 7), Err(Refusal::ShiftTooGreat));
/// assert_eq!(reduce64(14, 4097, 7), Err(Refusal::OutOfRange));
/// ```
pub fn reduce64(x: u64, e: u32, y: u64) -> Result<u64, Refusal> {
    let mut value = 0;
    Refusal::given(raw::pk_reduce64(x, e, y, &mut value)).map(|()| value)
}

/// (`x` times 2^`e`) mod `y`, of plain whole numbers and not of patterns.
///
/// # Errors
///
/// Those of [`reduce64`], with [`DIVISOR_LIMIT32`].
pub fn reduce32(x: u32, e: u32, y: u32) -> Result<u32, Refusal> {
    let mut value = 0;
    Refusal::given(raw::pk_reduce32(x, e, y, &mut value)).map(|()| value)
}
