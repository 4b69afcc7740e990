//! Hexadecimal numerals, read and written.

use crate::raw;
use crate::{Attribute, Refusal};

/// The most bytes of a text that is read.
pub const TEXT_LIMIT: usize = 64;

/// A room that every text of 64 bits fits in, in bytes.
pub const HEX64_ROOM: usize = 24;

/// A room that every text of 32 bits fits in, in bytes.
pub const HEX32_ROOM: usize = 16;

/// The pattern of 64 bits of the number that a text stands for, rounded once.
///
/// A text is, in lower case and to its end, a sign `+` or `-` or none, `0x`, hexadecimal digits, at
/// least one, with at most one point among, before or behind them, `p`, a sign `+` or `-` or none,
/// and one to five decimal digits; or `inf`, `-inf` or `nan`, which gives the canonical NaN. A zero
/// keeps the sign written. There are no flags.
///
/// # Errors
///
/// [`Refusal::TextTooLong`] where the text is longer than [`TEXT_LIMIT`] bytes, else
/// [`Refusal::NotANumeral`] where it is no such text.
///
/// ```
/// use paskerotim::{read_hex64, Refusal};
///
/// assert_eq!(read_hex64(b"0x1.8p+1"), Ok(0x4008000000000000));
/// assert_eq!(read_hex64(b"-0x.0p0"), Ok(0x8000000000000000));
/// // Halfway between two numbers: the even one.
/// assert_eq!(read_hex64(b"0x1.00000000000008p0"), Ok(0x3ff0000000000000));
/// assert_eq!(read_hex64(b"0X1P0"), Err(Refusal::NotANumeral));
/// assert_eq!(read_hex64(&[b'0'; 65]), Err(Refusal::TextTooLong));
/// ```
pub fn read_hex64(text: &[u8]) -> Result<u64, Refusal> {
    let mut value = 0;
    Refusal::given(raw::read_hex64(text, &mut value)).map(|()| value)
}

/// The pattern of 32 bits of the number that a text stands for, rounded once; see [`read_hex64`].
///
/// # Errors
///
/// Those of [`read_hex64`].
pub fn read_hex32(text: &[u8]) -> Result<u32, Refusal> {
    let mut value = 0;
    Refusal::given(raw::read_hex32(text, &mut value)).map(|()| value)
}

/// What [`read_hex64`] reads, rounded once under an attribute.
///
/// # Errors
///
/// Those of [`read_hex64`].
///
/// ```
/// use paskerotim::{read_hex64_rounded, Attribute};
///
/// // Half of the smallest number.
/// assert_eq!(read_hex64_rounded(Attribute::Down, b"0x1p-1075"), Ok(0));
/// assert_eq!(read_hex64_rounded(Attribute::Up, b"0x1p-1075"), Ok(1));
/// ```
pub fn read_hex64_rounded(attribute: Attribute, text: &[u8]) -> Result<u64, Refusal> {
    let mut value = 0;
    let number = raw::read_hex64_rounded(attribute.number(), text, &mut value);
    Refusal::given(number).map(|()| value)
}

/// What [`read_hex32`] reads, rounded once under an attribute; see [`read_hex64_rounded`].
///
/// # Errors
///
/// Those of [`read_hex64`].
pub fn read_hex32_rounded(attribute: Attribute, text: &[u8]) -> Result<u32, Refusal> {
    let mut value = 0;
    let number = raw::read_hex32_rounded(attribute.number(), text, &mut value);
    Refusal::given(number).map(|()| value)
}

/// Writes the hexadecimal numeral of `x`, a pattern of 64 bits, to the front of `out`, and gives its
/// length. The bytes of `out` behind the text stay as they were.
///
/// A number is written as `-` if it is below zero, `0x1`, a point and the digits of its fraction
/// without zeros at their end, or neither where none is left, `p`, `+` or `-`, and the exponent in
/// decimal digits without zeros before them. A subnormal number begins `0x0.` and ends `p-1022`. Zeros
/// are `0x0p+0` and `-0x0p+0`, infinities `inf` and `-inf`, and every NaN is `nan`. [`read_hex64`] gives
/// `x` back for the text, but for every NaN the canonical one.
///
/// # Errors
///
/// [`Refusal::RoomTooSmall`] where `out` is shorter than the text; it is then as it was. A room of
/// [`HEX64_ROOM`] bytes is always enough.
///
/// ```
/// use paskerotim::{write_hex64, Refusal, HEX64_ROOM};
///
/// let mut room = [0; HEX64_ROOM];
/// let length = write_hex64(0x4008000000000000, &mut room)?;
/// assert_eq!(&room[..length], b"0x1.8p+1");
/// assert_eq!(write_hex64(0x4008000000000000, &mut room[..7]), Err(Refusal::RoomTooSmall));
/// # Ok::<(), Refusal>(())
/// ```
pub fn write_hex64(x: u64, out: &mut [u8]) -> Result<usize, Refusal> {
    let mut length = 0;
    Refusal::given(raw::write_hex64(x, out, &mut length)).map(|()| length as usize)
}

/// Writes the hexadecimal numeral of `x`, a pattern of 32 bits, as [`write_hex64`] does. The 23 bits
/// of the fraction stand in six digits from the left: the number next to 1 is `0x1.000002p+0`. A
/// subnormal number ends `p-126`.
///
/// # Errors
///
/// That of [`write_hex64`]. A room of [`HEX32_ROOM`] bytes is always enough.
pub fn write_hex32(x: u32, out: &mut [u8]) -> Result<usize, Refusal> {
    let mut length = 0;
    Refusal::given(raw::write_hex32(x, out, &mut length)).map(|()| length as usize)
}

/// [`read_hex64`] to a number.
///
/// # Errors
///
/// Those of [`read_hex64`].
pub fn read_hex(text: &[u8]) -> Result<f64, Refusal> {
    read_hex64(text).map(f64::from_bits)
}

/// [`read_hex32`] to a number.
///
/// # Errors
///
/// Those of [`read_hex64`].
pub fn read_hexf(text: &[u8]) -> Result<f32, Refusal> {
    read_hex32(text).map(f32::from_bits)
}

/// [`read_hex64_rounded`] to a number.
///
/// # Errors
///
/// Those of [`read_hex64`].
pub fn read_hex_rounded(attribute: Attribute, text: &[u8]) -> Result<f64, Refusal> {
    read_hex64_rounded(attribute, text).map(f64::from_bits)
}

/// [`read_hex32_rounded`] to a number.
///
/// # Errors
///
/// Those of [`read_hex64`].
pub fn read_hexf_rounded(attribute: Attribute, text: &[u8]) -> Result<f32, Refusal> {
    read_hex32_rounded(attribute, text).map(f32::from_bits)
}

/// [`write_hex64`] of a number.
///
/// # Errors
///
/// That of [`write_hex64`].
pub fn write_hex(x: f64, out: &mut [u8]) -> Result<usize, Refusal> {
    write_hex64(x.to_bits(), out)
}

/// [`write_hex32`] of a number.
///
/// # Errors
///
/// That of [`write_hex64`].
pub fn write_hexf(x: f32, out: &mut [u8]) -> Result<usize, Refusal> {
    write_hex32(x.to_bits(), out)
}
