//! The fused sum of a product.

use crate::raw;
use crate::{Attribute, Flags};

/// `x` times `y` plus `z`, rounded once, on patterns of 64 bits.
///
/// The canonical NaN if any operand is a NaN, if a zero is multiplied by an infinity, or if an
/// infinite product meets an infinite `z` of the other sign. Otherwise an infinite product, or else
/// an infinite `z`, is the answer. An exact sum of zero is +0, except where product and `z` are
/// zeros of one sign: that zero then.
///
/// ```
/// // Rounded by itself, the product would leave nothing of the sum.
/// let (x, z) = (0x3ff0000000000001, 0xbff0000000000002);
/// assert_eq!(paskerotim::fma64(x, x, z), 0x3970000000000000);
/// ```
pub fn fma64(x: u64, y: u64, z: u64) -> u64 {
    raw::pk_fma64(x, y, z)
}

/// `x` times `y` plus `z`, rounded once, on patterns of 32 bits; see [`fma64`].
pub fn fma32(x: u32, y: u32, z: u32) -> u32 {
    raw::pk_fma32(x, y, z)
}

/// What [`fma64`] gives, with its flags: invalid if any operand is a signalling NaN, if a zero is
/// multiplied by an infinity, also where `z` is a quiet NaN, or if an infinite product meets an
/// infinite `z` of the other sign; for finite operands inexact, overflow and underflow as the sum is
/// rounded.
///
/// ```
/// // A quarter of the smallest number is tiny and not exact.
/// let (value, flags) = paskerotim::fma64_flags(1, 0x3fd0000000000000, 0);
/// assert_eq!((value, flags.to_string().as_str()), (0, "UNDERFLOW+INEXACT"));
/// ```
pub fn fma64_flags(x: u64, y: u64, z: u64) -> (u64, Flags) {
    Flags::of(|flags| raw::pk_fma64_flags(x, y, z, flags))
}

/// What [`fma32`] gives, with its flags; see [`fma64_flags`].
pub fn fma32_flags(x: u32, y: u32, z: u32) -> (u32, Flags) {
    Flags::of(|flags| raw::pk_fma32_flags(x, y, z, flags))
}

/// `x` times `y` plus `z`, rounded once under an attribute, with its flags. Of infinities and NaNs
/// the answer is [`fma64_flags`]'s. An exact sum of zero is +0, under [`Attribute::Down`] -0, except
/// where product and `z` are zeros of one sign: that zero then.
///
/// ```
/// use paskerotim::{fma64_rounded, Attribute, Flags};
///
/// // 1 times 1, less 1.
/// let (one, less_one) = (0x3ff0000000000000, 0xbff0000000000000);
/// let down = fma64_rounded(Attribute::Down, one, one, less_one);
/// assert_eq!(down, (0x8000000000000000, Flags::NONE));
/// let up = fma64_rounded(Attribute::Up, one, one, less_one);
/// assert_eq!(up, (0x0000000000000000, Flags::NONE));
/// ```
pub fn fma64_rounded(attribute: Attribute, x: u64, y: u64, z: u64) -> (u64, Flags) {
    attribute.answer(|number, value, flags| raw::pk_fma64_rounded(number, x, y, z, value, flags))
}

/// `x` times `y` plus `z` on patterns of 32 bits, rounded once under an attribute, with its flags;
/// see [`fma64_rounded`].
pub fn fma32_rounded(attribute: Attribute, x: u32, y: u32, z: u32) -> (u32, Flags) {
    attribute.answer(|number, value, flags| raw::pk_fma32_rounded(number, x, y, z, value, flags))
}

/// [`fma64`] on numbers.
pub fn fma(x: f64, y: f64, z: f64) -> f64 {
    f64::from_bits(fma64(x.to_bits(), y.to_bits(), z.to_bits()))
}

/// [`fma32`] on numbers.
pub fn fmaf(x: f32, y: f32, z: f32) -> f32 {
    f32::from_bits(fma32(x.to_bits(), y.to_bits(), z.to_bits()))
}

/// [`fma64_flags`] on numbers.
pub fn fma_flags(x: f64, y: f64, z: f64) -> (f64, Flags) {
    let (value, flags) = fma64_flags(x.to_bits(), y.to_bits(), z.to_bits());
    (f64::from_bits(value), flags)
}

/// [`fma32_flags`] on numbers.
pub fn fmaf_flags(x: f32, y: f32, z: f32) -> (f32, Flags) {
    let (value, flags) = fma32_flags(x.to_bits(), y.to_bits(), z.to_bits());
    (f32::from_bits(value), flags)
}

/// [`fma64_rounded`] on numbers.
pub fn fma_rounded(attribute: Attribute, x: f64, y: f64, z: f64) -> (f64, Flags) {
    let (value, flags) = fma64_rounded(attribute, x.to_bits(), y.to_bits(), z.to_bits());
    (f64::from_bits(value), flags)
}

/// [`fma32_rounded`] on numbers.
pub fn fmaf_rounded(attribute: Attribute, x: f32, y: f32, z: f32) -> (f32, Flags) {
    let (value, flags) = fma32_rounded(attribute, x.to_bits(), y.to_bits(), z.to_bits());
    (f32::from_bits(value), flags)
}
