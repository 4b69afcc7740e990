//! Floating-point arithmetic on bit patterns, computed in whole numbers alone.
//!
//! Twelve operations: [`sqrt64`], [`fma64`], [`fmod64`], [`remquo64`], [`scalbn64`], [`floor64`],
//! [`trunc64`], [`ceil64`], [`modf64`], [`frexp64`], [`ilogb64`] and [`nextafter64`], and the same at
//! 32 bits but for remquo; with them [`list64`], which does one operation on a list, [`reduce64`], a
//! reduction of whole numbers, and [`read_hex64`] and [`write_hex64`], which read and write ISO C's
//! hexadecimal numerals. [`sqrt64_flags`] and the like, of sqrt, fma, scalbn, floor, trunc and ceil,
//! give the [`Flags`] besides; [`sqrt64_rounded`] and the like, of sqrt, fma, scalbn and the reader,
//! round under an [`Attribute`] of IEEE 754. Each is proved, in the archive that this crate links, to
//! give the answer described here for every input; the repository's `docs/TRUST.md` says what that
//! rests on, and what is tested and not proved.
//!
//! A *pattern* is the bits of a number, as `f64::to_bits` and `f32::to_bits` give them. What a
//! function gives depends on its arguments alone. No call can fail, none asks anything of its
//! caller, and every pattern is answered; only the list call, the reduction, and the reader and the
//! writer refuse, with a [`Refusal`].
//!
//! *Rounded once*, where no attribute is named, is rounded to nearest: no number of the format is
//! nearer to the exact value, and of two that are equally near the answer is the one whose last bit
//! is 0. From halfway between the largest finite number and the power of two above it the answer is
//! infinity. A value that rounds to zero gives a zero with the value's sign.
//!
//! The *canonical NaN* is [`NAN64`] or [`NAN32`]. It is the only NaN that any operation answers.
//!
//! The functions under libm's names, [`sqrt`], [`sqrtf`], [`remquo`] and so on, take and give `f64`
//! and `f32` with libm's types, and so do [`sqrt_flags`], [`sqrtf_rounded`] and the like. They are the
//! functions on patterns between `to_bits` and `from_bits`, and nothing else. Where the bits of a NaN
//! matter, patterns are the safer choice: a machine may change them when it moves a number about,
//! though neither x86-64 nor Arm does.
//!
//! ```
//! use paskerotim::{sqrt, sqrt64, sqrt64_flags};
//!
//! assert_eq!(sqrt64(0x4000000000000000), 0x3ff6a09e667f3bcd);
//! assert_eq!(sqrt(2.0).to_bits(), 0x3ff6a09e667f3bcd);
//! let (root, flags) = sqrt64_flags(0x4000000000000000);
//! assert_eq!((root, flags.to_string().as_str()), (0x3ff6a09e667f3bcd, "INEXACT"));
//! ```
//!
//! # The archive
//!
//! The build links the static library that the variable `PASKEROTIM_ARCHIVE` names. Where it is not
//! set, and this crate is in its repository, it links the one that `tools/oracle archive`
//! makes there, for which the Rattle toolchain is needed. Archive and crate must be of one version:
//! a flag or a refusal that the crate does not know is a panic, and so is an attribute that the
//! archive does not know; with the archive of its own version there are none.

#![no_std]

mod attribute;
mod ceil;
mod env;
mod floor;
mod fma;
mod fmod;
mod frexp;
mod hex;
mod ilogb;
mod list;
mod modf;
mod modular;
mod nextafter;
mod raw;
mod refusal;
mod remquo;
mod scalbn;
mod sqrt;
mod trunc;

pub use attribute::Attribute;
pub use ceil::{ceil, ceil32, ceil32_flags, ceil64, ceil64_flags, ceil_flags, ceilf, ceilf_flags};
pub use env::{Flags, NAN32, NAN64};
pub use floor::{
    floor, floor32, floor32_flags, floor64, floor64_flags, floor_flags, floorf, floorf_flags,
};
pub use fma::{
    fma, fma32, fma32_flags, fma32_rounded, fma64, fma64_flags, fma64_rounded, fma_flags,
    fma_rounded, fmaf, fmaf_flags, fmaf_rounded,
};
pub use fmod::{fmod, fmod32, fmod64, fmodf};
pub use frexp::{frexp, frexp32, frexp64, frexpf};
pub use hex::{
    read_hex, read_hex32, read_hex32_rounded, read_hex64, read_hex64_rounded, read_hex_rounded,
    read_hexf, read_hexf_rounded, write_hex, write_hex32, write_hex64, write_hexf, HEX32_ROOM,
    HEX64_ROOM, TEXT_LIMIT,
};
pub use ilogb::{ilogb, ilogb32, ilogb64, ilogbf, ILOGB_INFINITY, ILOGB_NAN, ILOGB_ZERO};
pub use list::{list64, list64_by_number, ListOperation, LIST_LIMIT};
pub use modf::{modf, modf32, modf64, modff};
pub use modular::{reduce32, reduce64, DIVISOR_LIMIT32, DIVISOR_LIMIT64, SHIFT_LIMIT};
pub use nextafter::{nextafter, nextafter32, nextafter64, nextafterf};
pub use refusal::Refusal;
pub use remquo::{remquo, remquo64};
pub use scalbn::{
    scalbn, scalbn32, scalbn32_flags, scalbn32_rounded, scalbn64, scalbn64_flags, scalbn64_rounded,
    scalbn_flags, scalbn_rounded, scalbnf, scalbnf_flags, scalbnf_rounded,
};
pub use sqrt::{
    sqrt, sqrt32, sqrt32_flags, sqrt32_rounded, sqrt64, sqrt64_flags, sqrt64_rounded, sqrt_flags,
    sqrt_rounded, sqrtf, sqrtf_flags, sqrtf_rounded,
};
pub use trunc::{
    trunc, trunc32, trunc32_flags, trunc64, trunc64_flags, trunc_flags, truncf, truncf_flags,
};
