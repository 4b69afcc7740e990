//! The C functions of the archive, and all of the crate's unsafe code.
//!
//! `tools/bindings header` holds each declaration against the source of the function that it
//! declares.
#![allow(unsafe_code)]

// Safety of the block: the declarations are those of the archive's functions. Safety of the
// functions that are marked safe: they take numbers and at most two places, are proved to end with
// an answer for every number, and read and write no memory of the caller's but those places, each
// of which a `&mut` makes valid, aligned and the call's own. None keeps them.
unsafe extern "C" {
    pub(crate) safe fn pk_sqrt64(x: u64) -> u64;
    pub(crate) safe fn pk_sqrt32(x: u32) -> u32;
    pub(crate) safe fn pk_sqrt64_flags(x: u64, flags: &mut u32) -> u64;
    pub(crate) safe fn pk_sqrt32_flags(x: u32, flags: &mut u32) -> u32;
    pub(crate) safe fn pk_sqrt64_rounded(
        attribute: u32,
        x: u64,
        value: &mut u64,
        flags: &mut u32,
    ) -> u32;
    pub(crate) safe fn pk_sqrt32_rounded(
        attribute: u32,
        x: u32,
        value: &mut u32,
        flags: &mut u32,
    ) -> u32;
    pub(crate) safe fn pk_floor64(x: u64) -> u64;
    pub(crate) safe fn pk_floor32(x: u32) -> u32;
    pub(crate) safe fn pk_floor64_flags(x: u64, flags: &mut u32) -> u64;
    pub(crate) safe fn pk_floor32_flags(x: u32, flags: &mut u32) -> u32;
    pub(crate) safe fn pk_trunc64(x: u64) -> u64;
    pub(crate) safe fn pk_trunc32(x: u32) -> u32;
    pub(crate) safe fn pk_trunc64_flags(x: u64, flags: &mut u32) -> u64;
    pub(crate) safe fn pk_trunc32_flags(x: u32, flags: &mut u32) -> u32;
    pub(crate) safe fn pk_ceil64(x: u64) -> u64;
    pub(crate) safe fn pk_ceil32(x: u32) -> u32;
    pub(crate) safe fn pk_ceil64_flags(x: u64, flags: &mut u32) -> u64;
    pub(crate) safe fn pk_ceil32_flags(x: u32, flags: &mut u32) -> u32;
    pub(crate) safe fn pk_modf64(x: u64, whole: &mut u64) -> u64;
    pub(crate) safe fn pk_modf32(x: u32, whole: &mut u32) -> u32;
    pub(crate) safe fn pk_fma64(x: u64, y: u64, z: u64) -> u64;
    pub(crate) safe fn pk_fma32(x: u32, y: u32, z: u32) -> u32;
    pub(crate) safe fn pk_fma64_flags(x: u64, y: u64, z: u64, flags: &mut u32) -> u64;
    pub(crate) safe fn pk_fma32_flags(x: u32, y: u32, z: u32, flags: &mut u32) -> u32;
    pub(crate) safe fn pk_fma64_rounded(
        attribute: u32,
        x: u64,
        y: u64,
        z: u64,
        value: &mut u64,
        flags: &mut u32,
    ) -> u32;
    pub(crate) safe fn pk_fma32_rounded(
        attribute: u32,
        x: u32,
        y: u32,
        z: u32,
        value: &mut u32,
        flags: &mut u32,
    ) -> u32;
    pub(crate) safe fn pk_scalbn64(x: u64, n: i32) -> u64;
    pub(crate) safe fn pk_scalbn32(x: u32, n: i32) -> u32;
    pub(crate) safe fn pk_scalbn64_flags(x: u64, n: i32, flags: &mut u32) -> u64;
    pub(crate) safe fn pk_scalbn32_flags(x: u32, n: i32, flags: &mut u32) -> u32;
    pub(crate) safe fn pk_scalbn64_rounded(
        attribute: u32,
        x: u64,
        n: i32,
        value: &mut u64,
        flags: &mut u32,
    ) -> u32;
    pub(crate) safe fn pk_scalbn32_rounded(
        attribute: u32,
        x: u32,
        n: i32,
        value: &mut u32,
        flags: &mut u32,
    ) -> u32;
    pub(crate) safe fn pk_frexp64(x: u64, exponent: &mut i32) -> u64;
    pub(crate) safe fn pk_frexp32(x: u32, exponent: &mut i32) -> u32;
    pub(crate) safe fn pk_ilogb64(x: u64) -> i32;
    pub(crate) safe fn pk_ilogb32(x: u32) -> i32;
    pub(crate) safe fn pk_nextafter64(x: u64, y: u64) -> u64;
    pub(crate) safe fn pk_nextafter32(x: u32, y: u32) -> u32;
    pub(crate) safe fn pk_fmod64(x: u64, y: u64) -> u64;
    pub(crate) safe fn pk_fmod32(x: u32, y: u32) -> u32;
    pub(crate) safe fn pk_remquo64(x: u64, y: u64, quotient: &mut i32) -> u64;
    pub(crate) safe fn pk_reduce64(x: u64, e: u32, y: u64, value: &mut u64) -> u32;
    pub(crate) safe fn pk_reduce32(x: u32, e: u32, y: u32, value: &mut u32) -> u32;
    unsafe fn pk_list64(op: u32, xs: *const u64, xs_len: usize, ys: *mut u64, ys_len: usize)
        -> u32;
    unsafe fn pk_read_hex64(text: *const u8, text_len: usize, value: &mut u64) -> u32;
    unsafe fn pk_read_hex32(text: *const u8, text_len: usize, value: &mut u32) -> u32;
    unsafe fn pk_read_hex64_rounded(
        attribute: u32,
        text: *const u8,
        text_len: usize,
        value: &mut u64,
    ) -> u32;
    unsafe fn pk_read_hex32_rounded(
        attribute: u32,
        text: *const u8,
        text_len: usize,
        value: &mut u32,
    ) -> u32;
    unsafe fn pk_write_hex64(x: u64, out: *mut u8, out_len: usize, length: &mut u32) -> u32;
    unsafe fn pk_write_hex32(x: u32, out: *mut u8, out_len: usize, length: &mut u32) -> u32;
}

// The calls on lists and on texts, as slices. Safety of each: a slice's pointer is aligned and valid
// for its length, to be read, and to be written where the slice is `&mut`; a `&mut` overlaps no other
// argument. That is all that a call asks. It reads and writes within the lengths, and keeps no pointer.

/// The list call.
pub(crate) fn list64(op: u32, xs: &[u64], ys: &mut [u64]) -> u32 {
    unsafe { pk_list64(op, xs.as_ptr(), xs.len(), ys.as_mut_ptr(), ys.len()) }
}

/// The reader at 64 bits.
pub(crate) fn read_hex64(text: &[u8], value: &mut u64) -> u32 {
    unsafe { pk_read_hex64(text.as_ptr(), text.len(), value) }
}

/// The reader at 32 bits.
pub(crate) fn read_hex32(text: &[u8], value: &mut u32) -> u32 {
    unsafe { pk_read_hex32(text.as_ptr(), text.len(), value) }
}

/// The reader at 64 bits under an attribute.
pub(crate) fn read_hex64_rounded(attribute: u32, text: &[u8], value: &mut u64) -> u32 {
    unsafe { pk_read_hex64_rounded(attribute, text.as_ptr(), text.len(), value) }
}

/// The reader at 32 bits under an attribute.
pub(crate) fn read_hex32_rounded(attribute: u32, text: &[u8], value: &mut u32) -> u32 {
    unsafe { pk_read_hex32_rounded(attribute, text.as_ptr(), text.len(), value) }
}

/// The writer at 64 bits.
pub(crate) fn write_hex64(x: u64, out: &mut [u8], length: &mut u32) -> u32 {
    unsafe { pk_write_hex64(x, out.as_mut_ptr(), out.len(), length) }
}

/// The writer at 32 bits.
pub(crate) fn write_hex32(x: u32, out: &mut [u8], length: &mut u32) -> u32 {
    unsafe { pk_write_hex32(x, out.as_mut_ptr(), out.len(), length) }
}
