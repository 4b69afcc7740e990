//! The operations that have flags, each with how ours is called and how libm's is. A new one is a new row here, its functions
//! of the archive among those below, and a way to draw its operands.

use crate::fused::FOR_FUSED;
use crate::quick::{FOR_SCALING, FOR_WHOLE};
use crate::request::{Answer, Beside};
use crate::roots::FOR_ROOTS;
#[cfg(sqrt_plain)]
use crate::sqrt_plain as other_root;
use crate::table::{Judge, Nans, OTHER, Row, STALE, Status, other};
use oracle::api;
#[cfg(not(sqrt_plain))]
use oracle::api as other_root;

/// In a run of the two routes of the root both are ours, so that NaNs too must be alike.
const OF_ROOTS: Nans = if cfg!(sqrt_plain) { Nans::BitForBit } else { Nans::Equal };

extern "C" {
    fn pk_sqrt64(x: u64) -> u64;
    fn pk_sqrt64_flags(x: u64, flags: *mut u32) -> u64;
    fn pk_sqrt32(x: u32) -> u32;
    fn pk_sqrt32_flags(x: u32, flags: *mut u32) -> u32;
    fn pk_trunc64(x: u64) -> u64;
    fn pk_trunc64_flags(x: u64, flags: *mut u32) -> u64;
    fn pk_trunc32(x: u32) -> u32;
    fn pk_trunc32_flags(x: u32, flags: *mut u32) -> u32;
    fn pk_floor64(x: u64) -> u64;
    fn pk_floor64_flags(x: u64, flags: *mut u32) -> u64;
    fn pk_floor32(x: u32) -> u32;
    fn pk_floor32_flags(x: u32, flags: *mut u32) -> u32;
    fn pk_ceil64(x: u64) -> u64;
    fn pk_ceil64_flags(x: u64, flags: *mut u32) -> u64;
    fn pk_ceil32(x: u32) -> u32;
    fn pk_ceil32_flags(x: u32, flags: *mut u32) -> u32;
    fn pk_fma64(x: u64, y: u64, z: u64) -> u64;
    fn pk_fma64_flags(x: u64, y: u64, z: u64, flags: *mut u32) -> u64;
    fn pk_fma32(x: u32, y: u32, z: u32) -> u32;
    fn pk_fma32_flags(x: u32, y: u32, z: u32, flags: *mut u32) -> u32;
    fn pk_scalbn64(x: u64, n: i32) -> u64;
    fn pk_scalbn64_flags(x: u64, n: i32, flags: *mut u32) -> u64;
    fn pk_scalbn32(x: u32, n: i32) -> u32;
    fn pk_scalbn32_flags(x: u32, n: i32, flags: *mut u32) -> u32;
}

fn with_flags(call: impl FnOnce(&mut u32) -> u64) -> Answer {
    let mut flags = STALE;
    let word = call(&mut flags);
    Answer::flags(word, flags)
}

// Every function takes and returns numbers, writes at most the one place that is lent to it, is proved to end, and touches
// nothing else: that is what makes the calls below safe.
pub static WITH_FLAGS: [Row; 12] = [
    Row {
        name: "trunc64",
        nans: Nans::Equal,
        judge: Judge::Plain,
        beside: Beside::Flags,
        status: Status::Libms,
        draws: &FOR_WHOLE,
        ours: |r| with_flags(|flags| unsafe { pk_trunc64_flags(r.x(), flags) }),
        alone: Some(|r| unsafe { pk_trunc64(r.x()) }),
        crates: other(OTHER, |r| Answer::both(api::trunc64(r.x()))),
    },
    Row {
        name: "trunc32",
        nans: Nans::Equal,
        judge: Judge::Plain,
        beside: Beside::Flags,
        status: Status::Libms,
        draws: &FOR_WHOLE,
        ours: |r| with_flags(|flags| unsafe { pk_trunc32_flags(r.x32(), flags).into() }),
        alone: Some(|r| unsafe { pk_trunc32(r.x32()).into() }),
        crates: other(OTHER, |r| Answer::both32(api::trunc32(r.x32()))),
    },
    Row {
        name: "floor64",
        nans: Nans::Equal,
        judge: Judge::Plain,
        beside: Beside::Flags,
        status: Status::Libms,
        draws: &FOR_WHOLE,
        ours: |r| with_flags(|flags| unsafe { pk_floor64_flags(r.x(), flags) }),
        alone: Some(|r| unsafe { pk_floor64(r.x()) }),
        crates: other(OTHER, |r| Answer::both(api::floor64(r.x()))),
    },
    Row {
        name: "floor32",
        nans: Nans::Equal,
        judge: Judge::Plain,
        beside: Beside::Flags,
        status: Status::Libms,
        draws: &FOR_WHOLE,
        ours: |r| with_flags(|flags| unsafe { pk_floor32_flags(r.x32(), flags).into() }),
        alone: Some(|r| unsafe { pk_floor32(r.x32()).into() }),
        crates: other(OTHER, |r| Answer::both32(api::floor32(r.x32()))),
    },
    Row {
        name: "ceil64",
        nans: Nans::Equal,
        judge: Judge::Plain,
        beside: Beside::Flags,
        status: Status::Libms,
        draws: &FOR_WHOLE,
        ours: |r| with_flags(|flags| unsafe { pk_ceil64_flags(r.x(), flags) }),
        alone: Some(|r| unsafe { pk_ceil64(r.x()) }),
        crates: other(OTHER, |r| Answer::both(api::ceil64(r.x()))),
    },
    Row {
        name: "ceil32",
        nans: Nans::Equal,
        judge: Judge::Plain,
        beside: Beside::Flags,
        status: Status::Libms,
        draws: &FOR_WHOLE,
        ours: |r| with_flags(|flags| unsafe { pk_ceil32_flags(r.x32(), flags).into() }),
        alone: Some(|r| unsafe { pk_ceil32(r.x32()).into() }),
        crates: other(OTHER, |r| Answer::both32(api::ceil32(r.x32()))),
    },
    Row {
        name: "scalbn64",
        nans: Nans::Equal,
        judge: Judge::Plain,
        beside: Beside::Flags,
        status: Status::Nothing,
        draws: &FOR_SCALING,
        ours: |r| with_flags(|flags| unsafe { pk_scalbn64_flags(r.x(), r.n(), flags) }),
        alone: Some(|r| unsafe { pk_scalbn64(r.x(), r.n()) }),
        crates: other(OTHER, |r| Answer::value(api::scalbn64(r.x(), r.n()))),
    },
    Row {
        name: "scalbn32",
        nans: Nans::Equal,
        judge: Judge::Plain,
        beside: Beside::Flags,
        status: Status::Nothing,
        draws: &FOR_SCALING,
        ours: |r| with_flags(|flags| unsafe { pk_scalbn32_flags(r.x32(), r.n(), flags).into() }),
        alone: Some(|r| unsafe { pk_scalbn32(r.x32(), r.n()).into() }),
        crates: other(OTHER, |r| Answer::value(api::scalbn32(r.x32(), r.n()).into())),
    },
    Row {
        name: "sqrt64",
        nans: OF_ROOTS,
        judge: Judge::Plain,
        beside: Beside::Flags,
        status: Status::Libms,
        draws: &FOR_ROOTS,
        ours: |r| with_flags(|flags| unsafe { pk_sqrt64_flags(r.x(), flags) }),
        alone: Some(|r| unsafe { pk_sqrt64(r.x()) }),
        crates: other(OTHER, |r| Answer::both(other_root::sqrt64(r.x()))),
    },
    Row {
        name: "sqrt32",
        nans: OF_ROOTS,
        judge: Judge::Plain,
        beside: Beside::Flags,
        status: Status::Libms,
        draws: &FOR_ROOTS,
        ours: |r| with_flags(|flags| unsafe { pk_sqrt32_flags(r.x32(), flags).into() }),
        alone: Some(|r| unsafe { pk_sqrt32(r.x32()).into() }),
        crates: other(OTHER, |r| Answer::both32(other_root::sqrt32(r.x32()))),
    },
    Row {
        name: "fma64",
        nans: Nans::Equal,
        judge: Judge::Plain,
        beside: Beside::Flags,
        status: Status::Libms,
        draws: &FOR_FUSED,
        ours: |r| with_flags(|flags| unsafe { pk_fma64_flags(r.x(), r.y(), r.z(), flags) }),
        alone: Some(|r| unsafe { pk_fma64(r.x(), r.y(), r.z()) }),
        crates: other(OTHER, |r| Answer::both(api::fma64(r.x(), r.y(), r.z()))),
    },
    Row {
        name: "fma32",
        nans: Nans::Equal,
        judge: Judge::Plain,
        beside: Beside::Flags,
        status: Status::Libms,
        draws: &FOR_FUSED,
        ours: |r| with_flags(|flags| unsafe { pk_fma32_flags(r.x32(), r.y32(), r.z32(), flags).into() }),
        alone: Some(|r| unsafe { pk_fma32(r.x32(), r.y32(), r.z32()).into() }),
        crates: other("the later text of fmaf", |r| Answer::both32(api::fma32(r.x32(), r.y32(), r.z32()))),
    },
];
