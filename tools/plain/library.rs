// The C library's functions and the flags of fenv.h; with library_numerals.rs the only file with floating-point numbers.

use crate::format::{Format, WIDTH_32, WIDTH_64};
use crate::operations::{Flags, Task};
use std::hint::black_box;

type Of<T> = unsafe extern "C" fn(T) -> T;

#[link(name = "m")]
extern "C" {
    fn sqrt(x: f64) -> f64;
    fn sqrtf(x: f32) -> f32;
    fn floor(x: f64) -> f64;
    fn floorf(x: f32) -> f32;
    fn trunc(x: f64) -> f64;
    fn truncf(x: f32) -> f32;
    fn ceil(x: f64) -> f64;
    fn ceilf(x: f32) -> f32;
    fn rint(x: f64) -> f64;
    fn rintf(x: f32) -> f32;
    fn scalbn(x: f64, n: i32) -> f64;
    fn scalbnf(x: f32, n: i32) -> f32;
    fn fma(x: f64, y: f64, z: f64) -> f64;
    fn fmaf(x: f32, y: f32, z: f32) -> f32;
    fn fmod(x: f64, y: f64) -> f64;
    fn fmodf(x: f32, y: f32) -> f32;
    fn remquo(x: f64, y: f64, quotient: *mut i32) -> f64;
    fn modf(x: f64, whole: *mut f64) -> f64;
    fn modff(x: f32, whole: *mut f32) -> f32;
    fn frexp(x: f64, exponent: *mut i32) -> f64;
    fn frexpf(x: f32, exponent: *mut i32) -> f32;
    fn ilogb(x: f64) -> i32;
    fn ilogbf(x: f32) -> i32;
    fn nextafter(x: f64, y: f64) -> f64;
    fn nextafterf(x: f32, y: f32) -> f32;
    fn feclearexcept(flags: i32) -> i32;
    fn fetestexcept(flags: i32) -> i32;
    fn fesetround(direction: i32) -> i32;
}

/// The numbers of fenv.h for the flags in the order of a line, and for the
/// directions to nearest, down, up and toward zero.
#[cfg(target_arch = "x86_64")]
pub const FENV: ([i32; 5], [i32; 4]) = ([1, 4, 8, 16, 32], [0, 0x400, 0x800, 0xc00]);
#[cfg(target_arch = "aarch64")]
pub const FENV: ([i32; 5], [i32; 4]) = ([1, 2, 4, 8, 16], [0, 0x80_0000, 0x40_0000, 0xc0_0000]);

const ORDER: [Flags; 5] =
    [Flags::INVALID, Flags::DIVBYZERO, Flags::OVERFLOW, Flags::UNDERFLOW, Flags::INEXACT];

/// What a call gave: the value, its flags, the whole part of modf, and the
/// quotient of remquo or the exponent of frexp and ilogb.
#[derive(Clone, Copy)]
pub struct Given {
    pub value: u64,
    pub flags: Flags,
    pub whole: u64,
    pub number: i32,
}

/// The functions are called by pointers that the compiler does not see
/// through: of those it knows it believes that they leave the flags alone.
fn double(task: Task, words: &[u64], n: i32) -> Option<u64> {
    let at = |place: usize| f64::from_bits(black_box(words[place]));
    // SAFETY: plain functions of numbers.
    let value = unsafe {
        match task {
            Task::Sqrt => black_box(sqrt as Of<f64>)(at(0)),
            Task::Floor => black_box(floor as Of<f64>)(at(0)),
            Task::Trunc => black_box(trunc as Of<f64>)(at(0)),
            Task::Ceil => black_box(ceil as Of<f64>)(at(0)),
            Task::Scalbn => {
                black_box(scalbn as unsafe extern "C" fn(f64, i32) -> f64)(at(0), black_box(n))
            }
            Task::Fma => {
                let call = black_box(fma as unsafe extern "C" fn(f64, f64, f64) -> f64);
                call(at(0), at(1), at(2))
            }
            _ => return None,
        }
    };
    Some(black_box(value).to_bits())
}

fn single(task: Task, words: &[u64], n: i32) -> Option<u64> {
    let at = |place: usize| f32::from_bits(black_box(words[place] as u32));
    // SAFETY: plain functions of numbers.
    let value = unsafe {
        match task {
            Task::Sqrt => black_box(sqrtf as Of<f32>)(at(0)),
            Task::Floor => black_box(floorf as Of<f32>)(at(0)),
            Task::Trunc => black_box(truncf as Of<f32>)(at(0)),
            Task::Ceil => black_box(ceilf as Of<f32>)(at(0)),
            Task::Scalbn => {
                black_box(scalbnf as unsafe extern "C" fn(f32, i32) -> f32)(at(0), black_box(n))
            }
            Task::Fma => {
                let call = black_box(fmaf as unsafe extern "C" fn(f32, f32, f32) -> f32);
                call(at(0), at(1), at(2))
            }
            _ => return None,
        }
    };
    Some(black_box(value).to_bits() as u64)
}

/// The operations without flags.
fn double_alone(task: Task, words: &[u64]) -> Option<Given> {
    let at = |place: usize| f64::from_bits(words[place]);
    let (mut value, mut whole, mut number) = (0.0, 0.0, 0);
    // SAFETY: plain functions of numbers; what they write is lent.
    unsafe {
        match task {
            Task::Fmod => value = fmod(at(0), at(1)),
            Task::Remquo => value = remquo(at(0), at(1), &mut number),
            Task::Modf => value = modf(at(0), &mut whole),
            Task::Frexp => value = frexp(at(0), &mut number),
            Task::Ilogb => number = ilogb(at(0)),
            Task::Nextafter => value = nextafter(at(0), at(1)),
            _ => return None,
        }
    }
    let (value, whole) = (value.to_bits(), whole.to_bits());
    Some(Given { value, flags: Flags::NONE, whole, number })
}

fn single_alone(task: Task, words: &[u64]) -> Option<Given> {
    let at = |place: usize| f32::from_bits(words[place] as u32);
    let (mut value, mut whole, mut number) = (0.0, 0.0, 0);
    // SAFETY: plain functions of numbers; what they write is lent.
    unsafe {
        match task {
            Task::Fmod => value = fmodf(at(0), at(1)),
            Task::Modf => value = modff(at(0), &mut whole),
            Task::Frexp => value = frexpf(at(0), &mut number),
            Task::Ilogb => number = ilogbf(at(0)),
            Task::Nextafter => value = nextafterf(at(0), at(1)),
            _ => return None,
        }
    }
    let (value, whole) = (value.to_bits() as u64, whole.to_bits() as u64);
    Some(Given { value, flags: Flags::NONE, whole, number })
}

/// Clears the flags, calls, and reads them.
fn watched<T>(call: impl FnOnce() -> T) -> (T, Flags) {
    let (numbers, _) = FENV;
    let all = numbers.iter().sum();
    // SAFETY: they clear and read the flags of this thread.
    unsafe { feclearexcept(all) };
    let given = call();
    let raised = unsafe { fetestexcept(all) };
    let pairs = numbers.iter().zip(ORDER).filter(|(number, _)| raised & **number != 0);
    (given, pairs.fold(Flags::NONE, |flags, (_, flag)| flags.and(flag)))
}

/// floor, trunc and ceil may leave inexact alone, so their flags are those of
/// rint in their direction.
fn integer_flags(format: Format, task: Task, x: u64) -> Flags {
    let (_, [nearest, down, up, toward_zero]) = FENV;
    let direction = match task {
        Task::Floor => down,
        Task::Ceil => up,
        _ => toward_zero,
    };
    // SAFETY: a plain function of a number; the direction is put back.
    unsafe { fesetround(direction) };
    let (_, flags) = match format == WIDTH_64 {
        true => watched(|| {
            let call = black_box(rint as Of<f64>);
            black_box(unsafe { call(f64::from_bits(black_box(x))) }).to_bits()
        }),
        false => watched(|| {
            let call = black_box(rintf as Of<f32>);
            black_box(unsafe { call(f32::from_bits(black_box(x as u32))) }).to_bits() as u64
        }),
    };
    unsafe { fesetround(nearest) };
    flags
}

/// What the C library gives, where it has the function and the width.
pub fn given(format: Format, task: Task, words: &[u64], n: i32) -> Option<Given> {
    let (alone, (value, flags)) = match format {
        WIDTH_64 => (double_alone(task, words), watched(|| double(task, words, n))),
        WIDTH_32 => (single_alone(task, words), watched(|| single(task, words, n))),
        _ => return None,
    };
    let flags = match task {
        Task::Floor | Task::Trunc | Task::Ceil => integer_flags(format, task, words[0]),
        _ => flags,
    };
    alone.or(value.map(|value| Given { value, flags, whole: 0, number: 0 }))
}

/// Whether the processor judges tininess before rounding: 2^-1022 - 2^-1080
/// is below 2^-1022, and rounds to it.
pub fn judges_before_rounding() -> bool {
    let words = [0x9e30_0000_0000_0000, 0x1e30_0000_0000_0000, 0x0010_0000_0000_0000];
    given(WIDTH_64, Task::Fma, &words, 0).is_some_and(|one| one.flags.has(Flags::UNDERFLOW))
}
