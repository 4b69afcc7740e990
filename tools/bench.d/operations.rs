//! The operations that are measured, a row for each, and what a row is made into.

// An answer of one word is written as that word in parentheses, to be said like an answer of two.
#![allow(unused_parens)]

use crate::answers::Flags;
use crate::operands;
use crate::run::Run;
use oracle::math::support::{linear_mul_reduction, FpResult, Round, Status};
use oracle::math::{fma, fmaf, frexp, generic, ilogb, modf, modff, nextafter, nextafterf, remquo};
use std::mem::MaybeUninit;

pub struct Operation {
    pub name: &'static str,
    pub measure: fn(&mut Run),
}

macro_rules! types {
    (($($x:ident: $type:ty),+)) => { ($($type,)+) };
}
macro_rules! names {
    (($($x:ident: $type:ty),+)) => { ($($x,)+) };
}
/// The function of the archive; a second answer goes out through a pointer.
macro_rules! declared {
    ($export:ident, ($($x:ident: $type:ty),+), $answer:ty $(, $second:ty)?) => {
        extern "C" { fn $export($($x: $type,)+ $(second: *mut $second)?) -> $answer; }
    };
}
// The exports are functions of numbers alone, with no condition on them, and write every place that is lent to them, so that
// none needs a value before.
macro_rules! call {
    ($function:expr, ($($x:ident: $type:ty),+), $stir:expr) => { $function($($x ^ $stir as $type),+) };
    ($function:expr, ($($x:ident: $type:ty),+), $stir:expr, $second:ty) => {{
        let mut second = MaybeUninit::<$second>::uninit();
        let answer = $function($($x ^ $stir as $type,)+ second.as_mut_ptr());
        (answer, second.assume_init())
    }};
}
macro_rules! request {
    (($($x:ident: $type:ty),+)) => { [$(word(stringify!($x), $x)),+].join(" ") };
}

/// At the start of a function: the first operand stays where it came in, and the compiler knows no more what is in it.
/// No instruction is made of this. Without it the compiler, though it may not put the function into the loop, would use
/// what it finds in the function there, which it cannot do with a function of the archive.
macro_rules! veil {
    (($x:ident: $type:ty $(, $rest:ident: $other:ty)*)) => {
        let mut $x = $x;
        unsafe { std::arch::asm!("", inout("rdi") $x, options(nomem, nostack, preserves_flags)) };
    };
}

/// Both sides are direct calls of functions of the same shape. Through pointers, a call's time would change by half with
/// the place where the program happens to lie in memory.
macro_rules! operations {
    ($($name:ident $operands:tt [$export:ident: $answer:ty $(, $second:ty)?] { $theirs:expr } [$($set:ident),+];)+) => {
        pub const OPERATIONS: &[Operation] = &[$(Operation {
            name: stringify!($name),
            measure: |run| {
                declared!($export, $operands, $answer $(, $second)?);
                #[inline(never)]
                fn theirs $operands -> ($answer $(, $second)?) {
                    veil!($operands);
                    $theirs
                }
                let our_side = |names!($operands): types!($operands), stir: u64| unsafe { call!($export, $operands, stir $(, $second)?) };
                let their_side = |names!($operands): types!($operands), stir: u64| call!(theirs, $operands, stir);
                let request = |names!($operands): types!($operands)| request!($operands);
                $(run.measure(stringify!($set), operands::$set, request, our_side, their_side);)+
            },
        }),+];
    };
}

// A row with _flags is our one call for value and flags beside libm's for value and status; scalbn has no status in libm,
// whose plain call stands there. Empty calls come first: two functions that do nothing, called as the two sides are. They
// show what a call costs by itself, and how near to 1 the ratio of two equal things comes.
// tools/bench reads the names of this table and the sets at the end of each row.
operations! {
//  name           operands                     ours: the export and its answers libm's, on patterns                                                         sets
    empty64        (x: u64)                     [identity64: u64]               { x }                                                                       [patterns];
    empty32        (x: u32)                     [identity32: u32]               { x }                                                                       [patterns];
    trunc64        (x: u64)                     [pk_trunc64: u64]               { generic::trunc_status(f64::from_bits(x)).val.to_bits() }                  [patterns, fractions];
    trunc32        (x: u32)                     [pk_trunc32: u32]               { generic::trunc_status(f32::from_bits(x)).val.to_bits() }                  [patterns, fractions];
    trunc64_flags  (x: u64)                     [pk_trunc64_flags: u64, Flags]  { both64(generic::trunc_status(f64::from_bits(x))) }                        [patterns, fractions];
    trunc32_flags  (x: u32)                     [pk_trunc32_flags: u32, Flags]  { both32(generic::trunc_status(f32::from_bits(x))) }                        [patterns, fractions];
    floor64        (x: u64)                     [pk_floor64: u64]               { generic::floor_status(f64::from_bits(x)).val.to_bits() }                  [patterns, fractions];
    floor32        (x: u32)                     [pk_floor32: u32]               { generic::floor_status(f32::from_bits(x)).val.to_bits() }                  [patterns, fractions];
    floor64_flags  (x: u64)                     [pk_floor64_flags: u64, Flags]  { both64(generic::floor_status(f64::from_bits(x))) }                        [patterns, fractions];
    floor32_flags  (x: u32)                     [pk_floor32_flags: u32, Flags]  { both32(generic::floor_status(f32::from_bits(x))) }                        [patterns, fractions];
    ceil64         (x: u64)                     [pk_ceil64: u64]                { generic::ceil_status(f64::from_bits(x)).val.to_bits() }                   [patterns, fractions];
    ceil32         (x: u32)                     [pk_ceil32: u32]                { generic::ceil_status(f32::from_bits(x)).val.to_bits() }                   [patterns, fractions];
    ceil64_flags   (x: u64)                     [pk_ceil64_flags: u64, Flags]   { both64(generic::ceil_status(f64::from_bits(x))) }                         [patterns, fractions];
    ceil32_flags   (x: u32)                     [pk_ceil32_flags: u32, Flags]   { both32(generic::ceil_status(f32::from_bits(x))) }                         [patterns, fractions];
    modf64         (x: u64)                     [pk_modf64: u64, u64]           { parts64(modf(f64::from_bits(x))) }                                        [patterns, fractions];
    modf32         (x: u32)                     [pk_modf32: u32, u32]           { parts32(modff(f32::from_bits(x))) }                                       [patterns, fractions];
    frexp64        (x: u64)                     [pk_frexp64: u64, i32]          { with_number64(frexp(f64::from_bits(x))) }                                 [patterns, positive, small];
    frexp32        (x: u32)                     [pk_frexp32: u32, i32]          { with_number32(generic::frexp(f32::from_bits(x))) }                        [patterns, positive, small];
    ilogb64        (x: u64)                     [pk_ilogb64: i32]               { ilogb(f64::from_bits(x)) }                                                [patterns, positive, small];
    ilogb32        (x: u32)                     [pk_ilogb32: i32]               { generic::ilogb(f32::from_bits(x)) }                                       [patterns, positive, small];
    nextafter64    (x: u64, y: u64)             [pk_nextafter64: u64]           { nextafter(f64::from_bits(x), f64::from_bits(y)).to_bits() }               [patterns, near, small];
    nextafter32    (x: u32, y: u32)             [pk_nextafter32: u32]           { nextafterf(f32::from_bits(x), f32::from_bits(y)).to_bits() }              [patterns, near, small];
    scalbn64       (x: u64, n: i32)             [pk_scalbn64: u64]              { generic::scalbn(f64::from_bits(x), n).to_bits() }                         [normal, wide, subnormal];
    scalbn32       (x: u32, n: i32)             [pk_scalbn32: u32]              { generic::scalbn(f32::from_bits(x), n).to_bits() }                         [normal, wide, subnormal];
    scalbn64_flags (x: u64, n: i32)             [pk_scalbn64_flags: u64, Flags] { (generic::scalbn(f64::from_bits(x), n).to_bits(), Flags(0)) }             [normal, wide, subnormal];
    scalbn32_flags (x: u32, n: i32)             [pk_scalbn32_flags: u32, Flags] { (generic::scalbn(f32::from_bits(x), n).to_bits(), Flags(0)) }             [normal, wide, subnormal];
    fmod64         (x: u64, y: u64)             [pk_fmod64: u64]                { generic::fmod(f64::from_bits(x), f64::from_bits(y)).to_bits() }           [near, apart31, apart63, far, worst, small];
    fmod32         (x: u32, y: u32)             [pk_fmod32: u32]                { generic::fmod(f32::from_bits(x), f32::from_bits(y)).to_bits() }           [near, far, worst, small];
    remquo64       (x: u64, y: u64)             [pk_remquo64: u64, i32]         { with_number64(remquo(f64::from_bits(x), f64::from_bits(y))) }             [near, far, worst, small];
    reduce64       (x: u64, shift: u32, y: u64) [pk_reduce64: u32, u64]         { (0, linear_mul_reduction(x, shift, y)) }                                  [random, longest];
    reduce32       (x: u32, shift: u32, y: u32) [pk_reduce32: u32, u32]         { (0, linear_mul_reduction(x, shift, y)) }                                  [random, longest];
    sqrt64         (x: u64)                     [pk_sqrt64: u64]                { root64(x).val.to_bits() }                                                 [patterns, positive, squares, small];
    sqrt32         (x: u32)                     [pk_sqrt32: u32]                { root32(x).val.to_bits() }                                                 [patterns, positive, squares, small];
    sqrt64_flags   (x: u64)                     [pk_sqrt64_flags: u64, Flags]   { both64(root64(x)) }                                                       [patterns, positive, squares, small];
    sqrt32_flags   (x: u32)                     [pk_sqrt32_flags: u32, Flags]   { both32(root32(x)) }                                                       [patterns, positive, squares, small];
    fma64          (x: u64, y: u64, z: u64)     [pk_fma64: u64]                 { fma(f64::from_bits(x), f64::from_bits(y), f64::from_bits(z)).to_bits() }  [patterns, level, spread, cancelling, tiny];
    fma32          (x: u32, y: u32, z: u32)     [pk_fma32: u32]                 { fmaf(f32::from_bits(x), f32::from_bits(y), f32::from_bits(z)).to_bits() } [patterns, level, spread, cancelling, tiny];
    fma64_flags    (x: u64, y: u64, z: u64)     [pk_fma64_flags: u64, Flags]    { both64(sum64(x, y, z)) }                                                  [patterns, level, spread, cancelling, tiny];
    fma32_flags    (x: u32, y: u32, z: u32)     [pk_fma32_flags: u32, Flags]    { both32(sum32(x, y, z)) }                                                  [patterns, level, spread, cancelling, tiny];
}

/// The list call, a row for each of its operations by their numbers. Ours is one call; libm's side is a plain loop
/// that calls its function for each place, from one slice into another.
macro_rules! lists {
    ($($name:ident $operand:tt $number:literal { $theirs:expr } [$($set:ident),+];)+) => {
        pub const LISTS: &[Operation] = &[$(Operation {
            name: stringify!($name),
            measure: |run| {
                #[inline(never)]
                fn theirs $operand -> u64 {
                    veil!($operand);
                    $theirs
                }
                let their_side = |input: &[u64], output: &mut [u64]| input.iter().zip(output).for_each(|(x, y)| *y = theirs(*x));
                $(run.measure_list(stringify!($set), operands::$set, $number, |input, output| list($number, input, output), their_side);)+
            },
        }),+];
    };
}

// tools/bench reads these rows too.
lists! {
//  name              operand   number  libm's, on patterns                                        sets
    list64_sqrt       (x: u64)  1       { root64(x).val.to_bits() }                                [patterns, positive];
    list64_floor      (x: u64)  2       { generic::floor_status(f64::from_bits(x)).val.to_bits() } [patterns, fractions];
    list64_trunc      (x: u64)  3       { generic::trunc_status(f64::from_bits(x)).val.to_bits() } [patterns, fractions];
}

/// Our calls under an attribute, of which libm has none: beside them stand our own calls without one, for the value alone and
/// for value and flags. Under each attribute the call is the same but for the number.
macro_rules! rounded {
    ($($name:ident $operands:tt [$export:ident: $value:ty] { $plain:ident, $flags:ident } [$($set:ident),+];)+) => {
        pub const ROUNDED: &[Operation] = &[$(Operation {
            name: stringify!($name),
            measure: |run| {
                declared!($plain, $operands, $value);
                declared!($flags, $operands, $value, Flags);
                declared_rounded!($export, $operands, $value);
                let plain = |names!($operands): types!($operands), stir: u64| unsafe { call!($plain, $operands, stir) };
                let flags = |names!($operands): types!($operands), stir: u64| unsafe { call!($flags, $operands, stir, Flags) };
                let under = |attribute: u32, names!($operands): types!($operands), stir: u64| unsafe { call_rounded!($export, attribute, $operands, stir, $value) };
                let request = |names!($operands): types!($operands)| request!($operands);
                $(run.measure_rounded(stringify!($set), operands::$set, request, plain, flags, under);)+
            },
        }),+];
    };
}
macro_rules! declared_rounded {
    ($export:ident, ($($x:ident: $type:ty),+), $value:ty) => {
        extern "C" { fn $export(attribute: u32, $($x: $type,)+ value: *mut $value, flags: *mut Flags) -> u32; }
    };
}
macro_rules! call_rounded {
    ($function:expr, $attribute:expr, ($($x:ident: $type:ty),+), $stir:expr, $value:ty) => {{
        let (mut value, mut flags) = (MaybeUninit::<$value>::uninit(), MaybeUninit::<Flags>::uninit());
        let refusal = $function($attribute, $($x ^ $stir as $type,)+ value.as_mut_ptr(), flags.as_mut_ptr());
        let (value, flags) = (value.assume_init(), flags.assume_init());
        ((refusal, value), flags)
    }};
}

// tools/bench reads these rows too.
rounded! {
//  name             operands                 ours: the export and its value ours without an attribute           sets
    sqrt64_rounded   (x: u64)                 [pk_sqrt64_rounded: u64]       { pk_sqrt64, pk_sqrt64_flags }      [patterns, positive, squares, small];
    sqrt32_rounded   (x: u32)                 [pk_sqrt32_rounded: u32]       { pk_sqrt32, pk_sqrt32_flags }      [patterns, positive, squares, small];
    fma64_rounded    (x: u64, y: u64, z: u64) [pk_fma64_rounded: u64]        { pk_fma64, pk_fma64_flags }        [patterns, level, spread, cancelling, tiny];
    fma32_rounded    (x: u32, y: u32, z: u32) [pk_fma32_rounded: u32]        { pk_fma32, pk_fma32_flags }        [patterns, level, spread, cancelling, tiny];
    scalbn64_rounded (x: u64, n: i32)         [pk_scalbn64_rounded: u64]     { pk_scalbn64, pk_scalbn64_flags }  [normal, wide, subnormal];
    scalbn32_rounded (x: u32, n: i32)         [pk_scalbn32_rounded: u32]     { pk_scalbn32, pk_scalbn32_flags }  [normal, wide, subnormal];
}

/// Our list call, which refuses nothing here: a set is as long as a list may be.
fn list(number: u32, input: &[u64], output: &mut [u64]) {
    extern "C" {
        fn pk_list64(op: u32, xs: *const u64, xs_len: usize, ys: *mut u64, ys_len: usize) -> u32;
    }
    let refusal = unsafe { pk_list64(number, input.as_ptr(), input.len(), output.as_mut_ptr(), output.len()) };
    assert_eq!(refusal, 0);
}

#[no_mangle]
#[inline(never)]
extern "C" fn identity64(x: u64) -> u64 {
    veil!((x: u64));
    x
}
#[no_mangle]
#[inline(never)]
extern "C" fn identity32(x: u32) -> u32 {
    veil!((x: u32));
    x
}

fn root64(x: u64) -> FpResult<f64> {
    generic::sqrt_round(f64::from_bits(x), Round::Nearest)
}
fn root32(x: u32) -> FpResult<f32> {
    generic::sqrt_round(f32::from_bits(x), Round::Nearest)
}

fn sum64(x: u64, y: u64, z: u64) -> FpResult<f64> {
    generic::fma_round(f64::from_bits(x), f64::from_bits(y), f64::from_bits(z), Round::Nearest)
}
fn sum32(x: u32, y: u32, z: u32) -> FpResult<f32> {
    generic::fma_wide_round(f32::from_bits(x), f32::from_bits(y), f32::from_bits(z), Round::Nearest)
}

fn both64(result: FpResult<f64>) -> (u64, Flags) {
    (result.val.to_bits(), number(result.status))
}
fn both32(result: FpResult<f32>) -> (u32, Flags) {
    (result.val.to_bits(), number(result.status))
}

/// The two parts of modf.
fn parts64((fraction, whole): (f64, f64)) -> (u64, u64) {
    (fraction.to_bits(), whole.to_bits())
}
fn parts32((fraction, whole): (f32, f32)) -> (u32, u32) {
    (fraction.to_bits(), whole.to_bits())
}

/// A value with remquo's quotient or frexp's exponent.
fn with_number64((value, number): (f64, i32)) -> (u64, i32) {
    (value.to_bits(), number)
}
fn with_number32((value, number): (f32, i32)) -> (u32, i32) {
    (value.to_bits(), number)
}

/// The status's own byte. It is private in libm, and asking for it by comparisons would be charged to libm.
fn number(status: Status) -> Flags {
    Flags(unsafe { std::mem::transmute::<Status, u8>(status) as u32 })
}

/// An operand as docs/LINES.md writes it: counts in decimal, patterns and plain words in hexadecimal.
fn word<W: std::fmt::Display + std::fmt::LowerHex>(name: &str, word: W) -> String {
    match name {
        "n" | "shift" => format!("{word}"),
        _ => format!("{word:0digits$x}", digits = 2 * std::mem::size_of::<W>()),
    }
}
