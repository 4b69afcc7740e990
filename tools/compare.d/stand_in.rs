//! An archive for tests of compare: every function of the face, answered by the plain program, right or with the one fault
//! of `wrong_flags`, of `wrong_values`, of `wrong_attributes`, of `wrong_reads`, of `wrong_writes` or of the calls themselves
//! that the variable PK_FAULT names. It stands in for ours there, and nowhere else.
#![allow(dead_code)]

#[path = "../plain/answers.rs"]
mod answers;
#[path = "../plain/answers_flags.rs"]
mod answers_flags;
#[path = "../plain/answers_parts.rs"]
mod answers_parts;
#[path = "../plain/attributes.rs"]
mod attributes;
#[path = "../plain/big.rs"]
mod big;
#[path = "../plain/format.rs"]
mod format;
#[path = "../plain/numerals.rs"]
mod numerals;
#[path = "../plain/operations.rs"]
mod operations;
#[path = "../plain/rounding.rs"]
mod rounding;

mod raised;
mod request;
mod stand_in_numerals;
mod wrong_attributes;
mod wrong_flags;
mod wrong_reads;
mod wrong_values;
mod wrong_writes;

use attributes::Attribute::{self, Even};
use format::{Format, WIDTH_32, WIDTH_64};
use operations::Flags;
use request::{Answer, Request};
use stand_in_numerals::{NO_LENGTH, PAST_ROOM};
use std::sync::OnceLock;
use wrong_flags::Wrong;

/// Faults of the calls themselves: flags are added to what the place holds, and where an attribute is refused a place is
/// left as it was.
const ADDED: &str = "flags-added-to";
const NO_VALUE: &str = "value-unwritten-where-refused";
const NO_FLAGS: &str = "flags-unwritten-where-refused";

/// Whether this fault is asked for.
fn is_asked(name: &str) -> bool {
    static FAULT: OnceLock<Option<String>> = OnceLock::new();
    let asked = FAULT.get_or_init(|| {
        let asked = std::env::var("PK_FAULT").ok()?;
        let under = wrong_attributes::WRONG.iter().map(|one| one.name);
        let read = wrong_reads::WRONG.iter().map(|one| one.name);
        let written = wrong_writes::WRONG.iter().map(|one| one.name);
        let of_calls = [ADDED, NO_VALUE, NO_FLAGS, PAST_ROOM, NO_LENGTH];
        let mut names = wrong().map(|one| one.name).chain(under).chain(read).chain(written).chain(of_calls);
        assert!(names.any(|one| one == asked), "PK_FAULT names no fault");
        Some(asked)
    });
    asked.as_deref() == Some(name)
}

/// The faults of operations without an attribute.
fn wrong() -> impl Iterator<Item = &'static Wrong> {
    wrong_flags::WRONG.iter().chain(&wrong_values::WRONG)
}

/// The plain program's answer, with the fault where it strikes.
fn spoiled(name: &str, format: Format, request: Request, mut answer: Answer) -> Answer {
    let fault = wrong().find(|one| is_asked(one.name));
    if let Some(fault) = fault.filter(|fault| fault.operations.contains(&name)) {
        (fault.spoil)(format, &request, &mut answer);
    }
    answer
}

/// The value of the plain program's answer, whose flags are written out.
fn written(name: &str, format: Format, request: Request, right: (u64, Flags), out: *mut u32) -> u64 {
    let answer = spoiled(name, format, request, Answer::flags(right.0, raised::word_of(right.1)));
    put_flags(&answer, out);
    answer.word
}
fn put_flags(answer: &Answer, out: *mut u32) {
    let flags = answer.number as u32;
    // The caller lends a place for a word.
    unsafe { *out = if is_asked(ADDED) { *out | flags } else { flags } };
}

/// The plain program's answer under the attribute of a number, with the fault where it strikes.
fn rounded(name: &str, request: Request) -> Answer {
    let operation = operations::find(name).expect("an operation of the line format");
    let plain = Request { attribute: 0, ..request };
    let mut answer = match Attribute::of_number(request.attribute) {
        None => Answer { refused: 10, ..Answer::default() },
        Some(attribute) => {
            let (word, flags) = answers_flags::under(operation, attribute, &plain.fields(operation));
            Answer::flags(word, raised::word_of(flags))
        }
    };
    let fault = wrong_attributes::WRONG.iter().find(|one| is_asked(one.name));
    if let Some(fault) = fault.filter(|fault| fault.operations.contains(&name)) {
        let case = wrong_attributes::Case { operation, request: &request };
        (fault.spoil)(&case, &mut answer);
    }
    answer
}

fn floor(format: Format, x: u64) -> (u64, Flags) {
    answers_flags::to_integer(format, x, format.is_negative(x))
}
fn ceil(format: Format, x: u64) -> (u64, Flags) {
    answers_flags::to_integer(format, x, !format.is_negative(x))
}
fn trunc(format: Format, x: u64) -> (u64, Flags) {
    answers_flags::to_integer(format, x, false)
}

/// The name of an operation by that of a function.
fn name_of(export: &str) -> &str {
    export.trim_start_matches("pk_")
}

/// An operation with its flags, and the same for the value alone.
macro_rules! flagged {
    ($($alone:ident $with_flags:ident $format:ident $word:ty, ($($x:ident: $kind:ty),+), $request:expr, $answer:expr;)+) => {$(
        #[no_mangle]
        pub extern "C" fn $with_flags($($x: $kind),+, flags: *mut u32) -> $word {
            written(name_of(stringify!($alone)), $format, $request, $answer, flags) as $word
        }
        #[no_mangle]
        pub extern "C" fn $alone($($x: $kind),+) -> $word {
            let mut flags = 0;
            $with_flags($($x),+, &mut flags)
        }
    )+};
}
flagged! {
    pk_sqrt64 pk_sqrt64_flags WIDTH_64 u64, (x: u64), Request::word(x), answers_flags::sqrt(WIDTH_64, Even, x);
    pk_sqrt32 pk_sqrt32_flags WIDTH_32 u32, (x: u32), Request::word(x.into()), answers_flags::sqrt(WIDTH_32, Even, x.into());
    pk_floor64 pk_floor64_flags WIDTH_64 u64, (x: u64), Request::word(x), floor(WIDTH_64, x);
    pk_floor32 pk_floor32_flags WIDTH_32 u32, (x: u32), Request::word(x.into()), floor(WIDTH_32, x.into());
    pk_ceil64 pk_ceil64_flags WIDTH_64 u64, (x: u64), Request::word(x), ceil(WIDTH_64, x);
    pk_ceil32 pk_ceil32_flags WIDTH_32 u32, (x: u32), Request::word(x.into()), ceil(WIDTH_32, x.into());
    pk_trunc64 pk_trunc64_flags WIDTH_64 u64, (x: u64), Request::word(x), trunc(WIDTH_64, x);
    pk_trunc32 pk_trunc32_flags WIDTH_32 u32, (x: u32), Request::word(x.into()), trunc(WIDTH_32, x.into());
    pk_scalbn64 pk_scalbn64_flags WIDTH_64 u64, (x: u64, n: i32), Request::word_and_number(x, n), answers_flags::scalbn(WIDTH_64, Even, x, n);
    pk_scalbn32 pk_scalbn32_flags WIDTH_32 u32, (x: u32, n: i32), Request::word_and_number(x.into(), n), answers_flags::scalbn(WIDTH_32, Even, x.into(), n);
    pk_fma64 pk_fma64_flags WIDTH_64 u64, (x: u64, y: u64, z: u64), Request::three_words([x, y, z]), answers_flags::fma(WIDTH_64, Even, [x, y, z]);
    pk_fma32 pk_fma32_flags WIDTH_32 u32, (x: u32, y: u32, z: u32), Request::three_words([x, y, z].map(u64::from)), answers_flags::fma(WIDTH_32, Even, [x, y, z].map(u64::from));
}

/// The same under an attribute: the number of a refusal, and value and flags written out.
macro_rules! under_attributes {
    ($($export:ident $name:literal $word:ty, ($($x:ident: $kind:ty),+), $request:expr;)+) => {$(
        #[no_mangle]
        pub extern "C" fn $export(attribute: u32, $($x: $kind),+, value: *mut $word, flags: *mut u32) -> u32 {
            let answer = rounded($name, Request { attribute, ..$request });
            let leaves = |fault: &str| answer.refused != 0 && is_asked(fault);
            if !leaves(NO_VALUE) {
                // The caller lends a place for a word.
                unsafe { *value = answer.word as $word };
            }
            if !leaves(NO_FLAGS) {
                put_flags(&answer, flags);
            }
            answer.refused
        }
    )+};
}
under_attributes! {
    pk_sqrt64_rounded "sqrt64" u64, (x: u64), Request::word(x);
    pk_sqrt32_rounded "sqrt32" u32, (x: u32), Request::word(x.into());
    pk_scalbn64_rounded "scalbn64" u64, (x: u64, n: i32), Request::word_and_number(x, n);
    pk_scalbn32_rounded "scalbn32" u32, (x: u32, n: i32), Request::word_and_number(x.into(), n);
    pk_fma64_rounded "fma64" u64, (x: u64, y: u64, z: u64), Request::three_words([x, y, z]);
    pk_fma32_rounded "fma32" u32, (x: u32, y: u32, z: u32), Request::three_words([x, y, z].map(u64::from));
}

/// The operations that take a number apart, and nextafter.
macro_rules! parted {
    ($($modf:ident $frexp:ident $ilogb:ident $nextafter:ident $format:ident $word:ty;)+) => {$(
        #[no_mangle]
        pub extern "C" fn $modf(x: $word, whole: *mut $word) -> $word {
            let answer = Answer::parts(answers_parts::modf($format, x.into()));
            let answer = spoiled(name_of(stringify!($modf)), $format, Request::word(x.into()), answer);
            // The caller lends a place, here and below.
            unsafe { *whole = answer.number as $word };
            answer.word as $word
        }
        #[no_mangle]
        pub extern "C" fn $frexp(x: $word, exponent: *mut i32) -> $word {
            let answer = Answer::numbered(answers_parts::frexp($format, x.into()));
            let answer = spoiled(name_of(stringify!($frexp)), $format, Request::word(x.into()), answer);
            unsafe { *exponent = answer.number as i32 };
            answer.word as $word
        }
        #[no_mangle]
        pub extern "C" fn $ilogb(x: $word) -> i32 {
            let answer = Answer::exponent(answers_parts::ilogb($format, x.into()));
            spoiled(name_of(stringify!($ilogb)), $format, Request::word(x.into()), answer).word as i32
        }
        #[no_mangle]
        pub extern "C" fn $nextafter(x: $word, y: $word) -> $word {
            let answer = Answer::value(answers_parts::nextafter($format, x.into(), y.into()));
            let request = Request::two_words(x.into(), y.into());
            spoiled(name_of(stringify!($nextafter)), $format, request, answer).word as $word
        }
    )+};
}
parted! {
    pk_modf64 pk_frexp64 pk_ilogb64 pk_nextafter64 WIDTH_64 u64;
    pk_modf32 pk_frexp32 pk_ilogb32 pk_nextafter32 WIDTH_32 u32;
}

#[no_mangle]
pub extern "C" fn pk_fmod64(x: u64, y: u64) -> u64 {
    answers::fmod(WIDTH_64, x, y)
}
#[no_mangle]
pub extern "C" fn pk_fmod32(x: u32, y: u32) -> u32 {
    answers::fmod(WIDTH_32, x.into(), y.into()) as u32
}
#[no_mangle]
pub extern "C" fn pk_remquo64(x: u64, y: u64, quotient: *mut i32) -> u64 {
    let (rest, whole) = answers::remquo(WIDTH_64, x, y);
    unsafe { *quotient = whole };
    rest
}
#[no_mangle]
pub extern "C" fn pk_reduce64(x: u64, e: u32, y: u64, value: *mut u64) -> u32 {
    let (refusal, rest) = answers::reduce(64, x, e, y);
    unsafe { *value = rest };
    refusal
}
#[no_mangle]
pub extern "C" fn pk_reduce32(x: u32, e: u32, y: u32, value: *mut u32) -> u32 {
    let (refusal, rest) = answers::reduce(32, x.into(), e, y.into());
    unsafe { *value = rest as u32 };
    refusal
}
#[no_mangle]
pub extern "C" fn pk_list64(op: u32, xs: *const u64, xs_len: usize, ys: *mut u64, ys_len: usize) -> u32 {
    if op.wrapping_sub(1) >= 3 {
        return 1;
    }
    if xs_len > 8192 || ys_len > 8192 {
        return 2;
    }
    if xs_len != ys_len {
        return 3;
    }
    for place in 0..xs_len {
        // Both lists have the place.
        unsafe {
            let x = *xs.add(place);
            *ys.add(place) = match op {
                1 => pk_sqrt64(x),
                2 => pk_floor64(x),
                _ => pk_trunc64(x),
            }
        }
    }
    0
}
