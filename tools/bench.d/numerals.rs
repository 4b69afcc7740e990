//! Numerals beside the C library, which has the same forms: our reader beside strtod and strtof, our writer beside snprintf
//! with %a. Both sides are called where they lie, and take the same texts and numbers.

use crate::answers::Answer;
use crate::operands::{self, Word};
use crate::operations::Operation;
use crate::random::Random;
use crate::run::{ATTRIBUTES, Run};
use std::ffi::{c_char, c_int};
use std::mem::MaybeUninit;

extern "C" {
    fn strtod(text: *const c_char, end: *mut *mut c_char) -> f64;
    fn strtof(text: *const c_char, end: *mut *mut c_char) -> f32;
    fn snprintf(out: *mut c_char, room: usize, form: *const c_char, ...) -> c_int;
}

const ROOM: usize = 64;

/// A text, with the byte zero behind it that the C library asks for and ours does not.
#[derive(Clone, Copy)]
pub struct Text {
    bytes: [u8; 32],
    length: usize,
}

impl Text {
    fn of(text: &str) -> Text {
        let mut bytes = [0; 32];
        bytes[..text.len()].copy_from_slice(text.as_bytes());
        Text { bytes, length: text.len() }
    }
    /// Where it begins; the word is 0, and may wait for the last answer.
    fn at(&self, stir: u64) -> *const u8 {
        self.bytes.as_ptr().wrapping_add(stir as usize)
    }
    fn shown(&self) -> String {
        String::from_utf8_lossy(&self.bytes[..self.length]).into_owned()
    }
}

/// A number's text, with the digits that it has.
fn text_of<W: Word>(x: u64) -> Text {
    let format = W::FORMAT;
    let places = format.fraction_bits.div_ceil(4);
    let digits = format.fraction_field(x) << (4 * places - format.fraction_bits);
    let digits = format!("{digits:0places$x}", places = places as usize);
    let digits = digits.trim_end_matches('0');
    let point = if digits.is_empty() { "" } else { "." };
    let field = format.exponent_field(x) as i32;
    let sign = if format.is_negative(x) { "-" } else { "" };
    let lead = i32::from(field > 0);
    Text::of(&format!("{sign}0x{lead}{point}{digits}p{:+}", field.max(1) - W::BIAS))
}

/// What a writer did: the length that it gave, and the last byte that it wrote.
#[derive(Clone, Copy)]
pub struct Wrote(u32, u8);

impl Answer for Wrote {
    fn mixed(self) -> u64 {
        u64::from(self.0) ^ u64::from(self.1)
    }
    fn same(self, other: Wrote) -> bool {
        self.0 == other.0 && self.1 == other.1
    }
}

fn wrote(out: *const c_char, length: u32) -> Wrote {
    // Either side has written so many bytes.
    Wrote(length, unsafe { *out.add(length.saturating_sub(1) as usize) as u8 })
}

macro_rules! read {
    ($export:ident $word:ty, $text:expr, $stir:expr $(, $attribute:expr)?) => {{
        let mut value = MaybeUninit::<$word>::uninit();
        let refusal = $export($($attribute,)? $text.at($stir), $text.length, value.as_mut_ptr());
        (refusal, value.assume_init())
    }};
}
macro_rules! read_by_c {
    ($theirs:ident, $text:expr, $stir:expr) => {{
        let mut end = MaybeUninit::<*mut c_char>::uninit();
        (0, $theirs($text.at($stir).cast(), end.as_mut_ptr()).to_bits())
    }};
}

macro_rules! reads {
    ($($name:ident ($x:ident: $word:ty) [$export:ident] { $theirs:ident } [$($set:ident),+];)+) => {
        pub const READS: &[Operation] = &[$(Operation {
            name: stringify!($name),
            measure: |run| {
                extern "C" { fn $export(text: *const u8, length: usize, value: *mut $word) -> u32; }
                let ours = |text: &Text, stir: u64| unsafe { read!($export $word, text, stir) };
                let theirs = |text: &Text, stir: u64| unsafe { read_by_c!($theirs, text, stir) };
                $(run.measure_read::<$word, _>(stringify!($set), operands::$set, ours, theirs);)+
            },
        }),+];
    };
}
macro_rules! reads_rounded {
    ($($name:ident ($x:ident: $word:ty) [$export:ident] { $plain:ident, $theirs:ident } [$($set:ident),+];)+) => {
        pub const READS_ROUNDED: &[Operation] = &[$(Operation {
            name: stringify!($name),
            measure: |run| {
                extern "C" {
                    fn $plain(text: *const u8, length: usize, value: *mut $word) -> u32;
                    fn $export(attribute: u32, text: *const u8, length: usize, value: *mut $word) -> u32;
                }
                let plain = |text: &Text, stir: u64| unsafe { read!($plain $word, text, stir) };
                let theirs = |text: &Text, stir: u64| unsafe { read_by_c!($theirs, text, stir) };
                let under = |attribute: u32, text: &Text, stir: u64| unsafe { read!($export $word, text, stir, attribute) };
                $(run.measure_read_rounded::<$word, _>(stringify!($set), operands::$set, plain, theirs, under);)+
            },
        }),+];
    };
}
macro_rules! writes {
    ($($name:ident ($x:ident: $word:ty) [$export:ident] { $float:ident } [$($set:ident),+];)+) => {
        pub const WRITES: &[Operation] = &[$(Operation {
            name: stringify!($name),
            measure: |run| {
                extern "C" { fn $export(x: $word, out: *mut u8, room: usize, length: *mut u32) -> u32; }
                let mut room: [c_char; ROOM] = [0; ROOM];
                let out = room.as_mut_ptr();
                let ours = |($x,): ($word,), stir: u64| unsafe {
                    let mut length = MaybeUninit::<u32>::uninit();
                    $export($x ^ stir as $word, out.cast(), ROOM, length.as_mut_ptr());
                    wrote(out, length.assume_init())
                };
                let theirs = |($x,): ($word,), stir: u64| unsafe {
                    let number = f64::from($float::from_bits($x ^ stir as $word));
                    wrote(out, snprintf(out, ROOM, c"%a".as_ptr(), number) as u32)
                };
                $(run.measure_write::<$word>(stringify!($set), operands::$set, out, ours, theirs);)+
            },
        }),+];
    };
}

// tools/bench reads these rows too. The C library promotes a 32-bit number to 64 bits before it writes it.
reads! {
//  name    operand  ours            the C library's sets
    read64  (x: u64) [pk_read_hex64] { strtod }      [positive, short, small];
    read32  (x: u32) [pk_read_hex32] { strtof }      [positive, short, small];
}
writes! {
//  name    operand  ours             a number of C   sets
    write64 (x: u64) [pk_write_hex64] { f64 }         [positive, short, small];
    write32 (x: u32) [pk_write_hex32] { f32 }         [positive, short, small];
}
reads_rounded! {
//  name           operand  ours                    ours without an attribute, and the C library's sets
    read64_rounded (x: u64) [pk_read_hex64_rounded] { pk_read_hex64, strtod }                      [positive, short, small];
    read32_rounded (x: u32) [pk_read_hex32_rounded] { pk_read_hex32, strtof }                      [positive, short, small];
}

impl Run {
    /// The texts of a set, unless lines of them are asked for, which are then written.
    fn texts<W: Word + Into<u64>>(&mut self, set: &str, draw: fn(&mut Random) -> (W,)) -> Option<Vec<Text>> {
        let texts: Vec<Text> = self.operands(set, draw)?.into_iter().map(|(x,)| text_of::<W>(x.into())).collect();
        self.lines_instead(texts.iter().map(Text::shown)).then_some(texts)
    }
    /// Whether something is to be measured; if not, the requests are written.
    fn lines_instead(&mut self, requests: impl Iterator<Item = String>) -> bool {
        if self.operands_alone {
            let operation = self.operation.split('_').next().unwrap_or_default();
            self.requests.extend(requests.map(|request| format!("{operation} {request}\n")));
        }
        !self.operands_alone
    }

    fn measure_read<W: Word + Into<u64>, A: Answer>(
        &mut self,
        set: &'static str,
        draw: fn(&mut Random) -> (W,),
        ours: impl Fn(&Text, u64) -> A + Copy,
        theirs: impl Fn(&Text, u64) -> A + Copy,
    ) {
        let Some(texts) = self.texts(set, draw) else { return };
        let texts: Vec<&Text> = texts.iter().collect();
        self.compare(set, texts.iter().filter(|text| !ours(text, 0).same(theirs(text, 0))).count());
        let rows = self.both(set, &texts, ours, theirs);
        self.numerals.extend(rows);
    }

    /// To nearest even the call under an attribute must give what the others do, and a text that is a number of the format is
    /// that number under all of them.
    fn measure_read_rounded<W: Word + Into<u64>, A: Answer>(
        &mut self,
        set: &'static str,
        draw: fn(&mut Random) -> (W,),
        plain: impl Fn(&Text, u64) -> A + Copy,
        theirs: impl Fn(&Text, u64) -> A + Copy,
        under: impl Fn(u32, &Text, u64) -> A + Copy,
    ) {
        let Some(texts) = self.texts(set, draw) else { return };
        let texts: Vec<&Text> = texts.iter().collect();
        let differs = |text: &Text| (0..ATTRIBUTES.len() as u32).any(|number| !under(number, text, 0).same(theirs(text, 0)));
        self.compare(set, texts.iter().filter(|text| differs(text) || !plain(text, 0).same(theirs(text, 0))).count());
        let rows = self.under_each(set, &texts, plain, theirs, under);
        self.rounded_numerals.extend(rows);
    }

    /// Both sides write to one place.
    fn measure_write<W: Word + Into<u64>>(
        &mut self,
        set: &'static str,
        draw: fn(&mut Random) -> (W,),
        out: *const c_char,
        ours: impl Fn((W,), u64) -> Wrote + Copy,
        theirs: impl Fn((W,), u64) -> Wrote + Copy,
    ) {
        let Some(numbers) = self.operands(set, draw) else { return };
        let digits = W::WIDTH as usize / 4;
        let request = |(x,): &(W,)| format!("{:0digits$x} {ROOM}", (*x).into());
        if !self.lines_instead(numbers.iter().map(request)) {
            return;
        }
        // The same number: at 32 bits the C library writes a subnormal one as a normal one of 64.
        let said = |length: u32| unsafe {
            out.cast_mut().add(length as usize).write(0);
            strtod(out, std::ptr::null_mut()).to_bits()
        };
        let differs = |x: (W,)| {
            let ours = said(ours(x, 0).0);
            ours != said(theirs(x, 0).0)
        };
        self.compare(set, numbers.iter().filter(|x| differs(**x)).count());
        let rows = self.both(set, &numbers, ours, theirs);
        self.numerals.extend(rows);
    }
}
