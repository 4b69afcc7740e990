//! The readers and the writers of numerals of the archive for tests: as the functions of `stand_in`.

use crate::attributes::Attribute;
use crate::format::{Format, WIDTH_32, WIDTH_64};
use crate::numerals;
use crate::request::Answer;
use crate::wrong_reads::{self, Reading};
use crate::wrong_writes::{self, Writing};
use crate::{NO_VALUE, is_asked};

/// Of the writer: the byte past its output is written, and where it is refused the length is left as it was.
pub const PAST_ROOM: &str = "byte-past-the-output-written";
pub const NO_LENGTH: &str = "length-unwritten-where-refused";

/// The plain program's reading of the bytes that are lent, with the fault where it strikes.
fn read(format: Format, number: u32, text: &[u8]) -> Answer {
    let attribute = Attribute::of_number(number);
    let (refusal, value) = attribute.map_or((10, 0), |attribute| numerals::read(format, attribute, text));
    let mut answer = Answer::refusal(refusal, value);
    if let Some(fault) = wrong_reads::WRONG.iter().find(|one| is_asked(one.name)) {
        (fault.spoil)(&Reading { format, number, text }, &mut answer);
    }
    answer
}
/// The same of its writing.
fn put_text(format: Format, x: u64, out: *mut u8, room: usize, length: *mut u32) -> u32 {
    let text = numerals::written(format, x);
    // The caller lends so many bytes, and a place for the length.
    let lent = unsafe { std::slice::from_raw_parts_mut(out, room) };
    let writing = Writing { format, x, room: lent };
    let mut written = writing.of(&text);
    if let Some(fault) = wrong_writes::WRONG.iter().find(|one| is_asked(one.name)) {
        (fault.spoil)(&writing, &text, &mut written);
    }
    lent.copy_from_slice(&written.output);
    if is_asked(PAST_ROOM) && written.refused == 0 {
        unsafe { *out.add(room) ^= 1 };
    }
    if !is_asked(NO_LENGTH) || written.refused == 0 {
        unsafe { *length = written.length };
    }
    written.refused
}

/// The readers and the writer of numerals.
macro_rules! of_numerals {
    ($($read:ident $rounded:ident $write:ident $format:ident $word:ty;)+) => {$(
        #[no_mangle]
        pub extern "C" fn $rounded(attribute: u32, text: *const u8, length: usize, value: *mut $word) -> u32 {
            let answer = read($format, attribute, unsafe { std::slice::from_raw_parts(text, length) });
            if answer.number == 0 || !is_asked(NO_VALUE) {
                unsafe { *value = answer.word as $word };
            }
            answer.number as u32
        }
        #[no_mangle]
        pub extern "C" fn $read(text: *const u8, length: usize, value: *mut $word) -> u32 {
            $rounded(0, text, length, value)
        }
        #[no_mangle]
        pub extern "C" fn $write(x: $word, out: *mut u8, room: usize, length: *mut u32) -> u32 {
            put_text($format, x.into(), out, room, length)
        }
    )+};
}
of_numerals! {
    pk_read_hex64 pk_read_hex64_rounded pk_write_hex64 WIDTH_64 u64;
    pk_read_hex32 pk_read_hex32_rounded pk_write_hex32 WIDTH_32 u32;
}
