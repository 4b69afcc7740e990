//! The readers and the writers of numerals: how ours are called at each width, and the rows that a run takes from them.

use crate::attributes::Attribute;
use crate::forms::of_stem;
use crate::operations::{self, Form, Operation, Task};
use crate::request::Answer;
use crate::table::STALE;
use oracle::api;
use std::sync::OnceLock;

/// How ours are called at one width. An answer is a refusal and a value, of a writer the length.
#[derive(Clone, Copy)]
pub struct Calls {
    pub read: fn(&[u8]) -> Answer,
    pub rounded: fn(u32, &[u8]) -> Answer,
    pub write: fn(u64, &mut [u8]) -> Answer,
    /// libm's reader, under an attribute by its number: the value, where it takes the text.
    pub libms: fn(u32, &[u8]) -> Option<u64>,
}

/// The attributes that libm's reader has are the first ones by number.
const LIBMS: u32 = 4;

struct Width {
    reader: &'static str,
    writer: &'static str,
    calls: Calls,
}

extern "C" {
    fn pk_read_hex64(text: *const u8, length: usize, value: *mut u64) -> u32;
    fn pk_read_hex32(text: *const u8, length: usize, value: *mut u32) -> u32;
    fn pk_read_hex64_rounded(attribute: u32, text: *const u8, length: usize, value: *mut u64) -> u32;
    fn pk_read_hex32_rounded(attribute: u32, text: *const u8, length: usize, value: *mut u32) -> u32;
    fn pk_write_hex64(x: u64, out: *mut u8, room: usize, length: *mut u32) -> u32;
    fn pk_write_hex32(x: u32, out: *mut u8, room: usize, length: *mut u32) -> u32;
}

/// The place holds what is no answer before the call.
fn written<W: From<u32> + Into<u64>>(call: impl FnOnce(&mut W) -> u32) -> Answer {
    let mut value = W::from(STALE);
    let refusal = call(&mut value);
    Answer::refusal(refusal, value.into())
}

// Each reads the bytes that are lent to it, or writes them and the place for an answer, and touches nothing else.
static WIDTHS: [Width; 2] = [
    Width {
        reader: "read64",
        writer: "write64",
        calls: Calls {
            read: |text| written(|value| unsafe { pk_read_hex64(text.as_ptr(), text.len(), value) }),
            rounded: |number, text| written(|value| unsafe { pk_read_hex64_rounded(number, text.as_ptr(), text.len(), value) }),
            write: |x, out| written::<u32>(|length| unsafe { pk_write_hex64(x, out.as_mut_ptr(), out.len(), length) }),
            libms: api::read64,
        },
    },
    Width {
        reader: "read32",
        writer: "write32",
        calls: Calls {
            read: |text| written(|value| unsafe { pk_read_hex32(text.as_ptr(), text.len(), value) }),
            rounded: |number, text| written(|value| unsafe { pk_read_hex32_rounded(number, text.as_ptr(), text.len(), value) }),
            write: |x, out| written::<u32>(|length| unsafe { pk_write_hex32(x as u32, out.as_mut_ptr(), out.len(), length) }),
            libms: |number, text| api::read32(number, text).map(u64::from),
        },
    },
];

/// One name of docs/LINES.md: a reader, with an attribute or without, or a writer.
#[derive(Clone, Copy)]
pub struct Numeral {
    pub operation: &'static Operation,
    pub calls: Calls,
}

impl Numeral {
    pub fn is_writer(&self) -> bool {
        self.operation.task == Task::Write
    }
    /// By the call that the name asks for; the number is that of an attribute.
    pub fn read(&self, number: u32, text: &[u8]) -> Answer {
        match self.operation.form {
            Form::Plain => (self.calls.read)(text),
            _ => (self.calls.rounded)(number, text),
        }
    }
    /// What libm reads, where it has the attribute.
    pub fn libms(&self, number: u32, text: &[u8]) -> Option<Option<u64>> {
        let number = if self.operation.form == Form::Plain { 0 } else { number };
        (number < LIBMS).then(|| (self.calls.libms)(number, text))
    }
    /// The call without an attribute, where it must answer alike.
    pub fn beside(&self) -> Option<fn(&[u8]) -> Answer> {
        (self.operation.form == Form::Attribute(Attribute::Even)).then_some(self.calls.read)
    }
}

/// The readers and writers without an attribute, then the readers with one.
pub fn numerals() -> &'static [Numeral] {
    static NUMERALS: OnceLock<Vec<Numeral>> = OnceLock::new();
    NUMERALS.get_or_init(|| {
        let plain = |width: &'static Width| {
            let names = [width.reader, width.writer].into_iter();
            let named = |name| operations::find(name).expect("docs/LINES.md has each of these names");
            names.map(move |name| Numeral { operation: named(name), calls: width.calls })
        };
        let under = |width: &'static Width| of_stem(width.reader).map(|operation| Numeral { operation, calls: width.calls });
        WIDTHS.iter().flat_map(plain).chain(WIDTHS.iter().flat_map(under)).collect()
    })
}

pub fn find(name: &str) -> Option<&'static Numeral> {
    numerals().iter().find(|numeral| numeral.operation.name == name)
}
