// The C library's and Python's numerals: strtod and strtof in four directions, printf's `a`, float.fromhex and float.hex.

use crate::attributes::Attribute;
use crate::format::{Format, WIDTH_16, WIDTH_32, WIDTH_64};
use crate::library::FENV;
use std::ffi::{c_char, CStr, CString};
use std::hint::black_box;
use std::io::{self, Read, Write};
use std::process::{Command, Stdio};

extern "C" {
    fn strtod(text: *const c_char, end: *mut *mut c_char) -> f64;
    fn strtof(text: *const c_char, end: *mut *mut c_char) -> f32;
    fn snprintf(out: *mut c_char, room: usize, format: *const c_char, ...) -> i32;
    fn fesetround(direction: i32) -> i32;
}

/// The direction of fenv.h, which has none for ties away.
fn direction(attribute: Attribute) -> Option<i32> {
    let (_, [nearest, down, up, toward_zero]) = FENV;
    match attribute {
        Attribute::Even => Some(nearest),
        Attribute::Down => Some(down),
        Attribute::Up => Some(up),
        Attribute::Zero => Some(toward_zero),
        Attribute::Away => None,
    }
}

/// Whether the C library reads at the width and under the attribute.
pub fn has(format: Format, attribute: Attribute) -> bool {
    format != WIDTH_16 && direction(attribute).is_some()
}

/// What the C library reads the whole of a text as, where it has the width and
/// the attribute and takes all of the text.
pub fn read(format: Format, attribute: Attribute, text: &[u8]) -> Option<u64> {
    let (direction, text) = (direction(attribute)?, CString::new(text).ok()?);
    let mut end = std::ptr::null_mut();
    // SAFETY: the text ends in a NUL, and what is written is lent; the direction
    // is put back.
    let value = unsafe {
        fesetround(direction);
        let value = match format {
            WIDTH_64 => Some(black_box(strtod(text.as_ptr(), &mut end)).to_bits()),
            WIDTH_32 => Some(black_box(strtof(text.as_ptr(), &mut end)).to_bits() as u64),
            _ => None,
        };
        fesetround(FENV.1[0]);
        value
    };
    // SAFETY: strtod leaves it at a byte of the text, or at its NUL.
    let took_all = !end.is_null() && unsafe { *end } == 0;
    value.filter(|_| took_all)
}

/// The text that the C library writes of a pattern as a double, which every
/// pattern of every width has.
pub fn written(format: Format, x: u64) -> String {
    let mut out: [c_char; 64] = [0; 64];
    // SAFETY: the room is that of the output, and the format takes a double.
    unsafe { snprintf(out.as_mut_ptr(), out.len(), c"%a".as_ptr(), as_double(format, x)) };
    unsafe { CStr::from_ptr(out.as_ptr()) }.to_string_lossy().into_owned()
}

/// The number of a pattern, exactly.
fn as_double(format: Format, x: u64) -> f64 {
    if format == WIDTH_64 {
        return f64::from_bits(x);
    }
    let magnitude = if format.is_nan(x) {
        f64::NAN
    } else if format.is_infinite(x) {
        f64::INFINITY
    } else {
        // A product of two doubles that is one itself.
        let (significand, exponent) = format.significand(x);
        significand as f64 * f64::from_bits((exponent + 1023) as u64 * (1 << 52))
    };
    if format.is_negative(x) { -magnitude } else { magnitude }
}

/// A line of input is `r` and a text, or `w` and a pattern in hex digits.
const PYTHON: &str = "
import struct, sys
for line in sys.stdin.read().split('\\n')[:-1]:
    if line[0] == 'w':
        print(struct.unpack('>d', bytes.fromhex(line[1:]))[0].hex())
        continue
    try:
        value = float.fromhex(line[1:])
    except OverflowError:
        value = float('-inf' if line[1] == '-' else 'inf')
    print(struct.pack('>d', value).hex())
";

/// What Python says of each line, or nothing where there is none that runs.
pub fn by_python(lines: &[String]) -> io::Result<Option<Vec<String>>> {
    let run = Command::new("python3")
        .args(["-c", PYTHON])
        .stdin(Stdio::piped())
        .stdout(Stdio::piped())
        .stderr(Stdio::null())
        .spawn();
    let Ok(mut run) = run else {
        return Ok(None);
    };
    let (mut input, text) = (run.stdin.take(), lines.join("\n") + "\n");
    // Python reads all before it writes.
    if let Some(input) = &mut input {
        input.write_all(text.as_bytes())?;
    }
    drop(input);
    let mut told = String::new();
    if let Some(output) = &mut run.stdout {
        output.read_to_string(&mut told)?;
    }
    let told: Vec<String> = told.lines().map(str::to_string).collect();
    Ok((run.wait()?.success() && told.len() == lines.len()).then_some(told))
}
