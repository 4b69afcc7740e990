//! A program of another crate that calls Paskerotim on input that is refused. It writes what it gets, one line for each call.

use paskerotim::{list64, list64_by_number, read_hex64, read_hex_rounded, reduce32, reduce64, write_hex};
use paskerotim::{Attribute, ListOperation, Refusal};

const UNTOUCHED: u64 = 0x0123456789abcdef;

/// What a list call gives, and whether the output is as it was.
fn list(op: u32, read: usize, written: usize) {
    let xs = vec![0x4010000000000000; read];
    let mut ys = vec![UNTOUCHED; written];
    let answer = list64_by_number(op, &xs, &mut ys);
    let untouched = ys.iter().all(|place| *place == UNTOUCHED);
    let output = if untouched { "untouched" } else { "written" };
    println!("operation {op}, {read} and {written} places: {}, {output}", text(answer));
}

fn text<T: std::fmt::Debug>(answer: Result<T, Refusal>) -> String {
    match answer {
        Ok(value) => format!("{value:?}"),
        Err(refusal) => refusal.to_string(),
    }
}

/// A refusal is an error like any other.
fn through_question_mark() -> Result<(), Box<dyn std::error::Error>> {
    let mut ys = [UNTOUCHED; 1];
    list64(ListOperation::Sqrt, &[], &mut ys)?;
    Ok(())
}

fn main() {
    list(1, 1, 1);
    list(1, 2, 1);
    list(3, 0, 1);
    list(2, 8193, 8193);
    list(2, 8193, 0);
    list(0, 1, 1);
    list(4, 8193, 1);
    list(u32::MAX, 0, 0);
    println!("reduction: {}", text(reduce64(1, 4097, 3)));
    println!("reduction: {}", text(reduce64(6, 4097, 3)));
    println!("reduction: {}", text(reduce32(0, 0, 0)));
    println!("reduction: {}", text(reduce32(5, 0, 3)));
    println!("read: {}", text(read_hex64(&[b'0'; 65])));
    println!("read: {}", text(read_hex_rounded(Attribute::Up, b"1.5")));
    println!("read: {}", text(read_hex_rounded(Attribute::Up, b"0x1.8p0")));
    println!("written: {}", text(write_hex(1.5, &mut [b'#'; 6])));
    println!("written: {}", text(write_hex(1.5, &mut [b'#'; 8])));
    println!("with ?: {}", through_question_mark().unwrap_err());
}
