//! The exact parts of a 32-bit pattern for a run over all of them: what stands beside ours is taken for a guess, and shifts of
//! the digits alone say whether it is the right answer. Where it is not, the plain program answers.

use crate::format::Format;
use crate::operations::{Operation, Task};
use crate::plain;
use crate::request::{Answer, Request};

/// The plain program's answer, found quickly where the guess is right.
pub fn exact(operation: &Operation, request: &Request, guess: &Answer) -> Answer {
    match is_proved(operation, request.x(), guess) {
        true => *guess,
        false => plain::exact(operation, request),
    }
}

/// Of numbers but zero alone.
fn is_proved(operation: &Operation, x: u64, guess: &Answer) -> bool {
    let f = operation.format;
    let is_number = f.is_finite(x) && !f.is_zero(x);
    is_number
        && match operation.task {
            Task::Modf => are_parts(f, x, guess.word, guess.number as u64),
            Task::Frexp => is_fraction(f, x, guess.word, guess.number),
            Task::Ilogb => is_exponent(f, x, guess.word as i64),
            _ => false,
        }
}

/// Whether 2^exponent is at most the magnitude of x, and twice that above it.
fn is_exponent(f: Format, x: u64, exponent: i64) -> bool {
    let (digits, last) = f.significand(x);
    let above = exponent.wrapping_sub(last);
    (0..64).contains(&above) && digits >> above == 1
}

/// Whether the fraction is a half or more, and below one, and times 2^exponent it is x.
fn is_fraction(f: Format, x: u64, fraction: u64, exponent: i64) -> bool {
    let in_range = f.sign(fraction) == f.sign(x) && f.exponent_field(fraction) == f.bias() - 1;
    let (digits, last) = f.significand(x);
    in_range && multiple(f, fraction, last - exponent) == Some(digits)
}

/// Whether both have the sign of x, one is below one and the other an integer, and x is their sum.
fn are_parts(f: Format, x: u64, fraction: u64, whole: u64) -> bool {
    let (digits, last) = f.significand(x);
    let has_sign = f.sign(fraction) == f.sign(x) && f.sign(whole) == f.sign(x);
    let in_range = f.magnitude(fraction) < f.one() && f.is_finite(whole) && is_integer(f, whole);
    let sum = || Some(multiple(f, fraction, last)? + multiple(f, whole, last)?);
    has_sign && in_range && sum() == Some(digits)
}

fn is_integer(f: Format, x: u64) -> bool {
    let (digits, last) = f.significand(x);
    digits == 0 || last + i64::from(digits.trailing_zeros()) >= 0
}

/// How often 2^exponent goes into the magnitude of a finite x, if it does and that fits in half a word.
fn multiple(f: Format, x: u64, exponent: i64) -> Option<u64> {
    let (digits, last) = f.significand(x);
    match last - exponent {
        _ if digits == 0 => Some(0),
        up @ 0..32 => (digits >> 32 == 0).then(|| digits << up).filter(|many| many >> 32 == 0),
        down @ -63..0 => (-down <= i64::from(digits.trailing_zeros())).then(|| digits >> -down),
        _ => None,
    }
}

#[cfg(test)]
mod tests {
    use super::*;
    use crate::operations::find;
    use crate::stream::requests;
    use crate::table;

    const NAMES: [&str; 3] = ["modf32", "frexp32", "ilogb32"];

    /// Answers beside the right one, in each of its parts.
    fn wrong(right: &Answer) -> Vec<Answer> {
        let words = [right.word ^ 1, right.word ^ 1 << 23, right.word ^ 1 << 31, right.word.wrapping_sub(1)];
        let numbers = [right.number ^ 1, right.number ^ 1 << 31, right.number - 1, i32::MAX.into()];
        let of_words = words.map(|word| Answer { word, ..*right });
        of_words.into_iter().chain(numbers.map(|number| Answer { number, ..*right })).collect()
    }

    #[test]
    fn the_plain_program_says_the_same_and_most_is_proved() {
        for name in NAMES {
            let (operation, row) = (find(name).unwrap(), table::find(name).unwrap());
            let mut proofs = 0;
            for (_, request) in requests(row, 1, 20_000).take(20_000) {
                let right = plain::exact(operation, &request);
                assert_eq!(exact(operation, &request, &right), right, "{name} {request:x?}");
                proofs += u32::from(is_proved(operation, request.x(), &right));
            }
            assert!(proofs > 10_000, "{name} {proofs}");
        }
    }
    #[test]
    fn every_number_is_proved() {
        for name in NAMES {
            let operation = find(name).unwrap();
            for x in (1..0x7f800000u64).step_by(99_991).flat_map(|x| [x, x | 1 << 31]) {
                let right = plain::exact(operation, &Request::word(x));
                assert!(is_proved(operation, x, &right), "{name} {x:x}");
            }
        }
    }
    #[test]
    fn a_guess_that_is_not_right_is_no_proof() {
        for name in NAMES {
            let (operation, row) = (find(name).unwrap(), table::find(name).unwrap());
            for (_, request) in requests(row, 2, 10_000).take(10_000) {
                let right = plain::exact(operation, &request);
                // An exponent alone has no number beside it.
                let text = |answer: &Answer| answer.text(operation, row.beside);
                for other in wrong(&right).into_iter().filter(|one| text(one) != text(&right)) {
                    assert!(!is_proved(operation, request.x(), &other), "{name} {request:x?} {other:x?}");
                }
            }
        }
    }
}
