//! The exact root of a 32-bit pattern for a run over all of them: libm's root, or under an attribute ours, is taken for a
//! guess, and squares alone say whether it is the right one. Where it is not, the plain program answers.

use crate::attributes::Attribute;
use crate::format::Format;
use crate::operations::{Form, Operation};
use crate::plain;
use crate::request::flags::INEXACT;
use crate::request::{Answer, Request};

/// The plain program's answer, found quickly where the guess is right.
pub fn exact(operation: &Operation, request: &Request, guess: &Answer) -> Answer {
    let attribute = match operation.form {
        Form::Attribute(attribute) => attribute,
        _ => Attribute::Even,
    };
    let proved = proved(operation.format, attribute, request.x(), guess.word);
    proved.unwrap_or_else(|| plain::exact(operation, request))
}

/// The guess with its flags, if it is the root of x rounded by the attribute. To nearest the middles on both sides of it have
/// squares on both sides of x, and a middle is never a root: its square has more digits than a number has. Else the square
/// of the guess is on the one side of x, or x, and that of its neighbour on the other.
fn proved(format: Format, attribute: Attribute, x: u64, guess: u64) -> Option<Answer> {
    let is_number = |x: u64| (1..format.infinity()).contains(&x);
    if !is_number(x) || !is_number(guess) || format.exponent_field(guess) == 0 {
        return None;
    }
    let (number, exponent) = format.significand(x);
    let (root, place) = format.significand(guess);
    // x = number 2^exponent and guess = root 2^place; both squares in sixteenths of the square of the guess's last place.
    let up = u32::try_from(exponent - 2 * place + 4).ok()?;
    let square = number << up.min(63);
    if up > number.leading_zeros() {
        return None;
    }
    let four = 4 * root;
    // Beneath a power of two the places are half as wide.
    let low = if root.is_power_of_two() { 1 } else { 2 };
    let is_root = match attribute {
        Attribute::Even | Attribute::Away => {
            (four - low) * (four - low) < square && square < (four + 2) * (four + 2)
        }
        Attribute::Zero | Attribute::Down => four * four <= square && square < (four + 4) * (four + 4),
        Attribute::Up => (four - 2 * low) * (four - 2 * low) < square && square <= four * four,
    };
    is_root.then(|| Answer::flags(guess, if four * four == square { 0 } else { INEXACT }))
}

#[cfg(test)]
mod tests {
    use super::*;
    use crate::attributes::ATTRIBUTES;
    use crate::forms::of_stem;
    use crate::format::WIDTH_32;
    use crate::stream::requests;
    use crate::table;

    /// Under each attribute.
    fn roots() -> impl Iterator<Item = (Attribute, &'static Operation)> {
        ATTRIBUTES.iter().zip(of_stem("sqrt32")).map(|((attribute, _), form)| (*attribute, form))
    }

    #[test]
    fn the_plain_program_says_the_same() {
        for (attribute, operation) in roots() {
            let row = table::find(operation.name).unwrap();
            let (mut proofs, count) = (0, 20_000 * row.draws.len());
            for (_, request) in requests(row, 1, count as u64).take(count) {
                let right = plain::exact(operation, &request);
                let wrong = Answer { word: right.word ^ 1, ..right };
                assert_eq!(exact(operation, &request, &right), right, "{request:?}");
                assert_eq!(exact(operation, &request, &wrong), right, "{request:?}");
                proofs += usize::from(proved(WIDTH_32, attribute, request.x(), right.word).is_some());
            }
            assert!(proofs > count / 2, "{proofs}");
        }
    }
    #[test]
    fn a_guess_that_is_not_the_root_is_no_proof() {
        for (attribute, operation) in roots() {
            for (_, request) in requests(table::find(operation.name).unwrap(), 2, 50_000).take(50_000) {
                let right = plain::exact(operation, &request).word;
                for wrong in [right.wrapping_sub(1), right + 1, right ^ 1 << 23, right ^ 1 << 31] {
                    assert_eq!(proved(WIDTH_32, attribute, request.x(), wrong), None, "{request:?} {wrong:x}");
                }
            }
        }
    }
    #[test]
    fn beneath_a_power_of_two_too() {
        // The largest numbers below each power: beneath an even one the root is a place below a power of two.
        for (attribute, operation) in roots() {
            for (field, places) in (2..255u64).flat_map(|field| (1..64).map(move |places| (field, places))) {
                let request = Request::word((field << 23) - places);
                let right = plain::exact(operation, &request);
                assert_eq!(proved(WIDTH_32, attribute, request.x(), right.word), Some(right));
                assert_eq!(proved(WIDTH_32, attribute, request.x(), right.word + 1), None);
                assert_eq!(proved(WIDTH_32, attribute, request.x(), right.word - 1), None);
            }
        }
    }
}
