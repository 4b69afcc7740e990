//! What is taken of the plain program's answers and draws: the one place that knows the shapes of its functions.

use crate::answers;
use crate::answers_flags as flagged;
use crate::answers_parts as parts;
use crate::attributes::Attribute;
use crate::draws_rounded::FMA_KINDS;
use crate::format::Format;
use crate::numerals;
use crate::operations::{Field, Form, Operation, Task};
use crate::raised::word_of;
use crate::random::Random;
use crate::request::{Answer, Request};

/// The exact answer: under the attribute or to nearest even, with its flags where the operation has any.
pub fn exact(operation: &Operation, request: &Request) -> Answer {
    let named = match operation.form {
        Form::Plain => under(Attribute::Even, operation, request),
        Form::Attribute(attribute) => under(attribute, operation, request),
        Form::Numbered => None,
    };
    named.or_else(|| parted(operation, request)).unwrap_or_else(|| judged(operation, request))
}

/// Of an operation that takes a number apart, or steps to the next.
fn parted(operation: &Operation, request: &Request) -> Option<Answer> {
    let (format, x) = (operation.format, request.x());
    match operation.task {
        Task::Modf => Some(Answer::parts(parts::modf(format, x))),
        Task::Frexp => Some(Answer::numbered(parts::frexp(format, x))),
        Task::Ilogb => Some(Answer::exponent(parts::ilogb(format, x))),
        Task::Nextafter => Some(Answer::value(parts::nextafter(format, x, request.y()))),
        _ => None,
    }
}

/// By the plain program's own entry, which says too what it makes of the number of an attribute.
fn judged(operation: &Operation, request: &Request) -> Answer {
    let mut answer = Answer::default();
    for field in answers::judge(operation, &request.fields(operation)) {
        match field {
            Field::Word(word) => answer.word = word,
            Field::Signed(number) => answer.number = number.into(),
            Field::Unsigned(number) if operation.form == Form::Numbered => answer.refused = number,
            Field::Unsigned(number) => answer.number = number.into(),
            Field::Flags(raised) => answer.number = word_of(raised).into(),
            Field::Words(_) | Field::Text(_) => unreachable!("only the list call and the writer answer by more"),
        }
    }
    answer
}

/// The greatest magnitude that is not above the exact value's, for an operation that has flags.
pub fn below(operation: &Operation, request: &Request) -> u64 {
    let cut = under(Attribute::Zero, operation, request).unwrap_or_default().word;
    operation.format.magnitude(cut)
}

fn under(attribute: Attribute, operation: &Operation, request: &Request) -> Option<Answer> {
    let (format, x) = (operation.format, request.x());
    let (word, raised) = match operation.task {
        Task::Sqrt => flagged::sqrt(format, attribute, x),
        Task::Scalbn => flagged::scalbn(format, attribute, x, request.n()),
        Task::Fma => flagged::fma(format, attribute, request.words),
        Task::Floor => flagged::to_integer(format, x, format.is_negative(x)),
        Task::Ceil => flagged::to_integer(format, x, !format.is_negative(x)),
        Task::Trunc => flagged::to_integer(format, x, false),
        _ => return None,
    };
    Some(Answer::flags(word, word_of(raised)))
}

/// What a text is read as under an attribute: the number of the refusal, 0 for none, and the pattern.
pub fn read(format: Format, attribute: Attribute, text: &[u8]) -> (u32, u64) {
    numerals::read(format, attribute, text)
}
/// The text of a pattern.
pub fn text_of(format: Format, x: u64) -> Vec<u8> {
    numerals::written(format, x).into_bytes()
}

/// Operands of fma of one of the plain program's kinds.
pub fn fma_of_kind(kind: &str, format: Format, random: &mut Random) -> Request {
    let mut kinds = FMA_KINDS.iter();
    let (_, make) = kinds.find(|(name, _)| *name == kind).expect("a kind of the plain program");
    Request::three_words(make(format, random))
}

/// Values alone, for tests of what the draws hold.
#[cfg(test)]
pub fn fma(format: Format, x: u64, y: u64, z: u64) -> u64 {
    flagged::fma(format, Attribute::Even, [x, y, z]).0
}
#[cfg(test)]
pub fn sqrt(format: Format, x: u64) -> u64 {
    flagged::sqrt(format, Attribute::Even, x).0
}

#[cfg(test)]
mod tests {
    use super::*;
    use crate::lines::write_fields;
    use crate::operations::find;
    use crate::request::flags;

    #[test]
    fn the_bits_are_those_of_the_face() {
        let scalbn = find("scalbn64").unwrap();
        let of = |x, n| exact(scalbn, &Request::word_and_number(x, n)).number as u32;
        assert_eq!(of(scalbn.format.one(), 1024), flags::OVERFLOW | flags::INEXACT);
        assert_eq!(of(scalbn.format.one(), -1075), flags::UNDERFLOW | flags::INEXACT);
        assert_eq!(of(scalbn.format.infinity() + 1, 0), flags::INVALID);
        assert_eq!(of(scalbn.format.one(), 1), 0);
    }
    #[test]
    fn a_number_is_an_attribute_or_refused() {
        let numbered = crate::forms::of_stem("scalbn64").last().unwrap();
        let of = |attribute| {
            exact(numbered, &Request { attribute, ..Request::word_and_number(numbered.format.one(), 1024) })
        };
        let largest = Answer::flags(numbered.format.largest_finite(), flags::OVERFLOW | flags::INEXACT);
        assert_eq!((of(1), of(5)), (largest, Answer { refused: 10, ..Answer::default() }));
    }
    #[test]
    fn below_is_next_to_the_exact_value() {
        let fma = find("fma64").unwrap();
        let least = fma.format.smallest_normal();
        // An eighth of the smallest unit off the least normal number.
        let request = Request::three_words([1, 0xbfc0000000000000, least]);
        assert_eq!((exact(fma, &request).word, below(fma, &request)), (least, least - 1));
    }
    #[test]
    fn what_has_no_flags_is_answered_as_the_plain_program_does() {
        for name in ["modf64", "frexp32", "ilogb64", "nextafter32"] {
            let operation = find(name).unwrap();
            for words in [[0, 1, 0], [1, 0, 0], [0x3fc00000, 0x3f800000, 0]] {
                let request = Request { words, ..Request::default() };
                let fields = answers::judge(operation, &request.fields(operation));
                let beside = crate::table::find(name).unwrap().beside;
                assert_eq!(exact(operation, &request).text(operation, beside), write_fields(operation, &fields));
            }
        }
    }
}
