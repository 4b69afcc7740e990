//! A request and an answer as plain numbers, cheap enough for billions of them, and the same as fields of a line. Those of
//! the list call are its own.

use crate::operations::{Field, Form, Kind, Operation};

/// Words, each in the order of the line, at most one decimal number, and the number of the attribute where there is one.
#[derive(Clone, Copy, Debug, Default, PartialEq, Eq)]
pub struct Request {
    pub words: [u64; 3],
    pub number: i64,
    pub attribute: u32,
}

/// The flags of an answer in one word: libm's bits.
pub mod flags {
    pub const INVALID: u32 = 1;
    pub const DIVBYZERO: u32 = 4;
    pub const OVERFLOW: u32 = 8;
    pub const UNDERFLOW: u32 = 16;
    pub const INEXACT: u32 = 32;
    /// Each with its name, in the order of docs/LINES.md.
    pub const IN_ORDER: [(u32, &str); 5] = [
        (INVALID, "INVALID"),
        (DIVBYZERO, "DIVBYZERO"),
        (OVERFLOW, "OVERFLOW"),
        (UNDERFLOW, "UNDERFLOW"),
        (INEXACT, "INEXACT"),
    ];

    /// As a line has them; a word with other bits as a number, which no line has.
    pub fn text(word: i64) -> String {
        let named = |(bit, _): &&(u32, &str)| word & i64::from(*bit) != 0;
        let raised: Vec<&(u32, &str)> = IN_ORDER.iter().filter(named).collect();
        let whole: i64 = raised.iter().map(|(bit, _)| i64::from(*bit)).sum();
        match word {
            0 => "OK".to_string(),
            _ if whole != word => format!("flags {word:#x}"),
            _ => raised.iter().map(|(_, name)| *name).collect::<Vec<_>>().join("+"),
        }
    }
}

/// What stands beside an operation's value.
#[derive(Clone, Copy, Debug, PartialEq, Eq)]
pub enum Beside {
    Nothing,
    Flags,
    Quotient,
    Exponent,
    /// A pattern too: the whole number beside modf's fraction.
    Whole,
    Refusal,
    /// Under an attribute: a refusal, and flags.
    RefusalAndFlags,
}

impl Beside {
    /// Flags are no part of the value; all else is.
    pub fn has_flags(self) -> bool {
        matches!(self, Beside::Flags | Beside::RefusalAndFlags)
    }
}

/// The word, and the number beside it: flags in a word, a quotient, an exponent, a pattern, a refusal. Under an attribute flags
/// are the number, and the refusal stands by itself. Where the value is an exponent, the word is that number in 64 bits.
#[derive(Clone, Copy, Debug, Default, PartialEq, Eq)]
pub struct Answer {
    pub word: u64,
    pub number: i64,
    pub refused: u32,
}

impl Request {
    pub fn word(x: u64) -> Request {
        Request { words: [x, 0, 0], ..Request::default() }
    }
    pub fn word_and_number(x: u64, number: i32) -> Request {
        Request { words: [x, 0, 0], number: number.into(), ..Request::default() }
    }
    pub fn two_words(x: u64, y: u64) -> Request {
        Request { words: [x, y, 0], ..Request::default() }
    }
    pub fn three_words([x, y, z]: [u64; 3]) -> Request {
        Request { words: [x, y, z], ..Request::default() }
    }
    pub fn reduction(x: u64, shift: u32, y: u64) -> Request {
        Request { words: [x, y, 0], number: shift.into(), ..Request::default() }
    }
    pub fn x(&self) -> u64 {
        self.words[0]
    }
    pub fn x32(&self) -> u32 {
        self.words[0] as u32
    }
    pub fn y(&self) -> u64 {
        self.words[1]
    }
    pub fn y32(&self) -> u32 {
        self.words[1] as u32
    }
    pub fn z(&self) -> u64 {
        self.words[2]
    }
    pub fn z32(&self) -> u32 {
        self.words[2] as u32
    }
    pub fn n(&self) -> i32 {
        self.number as i32
    }
    pub fn shift(&self) -> u32 {
        self.number as u32
    }

    pub fn of_fields(fields: &[Field]) -> Request {
        let mut request = Request::default();
        let mut words = 0;
        for field in fields {
            match field {
                Field::Word(word) => {
                    request.words[words] = *word;
                    words += 1;
                }
                Field::Signed(number) => request.number = (*number).into(),
                // Before any word stands the number of an attribute.
                Field::Unsigned(number) if words == 0 => request.attribute = *number,
                Field::Unsigned(number) => request.number = (*number).into(),
                _ => unreachable!("only the list call takes more"),
            }
        }
        request
    }

    pub fn fields(&self, operation: &Operation) -> Vec<Field> {
        let mut words = self.words.iter();
        let field = |kind: &Kind| match kind {
            Kind::Word => words.next().map(|word| Field::Word(*word)),
            Kind::Signed => Some(Field::Signed(self.number as i32)),
            Kind::Unsigned => Some(Field::Unsigned(self.number as u32)),
            _ => None,
        };
        let numbered = operation.form == Form::Numbered;
        let attribute = numbered.then_some(Field::Unsigned(self.attribute)).into_iter();
        attribute.chain(operation.operand_kinds().iter().filter_map(field)).collect()
    }
}

impl Answer {
    pub fn value(word: u64) -> Answer {
        Answer { word, ..Answer::default() }
    }
    pub fn flags(word: u64, flags: u32) -> Answer {
        Answer { word, number: flags.into(), ..Answer::default() }
    }
    pub fn both((word, status): (u64, u32)) -> Answer {
        Answer::flags(word, status)
    }
    pub fn both32((word, status): (u32, u32)) -> Answer {
        Answer::flags(word.into(), status)
    }
    /// With a quotient or an exponent.
    pub fn numbered((word, number): (u64, i32)) -> Answer {
        Answer { word, number: number.into(), ..Answer::default() }
    }
    pub fn numbered32((word, number): (u32, i32)) -> Answer {
        Answer::numbered((word.into(), number))
    }
    pub fn exponent(exponent: i32) -> Answer {
        Answer::value(i64::from(exponent) as u64)
    }
    /// A fraction and a whole number.
    pub fn parts([fraction, whole]: [u64; 2]) -> Answer {
        Answer { word: fraction, number: whole as i64, ..Answer::default() }
    }
    pub fn parts32((fraction, whole): (u32, u32)) -> Answer {
        Answer::parts([fraction.into(), whole.into()])
    }
    pub fn refusal(number: u32, word: u64) -> Answer {
        Answer { word, number: number.into(), ..Answer::default() }
    }

    /// As a line of docs/LINES.md has it.
    pub fn text(&self, operation: &Operation, beside: Beside) -> String {
        let pattern = |word: u64| format!("{word:0digits$x}", digits = operation.format.width as usize / 4);
        let word = match operation.answer_kinds() {
            [Kind::Signed] => (self.word as i64).to_string(),
            _ => pattern(self.word),
        };
        match beside {
            Beside::Nothing => word,
            Beside::Flags => format!("{word} {}", flags::text(self.number)),
            Beside::Quotient | Beside::Exponent => format!("{word} {}", self.number),
            Beside::Whole => format!("{word} {}", pattern(self.number as u64)),
            Beside::Refusal => format!("{} {word}", self.number),
            Beside::RefusalAndFlags => {
                format!("{} {word} {}", self.refused, flags::text(self.number))
            }
        }
    }
}

#[cfg(test)]
mod tests {
    use super::*;
    use crate::operations::find;

    #[test]
    fn an_answer_is_written_as_a_line_has_it() {
        let text = |name, answer: Answer, beside| answer.text(find(name).unwrap(), beside);
        assert_eq!(text("fmod32", Answer::value(7), Beside::Nothing), "00000007");
        assert_eq!(text("remquo64", Answer::numbered((1, -4)), Beside::Quotient), "0000000000000001 -4");
        assert_eq!(text("frexp32", Answer::numbered((1, -4)), Beside::Exponent), "00000001 -4");
        assert_eq!(text("modf64", Answer::parts([1, 1 << 63]), Beside::Whole), "0000000000000001 8000000000000000");
        assert_eq!(text("ilogb64", Answer::exponent(-1074), Beside::Nothing), "-1074");
        assert_eq!(text("reduce32", Answer::refusal(4, 0), Beside::Refusal), "4 00000000");
        assert_eq!(text("sqrt32", Answer::flags(0, 0), Beside::Flags), "00000000 OK");
        let raised = flags::INEXACT | flags::OVERFLOW;
        assert_eq!(text("sqrt32", Answer::flags(0, raised), Beside::Flags), "00000000 OVERFLOW+INEXACT");
        assert_eq!(text("sqrt32", Answer::flags(0, 3), Beside::Flags), "00000000 flags 0x3");
        let refused = Answer { refused: 10, ..Answer::default() };
        assert_eq!(text("sqrt32", refused, Beside::RefusalAndFlags), "10 00000000 OK");
    }
}
