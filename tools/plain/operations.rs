// The operations by name, with the kinds of their operands and answers.

use crate::attributes::Attribute;
use crate::format::{Format, WIDTH_16, WIDTH_32, WIDTH_64};

#[derive(Clone, Copy, Debug, PartialEq, Eq)]
pub enum Task {
    Sqrt,
    Floor,
    Trunc,
    Ceil,
    Scalbn,
    Fma,
    Fmod,
    Remquo,
    Reduce,
    List,
    Modf,
    Frexp,
    Ilogb,
    Nextafter,
    Read,
    Write,
}

/// What stands at one place of a line.
#[derive(Clone, Copy, Debug, PartialEq, Eq)]
pub enum Kind {
    Word,
    Signed,
    Unsigned,
    Words,
    Flags,
    /// All that is left of the request, of any bytes.
    Text,
    /// Bytes without a blank, or nothing where the call is refused.
    Written,
}

#[derive(Clone, Debug, PartialEq, Eq)]
pub enum Field {
    Word(u64),
    Signed(i32),
    Unsigned(u32),
    Words(Vec<u64>),
    Flags(Flags),
    Text(Vec<u8>),
}

/// The exceptions of IEEE 754, clause 7, one bit for each: those of libm, which
/// the C face has too.
#[derive(Clone, Copy, Debug, PartialEq, Eq)]
pub struct Flags(pub u8);

/// The flags in the order of a line.
pub const FLAGS: [(Flags, &str); 5] = [
    (Flags::INVALID, "INVALID"),
    (Flags::DIVBYZERO, "DIVBYZERO"),
    (Flags::OVERFLOW, "OVERFLOW"),
    (Flags::UNDERFLOW, "UNDERFLOW"),
    (Flags::INEXACT, "INEXACT"),
];

impl Flags {
    pub const NONE: Flags = Flags(0);
    pub const INVALID: Flags = Flags(1);
    pub const DIVBYZERO: Flags = Flags(4);
    pub const OVERFLOW: Flags = Flags(8);
    pub const UNDERFLOW: Flags = Flags(16);
    pub const INEXACT: Flags = Flags(32);

    pub fn and(self, other: Flags) -> Flags {
        Flags(self.0 | other.0)
    }

    pub fn has(self, other: Flags) -> bool {
        self.0 & other.0 != 0
    }
}

/// Which of its lines an operation stands on.
#[derive(Clone, Copy, Debug, PartialEq, Eq)]
pub enum Form {
    Plain,
    Attribute(Attribute),
    /// The number of the attribute is the first operand, written in the name.
    Numbered,
}

pub struct Operation {
    pub name: &'static str,
    pub task: Task,
    pub format: Format,
    pub form: Form,
    pub shape: &'static str,
}

pub const READ_SHAPE: &str = "TEXT -> NUMBER R";
const WRITE_SHAPE: &str = "X ROOM -> NUMBER LENGTH TEXT, or 8 0 where it is refused";

const fn operation(
    name: &'static str,
    task: Task,
    format: Format,
    shape: &'static str,
) -> Operation {
    Operation { name, task, format, form: Form::Plain, shape }
}

/// The record of cases leaves width 16 out, which has no function, and numerals,
/// which have a record of their own. An operation's draws go by where it stands:
/// behind the others a new one leaves what is recorded of them as it is.
pub static OPERATIONS: [Operation; 38] = [
    operation("sqrt64", Task::Sqrt, WIDTH_64, "X -> R FLAGS"),
    operation("sqrt32", Task::Sqrt, WIDTH_32, "X -> R FLAGS"),
    operation("floor64", Task::Floor, WIDTH_64, "X -> R FLAGS"),
    operation("floor32", Task::Floor, WIDTH_32, "X -> R FLAGS"),
    operation("trunc64", Task::Trunc, WIDTH_64, "X -> R FLAGS"),
    operation("trunc32", Task::Trunc, WIDTH_32, "X -> R FLAGS"),
    operation("scalbn64", Task::Scalbn, WIDTH_64, "X N -> R FLAGS"),
    operation("scalbn32", Task::Scalbn, WIDTH_32, "X N -> R FLAGS"),
    operation("fma64", Task::Fma, WIDTH_64, "X Y Z -> R FLAGS"),
    operation("fma32", Task::Fma, WIDTH_32, "X Y Z -> R FLAGS"),
    operation("fmod64", Task::Fmod, WIDTH_64, "X Y -> R"),
    operation("fmod32", Task::Fmod, WIDTH_32, "X Y -> R"),
    operation("remquo64", Task::Remquo, WIDTH_64, "X Y -> R QUOTIENT"),
    operation("reduce64", Task::Reduce, WIDTH_64, "X SHIFT Y -> REFUSAL R"),
    operation("reduce32", Task::Reduce, WIDTH_32, "X SHIFT Y -> REFUSAL R"),
    operation("list64", Task::List, WIDTH_64, "OP INPUT OUTPUT -> REFUSAL OUTPUT"),
    operation("ceil64", Task::Ceil, WIDTH_64, "X -> R FLAGS"),
    operation("ceil32", Task::Ceil, WIDTH_32, "X -> R FLAGS"),
    operation("modf64", Task::Modf, WIDTH_64, "X -> FRACTION WHOLE"),
    operation("modf32", Task::Modf, WIDTH_32, "X -> FRACTION WHOLE"),
    operation("frexp64", Task::Frexp, WIDTH_64, "X -> R EXPONENT"),
    operation("frexp32", Task::Frexp, WIDTH_32, "X -> R EXPONENT"),
    operation("ilogb64", Task::Ilogb, WIDTH_64, "X -> EXPONENT"),
    operation("ilogb32", Task::Ilogb, WIDTH_32, "X -> EXPONENT"),
    operation("nextafter64", Task::Nextafter, WIDTH_64, "X Y -> R"),
    operation("nextafter32", Task::Nextafter, WIDTH_32, "X Y -> R"),
    operation("sqrt16", Task::Sqrt, WIDTH_16, "X -> R FLAGS"),
    operation("floor16", Task::Floor, WIDTH_16, "X -> R FLAGS"),
    operation("trunc16", Task::Trunc, WIDTH_16, "X -> R FLAGS"),
    operation("scalbn16", Task::Scalbn, WIDTH_16, "X N -> R FLAGS"),
    operation("fma16", Task::Fma, WIDTH_16, "X Y Z -> R FLAGS"),
    operation("ceil16", Task::Ceil, WIDTH_16, "X -> R FLAGS"),
    operation("read64", Task::Read, WIDTH_64, READ_SHAPE),
    operation("read32", Task::Read, WIDTH_32, READ_SHAPE),
    operation("read16", Task::Read, WIDTH_16, READ_SHAPE),
    operation("write64", Task::Write, WIDTH_64, WRITE_SHAPE),
    operation("write32", Task::Write, WIDTH_32, WRITE_SHAPE),
    operation("write16", Task::Write, WIDTH_16, WRITE_SHAPE),
];

pub fn find(name: &str) -> Option<&'static Operation> {
    OPERATIONS.iter().find(|operation| operation.name == name)
}

impl Operation {
    /// The kinds of the operands after the name.
    pub fn operand_kinds(&self) -> &'static [Kind] {
        match self.task {
            Task::Sqrt | Task::Floor | Task::Trunc | Task::Ceil => &[Kind::Word],
            Task::Modf | Task::Frexp | Task::Ilogb => &[Kind::Word],
            Task::Scalbn => &[Kind::Word, Kind::Signed],
            Task::Fma => &[Kind::Word, Kind::Word, Kind::Word],
            Task::Fmod | Task::Remquo | Task::Nextafter => &[Kind::Word, Kind::Word],
            Task::Reduce => &[Kind::Word, Kind::Unsigned, Kind::Word],
            Task::List => &[Kind::Unsigned, Kind::Words, Kind::Words],
            Task::Read => &[Kind::Text],
            Task::Write => &[Kind::Word, Kind::Unsigned],
        }
    }

    pub fn answer_kinds(&self) -> &'static [Kind] {
        match (self.form, self.task) {
            (_, Task::Read) => &[Kind::Unsigned, Kind::Word],
            (_, Task::Write) => &[Kind::Unsigned, Kind::Unsigned, Kind::Written],
            (Form::Attribute(_) | Form::Numbered, _) => &[Kind::Unsigned, Kind::Word, Kind::Flags],
            (_, Task::Sqrt | Task::Scalbn | Task::Fma) => &[Kind::Word, Kind::Flags],
            (_, Task::Floor | Task::Trunc | Task::Ceil) => &[Kind::Word, Kind::Flags],
            (_, Task::Fmod | Task::Nextafter) => &[Kind::Word],
            (_, Task::Remquo | Task::Frexp) => &[Kind::Word, Kind::Signed],
            (_, Task::Modf) => &[Kind::Word, Kind::Word],
            (_, Task::Ilogb) => &[Kind::Signed],
            (_, Task::Reduce) => &[Kind::Unsigned, Kind::Word],
            (_, Task::List) => &[Kind::Unsigned, Kind::Words],
        }
    }

    pub fn is_of_numerals(&self) -> bool {
        matches!(self.task, Task::Read | Task::Write)
    }

    pub fn tells_flags(&self) -> bool {
        self.answer_kinds().contains(&Kind::Flags)
    }
}
