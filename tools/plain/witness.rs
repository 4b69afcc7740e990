// The judge held against the C library, and against other ways of its own.

use crate::answers::{by_search, judge};
use crate::attributes::Attribute;
use crate::big::Big;
use crate::cases::Requests;
use crate::cases_by_kind::Drawing;
use crate::format::{Format, WIDTH_64};
use crate::forms::forms;
use crate::library::{self, Given};
use crate::lines::{write_fields, write_request};
use crate::operations::{Field, Flags, Form, Operation, Task, OPERATIONS};
use crate::random::Random;
use crate::witness_numerals;
use std::io::{self, Write};
use std::time::Instant;

fn by_library(operation: &Operation, operands: &[Field]) -> Option<Given> {
    let (mut words, mut power) = (Vec::with_capacity(3), 0);
    for field in operands {
        match field {
            Field::Word(word) => words.push(*word),
            Field::Signed(n) => power = *n,
            _ => return None,
        }
    }
    library::given(operation.format, operation.task, &words, power)
}

/// The flags that the C library must raise as well as the judge.
fn settled_flags(format: Format, operands: &[Field], value: u64, before: bool) -> Flags {
    let magnitudes: Vec<u64> = operands
        .iter()
        .filter_map(|field| match field {
            Field::Word(word) => Some(format.magnitude(*word)),
            _ => None,
        })
        .collect();
    let open = |x: u64, y: u64| x == 0 && y == format.infinity();
    match magnitudes[..] {
        // 7.2 leaves it open whether this is invalid.
        [x, y, z] if (open(x, y) || open(y, x)) && format.is_nan(z) => Flags::NONE,
        // Tininess judged before and after rounding differ at this value alone.
        _ if before && format.magnitude(value) == format.smallest_normal() => {
            Flags(!Flags::UNDERFLOW.0)
        }
        _ => Flags(u8::MAX),
    }
}

/// C promises the sign of the quotient and its magnitude modulo 8.
fn same_quotient(judged: i32, other: i32) -> bool {
    let same_low = judged.unsigned_abs() % 8 == other.unsigned_abs() % 8;
    same_low && (judged == 0 || other == 0 || (judged < 0) == (other < 0))
}

/// A quotient or an exponent, as far as C settles it: where a number has one.
fn same_number(operation: &Operation, operands: &[Field], judged: &[Field], other: i32) -> bool {
    let format = operation.format;
    let (Some(Field::Word(x)), Some(Field::Signed(own))) = (operands.first(), judged.last()) else {
        return false;
    };
    match operation.task {
        Task::Remquo => {
            let no_quotient = matches!(judged, [Field::Word(value), ..] if format.is_nan(*value));
            no_quotient || same_quotient(*own, other)
        }
        Task::Frexp => !format.is_finite(*x) || *own == other,
        _ => format.is_nan(*x) || format.is_zero(*x) || *own == other,
    }
}

/// The reduction by doubling, one step for each binary digit of the shift.
fn reduce_by_doubling(width: u32, x: u64, shift: u32, y: u64) -> (u32, u64) {
    let (x, y) = (x as u128, y as u128);
    if y >> (width - 2) != 0 || x >= y + y {
        return (4, 0);
    }
    if shift > 4096 {
        return (5, 0);
    }
    let mut rest = if x >= y { x - y } else { x };
    for _ in 0..shift {
        rest += rest;
        if rest >= y {
            rest -= y;
        }
    }
    (0, rest as u64)
}

/// The list call again, each place by the C library.
fn list_by_library(number: u32, input: &[u64], output: &[u64]) -> (u32, Vec<u64>) {
    let refusal = match (number, input.len(), output.len()) {
        (0, _, _) | (4.., _, _) => 1,
        (_, 8193.., _) | (_, _, 8193..) => 2,
        (_, first, second) if first != second => 3,
        _ => 0,
    };
    if refusal != 0 {
        return (refusal, output.to_vec());
    }
    let task = [Task::Sqrt, Task::Floor, Task::Trunc][number as usize - 1];
    let place = |x: &u64| library::given(WIDTH_64, task, &[*x], 0).map_or(0, |one| one.value);
    (0, input.iter().map(place).collect())
}

/// Value and flags against the search. Bit for bit: both ways have the same
/// rule for NaNs.
fn search_differs(operation: &Operation, operands: &[Field], judged: &[Field]) -> Option<String> {
    let (value, flags) = by_search(operation, operands);
    let other = [Field::Word(value), Field::Flags(flags)];
    let same = match judged {
        [Field::Unsigned(0), rest @ ..] => rest == other,
        _ => judged == other,
    };
    (!same).then(|| write_fields(operation, &other))
}

/// Each field against the C library, of which all is told that it gave.
fn library_differs(
    operation: &Operation,
    operands: &[Field],
    judged: &[Field],
    before: bool,
) -> Option<String> {
    let format = operation.format;
    let Some(given) = by_library(operation, operands) else {
        return Some("no second answer".to_string());
    };
    let mut values = [given.value, given.whole].into_iter();
    let same = judged.iter().all(|field| match field {
        // C does not settle the bits of a NaN.
        Field::Word(own) => values.next().is_some_and(|other| format.same_value(*own, other)),
        Field::Signed(_) => same_number(operation, operands, judged, given.number),
        Field::Flags(own) => {
            let settled = settled_flags(format, operands, given.value, before);
            (own.0 ^ given.flags.0) & settled.0 == 0
        }
        _ => false,
    });
    let Given { value, whole, number, flags } = given;
    let told = [Field::Word(value), Field::Word(whole), Field::Signed(number), Field::Flags(flags)];
    (!same).then(|| write_fields(operation, &told))
}

/// Nothing when both agree, else what the other side says.
fn disagreement(
    operation: &Operation,
    operands: &[Field],
    judged: &[Field],
    before: bool,
) -> Option<String> {
    let format = operation.format;
    if operation.form != Form::Plain {
        return search_differs(operation, operands, judged);
    }
    // No C library has these: the judge has held its two ways to each other.
    if format.width == 16 {
        return None;
    }
    match (operands, judged) {
        ([Field::Word(x), Field::Unsigned(shift), Field::Word(y)], _) => {
            let (refusal, value) = reduce_by_doubling(format.width, *x, *shift, *y);
            let other = [Field::Unsigned(refusal), Field::Word(value)];
            (judged != other).then(|| write_fields(operation, &other))
        }
        ([Field::Unsigned(number), Field::Words(input), Field::Words(before)], _) => {
            let (refusal, other) = list_by_library(*number, input, before);
            let same = match judged {
                [Field::Unsigned(first), Field::Words(words)] => {
                    let pairs = || words.iter().zip(&other);
                    *first == refusal
                        && words.len() == other.len()
                        && pairs().all(|(one, two)| format.same_value(*one, *two))
                }
                _ => false,
            };
            let told = [Field::Unsigned(refusal), Field::Words(other)];
            (!same).then(|| write_fields(operation, &told))
        }
        _ => library_differs(operation, operands, judged, before),
    }
}

/// Both ways of dividing: quotient times divisor plus rest is the number again.
fn division_holds(random: &mut Random) -> bool {
    let mut number = Big::zero();
    for _ in 0..random.below(6) {
        number = number.shl(random.below(70) as u32).add(&Big::from(random.up_to_bits(64)));
    }
    let word = random.up_to_bits(64);
    let by = Big::from(word);
    let long = by.shl(random.below(100) as u32).add(&Big::from(random.below(2)));
    let answers = [
        (number.div_rem_by_word(word), &by),
        (number.div_rem_by_bits(&by), &by),
        (number.div_rem_by_bits(&long), &long),
        (number.div_rem(&long), &long),
    ];
    answers.iter().all(|((quotient, rest), divisor)| {
        rest < *divisor && quotient.mul(divisor).add(rest) == number
    })
}

/// Holds requests against their second answers; tells how many disagree.
fn run_requests(
    operation: &'static Operation,
    what: &str,
    (count, before): (usize, bool),
    mut next: impl FnMut() -> Vec<Field>,
    out: &mut dyn Write,
) -> io::Result<usize> {
    let start = Instant::now();
    let mut disagreements = 0;
    for _ in 0..count {
        let operands = next();
        let judged = judge(operation, &operands);
        if let Some(other) = disagreement(operation, &operands, &judged, before) {
            disagreements += 1;
            let request = write_request(operation, &operands);
            let own = write_fields(operation, &judged);
            writeln!(out, "disagreement: {request}: judged {own}, other side {other}")?;
        }
    }
    let seconds = start.elapsed().as_secs();
    let name = operation.name;
    writeln!(out, "{name}{what} {count} requests, {disagreements} disagreements, {seconds} s")?;
    out.flush()?;
    Ok(disagreements)
}

/// The number of disagreements over all operations and the division.
pub fn run(seed: u64, count: usize, out: &mut dyn Write) -> io::Result<usize> {
    let before = library::judges_before_rounding();
    let tininess = if before { "before" } else { "after" };
    writeln!(
        out,
        "seed {seed}, {count} requests for each operation; the processor judges tininess \
         {tininess} rounding"
    )?;
    let mut random = Random::new(seed, 0);
    let failed = (0..count).filter(|_| !division_holds(&mut random)).count();
    writeln!(out, "division {count} numbers, {failed} disagreements")?;
    let mut disagreements = failed;
    let even = Form::Attribute(Attribute::Even);
    let under_even = forms().iter().filter(|form| form.form == even);
    let all = OPERATIONS.iter().chain(under_even).filter(|one| !one.is_of_numerals());
    for operation in all {
        if operation.form == Form::Plain {
            let mut requests = Requests::new(operation, seed);
            let next = || requests.next();
            disagreements += run_requests(operation, "", (count, before), next, out)?;
        }
        if operation.tells_flags() {
            let mut drawing = Drawing::new(operation, seed);
            let next = || drawing.next().1;
            disagreements += run_requests(operation, " by kinds", (count, before), next, out)?;
        }
    }
    disagreements += witness_numerals::run(seed, count, out)?;
    writeln!(out, "total {disagreements} disagreements")?;
    Ok(disagreements)
}
