// The operations under an attribute, with their flags, by IEEE 754-2019 (6.2, 6.3, 7.2).

use crate::attributes::{round, Attribute, Exact};
use crate::big::Big;
use crate::format::Format;
use crate::operations::{Field, Flags, Form, Operation, Task};

/// The number of the refusal of an attribute that there is not.
pub const NO_ATTRIBUTE: u32 = 10;

/// The whole answer of a line under an attribute.
pub fn judge(operation: &Operation, operands: &[Field]) -> Vec<Field> {
    let numbered = |number, (value, flags)| {
        vec![Field::Unsigned(number), Field::Word(value), Field::Flags(flags)]
    };
    match (operation.form, operands) {
        (Form::Attribute(attribute), _) => numbered(0, under(operation, attribute, operands)),
        (Form::Numbered, [Field::Unsigned(number), rest @ ..]) => {
            match Attribute::of_number(*number) {
                Some(attribute) => numbered(0, under(operation, attribute, rest)),
                None => numbered(NO_ATTRIBUTE, (0, Flags::NONE)),
            }
        }
        _ => unreachable!("the reader admits only the operands of the table"),
    }
}

/// Value and flags. floor, trunc and ceil have attributes of their own.
pub fn under(operation: &Operation, attribute: Attribute, operands: &[Field]) -> (u64, Flags) {
    let format = operation.format;
    match (operation.task, operands) {
        (Task::Sqrt, [Field::Word(x)]) => sqrt(format, attribute, *x),
        (Task::Floor, [Field::Word(x)]) => to_integer(format, *x, format.is_negative(*x)),
        (Task::Trunc, [Field::Word(x)]) => to_integer(format, *x, false),
        (Task::Ceil, [Field::Word(x)]) => to_integer(format, *x, !format.is_negative(*x)),
        (Task::Scalbn, [Field::Word(x), Field::Signed(n)]) => scalbn(format, attribute, *x, *n),
        (Task::Fma, [Field::Word(x), Field::Word(y), Field::Word(z)]) => {
            fma(format, attribute, [*x, *y, *z])
        }
        _ => unreachable!("the reader admits only the operands of the table"),
    }
}

/// Where an operand is a NaN: the canonical one, and INVALID where one signals.
fn for_nan(format: Format, operands: &[u64]) -> Option<(u64, Flags)> {
    if operands.iter().any(|operand| format.is_signalling(*operand)) {
        return Some(invalid(format));
    }
    let quiet = operands.iter().any(|operand| format.is_nan(*operand));
    quiet.then(|| (format.canonical_nan(), Flags::NONE))
}

fn invalid(format: Format) -> (u64, Flags) {
    (format.canonical_nan(), Flags::INVALID)
}

/// The exact value of a finite pattern.
fn exact(format: Format, pattern: u64) -> Exact {
    let (significand, exponent) = format.significand(pattern);
    Exact { negative: format.is_negative(pattern), number: Big::from(significand), exponent }
}

pub fn sqrt(format: Format, attribute: Attribute, x: u64) -> (u64, Flags) {
    if let Some(answer) = for_nan(format, &[x]) {
        return answer;
    }
    if format.is_zero(x) || x == format.infinity() {
        return (x, Flags::NONE);
    }
    if format.is_negative(x) {
        return invalid(format);
    }
    round(format, attribute, &root(format, x))
}

/// The root of a number above zero, or what rounds as the root does.
fn root(format: Format, x: u64) -> Exact {
    let (significand, exponent) = format.significand(x);
    // Twice the digits that rounding looks at, over an even power of two.
    let wanted = 2 * (format.fraction_bits + 3);
    let mut raise = wanted - (64 - significand.leading_zeros());
    raise += (exponent - raise as i64).rem_euclid(2) as u32;
    let square = (significand as u128) << raise;
    let whole = whole_root(square);
    // A root that is no whole number lies strictly between two that follow one
    // another. No number of the format and no midpoint lies there, so the
    // middle rounds as the root does.
    let between = whole as u128 * whole as u128 != square;
    let number = Big::from(2 * whole + between as u64);
    Exact { negative: false, number, exponent: (exponent - raise as i64) / 2 - 1 }
}

/// The greatest number whose square is not above, a digit at a time.
fn whole_root(square: u128) -> u64 {
    let mut root = 0u128;
    for place in (0..=square.ilog2() / 2).rev() {
        let trial = root | 1 << place;
        if trial * trial <= square {
            root = trial;
        }
    }
    root as u64
}

pub fn scalbn(format: Format, attribute: Attribute, x: u64, n: i32) -> (u64, Flags) {
    if let Some(answer) = for_nan(format, &[x]) {
        return answer;
    }
    if format.is_infinite(x) || format.is_zero(x) {
        return (x, Flags::NONE);
    }
    let value = exact(format, x);
    round(format, attribute, &Exact { exponent: value.exponent + n as i64, ..value })
}

pub fn fma(format: Format, attribute: Attribute, [x, y, z]: [u64; 3]) -> (u64, Flags) {
    let is_unbounded = format.is_infinite(x) || format.is_infinite(y);
    // Zero times infinity is invalid also where z is a quiet NaN: 7.2 leaves
    // that to the implementation.
    if is_unbounded && (format.is_zero(x) || format.is_zero(y)) {
        return invalid(format);
    }
    if let Some(answer) = for_nan(format, &[x, y, z]) {
        return answer;
    }
    let sign = format.sign(x) ^ format.sign(y);
    if is_unbounded {
        let no_sum = format.is_infinite(z) && format.sign(z) != sign;
        return if no_sum { invalid(format) } else { (sign | format.infinity(), Flags::NONE) };
    }
    if format.is_infinite(z) {
        return (z, Flags::NONE);
    }
    let (first, second) = (exact(format, x), exact(format, y));
    let product = Exact {
        negative: sign != 0,
        number: first.number.mul(&second.number),
        exponent: first.exponent + second.exponent,
    };
    rounded_sum(format, attribute, &product, &exact(format, z))
}

fn rounded_sum(
    format: Format,
    attribute: Attribute,
    first: &Exact,
    second: &Exact,
) -> (u64, Flags) {
    let exponent = first.exponent.min(second.exponent);
    let at = |term: &Exact| term.number.shl((term.exponent - exponent) as u32);
    let (one, two) = (at(first), at(second));
    let (negative, number) = if first.negative == second.negative {
        (first.negative, one.add(&two))
    } else if one == two {
        // Terms of unlike signs: -0 when rounding down, else +0 (6.3).
        (attribute == Attribute::Down, Big::zero())
    } else if one > two {
        (first.negative, one.sub(&two))
    } else {
        (second.negative, two.sub(&one))
    };
    if number.is_zero() {
        return (if negative { format.sign_bit() } else { 0 }, Flags::NONE);
    }
    round(format, attribute, &Exact { negative, number, exponent })
}

/// The integer next to x, away from zero or toward it, with the sign of x.
pub fn to_integer(format: Format, x: u64, away: bool) -> (u64, Flags) {
    if let Some(answer) = for_nan(format, &[x]) {
        return answer;
    }
    if format.is_infinite(x) {
        return (x, Flags::NONE);
    }
    let (significand, exponent) = format.significand(x);
    if exponent >= 0 || significand == 0 {
        return (x, Flags::NONE);
    }
    let cut = exponent.unsigned_abs().min(63);
    let below = significand >> cut;
    let whole = below + (away && below << cut != significand) as u64;
    let sign = format.sign(x);
    let value = match whole {
        0 => sign,
        _ => {
            let exact = Exact { negative: sign != 0, number: Big::from(whole), exponent: 0 };
            round(format, Attribute::Zero, &exact).0
        }
    };
    (value, if value == x { Flags::NONE } else { Flags::INEXACT })
}
