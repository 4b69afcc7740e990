// The operations themselves, to nearest even, on exact whole numbers of smallest units.

use crate::answers_flags;
use crate::answers_parts::{frexp, ilogb, modf, nextafter};
use crate::attributes::Attribute;
use crate::big::Big;
use crate::format::{Format, WIDTH_64};
use crate::numerals;
use crate::operations::{Field, Flags, Form, Operation, Task};
use crate::rounding::{exact, nearest_root, nearest_with_flags};

const LONGEST_LIST: usize = 8192;
const LARGEST_SHIFT: u32 = 4096;

/// The whole answer of an operation, in the order the line format writes it.
pub fn judge(operation: &Operation, operands: &[Field]) -> Vec<Field> {
    use Field::{Signed, Unsigned, Word, Words};
    if operation.is_of_numerals() {
        return numerals::judge(operation, operands);
    }
    if operation.form != Form::Plain {
        return answers_flags::judge(operation, operands);
    }
    let format = operation.format;
    match (operation.task, operands) {
        (Task::Fmod, [Word(x), Word(y)]) => vec![Word(fmod(format, *x, *y))],
        (Task::Remquo, [Word(x), Word(y)]) => {
            let (value, quotient) = remquo(format, *x, *y);
            vec![Word(value), Signed(quotient)]
        }
        (Task::Reduce, [Word(x), Unsigned(shift), Word(y)]) => {
            let (refusal, value) = reduce(format.width, *x, *shift, *y);
            vec![Unsigned(refusal), Word(value)]
        }
        (Task::List, [Unsigned(number), Words(input), Words(output)]) => {
            let (refusal, after) = list(*number, input, output);
            vec![Unsigned(refusal), Words(after)]
        }
        (Task::Modf, [Word(x)]) => modf(format, *x).map(Word).to_vec(),
        (Task::Frexp, [Word(x)]) => {
            let (value, exponent) = frexp(format, *x);
            vec![Word(value), Signed(exponent)]
        }
        (Task::Ilogb, [Word(x)]) => vec![Signed(ilogb(format, *x))],
        (Task::Nextafter, [Word(x), Word(y)]) => vec![Word(nextafter(format, *x, *y))],
        _ => {
            let (value, flags) = settled(operation, operands);
            vec![Word(value), Field::Flags(flags)]
        }
    }
}

/// Value and flags by two ways that share no rounding: the search among
/// neighbours, and the digits cut off. Where they differ, neither is a judge.
fn settled(operation: &Operation, operands: &[Field]) -> (u64, Flags) {
    let searched = by_search(operation, operands);
    let cut = answers_flags::under(operation, Attribute::Even, operands);
    let name = operation.name;
    assert!(searched == cut, "{name} {operands:x?}: {searched:x?} by search, {cut:x?} by digits");
    searched
}

/// Value and flags to nearest even, and of the integers, by the search.
pub fn by_search(operation: &Operation, operands: &[Field]) -> (u64, Flags) {
    use Field::{Signed, Word};
    let format = operation.format;
    match (operation.task, operands) {
        (Task::Sqrt, [Word(x)]) => sqrt(format, *x),
        (Task::Floor, [Word(x)]) => floor(format, *x),
        (Task::Trunc, [Word(x)]) => trunc(format, *x),
        (Task::Ceil, [Word(x)]) => ceil(format, *x),
        (Task::Scalbn, [Word(x), Signed(n)]) => scalbn(format, *x, *n),
        (Task::Fma, [Word(x), Word(y), Word(z)]) => fma_with_flags(format, [*x, *y, *z]),
        _ => unreachable!("the reader admits only the operands of the table"),
    }
}

/// The canonical NaN for operands of which one is a NaN: invalid where one
/// signals (6.2, 7.2).
fn nan_of(format: Format, operands: &[u64]) -> (u64, Flags) {
    let signals = operands.iter().any(|operand| format.is_signalling(*operand));
    (format.canonical_nan(), if signals { Flags::INVALID } else { Flags::NONE })
}

pub fn sqrt(format: Format, x: u64) -> (u64, Flags) {
    if format.is_nan(x) {
        return nan_of(format, &[x]);
    }
    if format.is_zero(x) || x == format.infinity() {
        return (x, Flags::NONE);
    }
    if format.is_negative(x) {
        return (format.canonical_nan(), Flags::INVALID);
    }
    nearest_root(format, x)
}

pub fn floor(format: Format, x: u64) -> (u64, Flags) {
    // Below zero the largest integer not above is the one away from zero.
    to_integer(format, x, format.is_negative(x))
}

pub fn trunc(format: Format, x: u64) -> (u64, Flags) {
    to_integer(format, x, false)
}

pub fn ceil(format: Format, x: u64) -> (u64, Flags) {
    // Above zero the smallest integer not below is the one away from zero.
    to_integer(format, x, !format.is_negative(x))
}

/// The integer next to x, away from zero or toward it, with the sign of x. It
/// is inexact where a finite x is no integer.
fn to_integer(format: Format, x: u64, away: bool) -> (u64, Flags) {
    if format.is_nan(x) {
        return nan_of(format, &[x]);
    }
    if format.is_infinite(x) {
        return (x, Flags::NONE);
    }
    let units = format.units(x);
    let whole = units.shr(format.unit_shift());
    let back = whole.shl(format.unit_shift());
    if back == units {
        return (x, Flags::NONE);
    }
    let units = match away {
        true => whole.add(&Big::from(1)).shl(format.unit_shift()),
        false => back,
    };
    (format.sign(x) | exact(format, &units), Flags::INEXACT)
}

pub fn scalbn(format: Format, x: u64, n: i32) -> (u64, Flags) {
    if format.is_nan(x) {
        return nan_of(format, &[x]);
    }
    if format.is_infinite(x) || format.is_zero(x) {
        return (x, Flags::NONE);
    }
    // A nonzero finite magnitude is at least one unit and below 2^2098 units.
    // Past 2200 either way the answer no longer depends on n, so the exact
    // value is kept to a size that can be written down.
    let n = n.clamp(-2200, 2200);
    let (magnitude, flags) = match n >= 0 {
        true => nearest_with_flags(format, &format.scaled_units(x, n as u32), 0),
        false => nearest_with_flags(format, &format.units(x), n.unsigned_abs()),
    };
    (format.sign(x) | magnitude, flags)
}

/// The value of fma alone, for tools/compare.
#[allow(dead_code)]
pub fn fma(format: Format, x: u64, y: u64, z: u64) -> u64 {
    fma_with_flags(format, [x, y, z]).0
}

pub fn fma_with_flags(format: Format, [x, y, z]: [u64; 3]) -> (u64, Flags) {
    let invalid = (format.canonical_nan(), Flags::INVALID);
    let is_infinite = format.is_infinite(x) || format.is_infinite(y);
    let is_zero = format.is_zero(x) || format.is_zero(y);
    // Invalid also where z is a quiet NaN, which 7.2 leaves open.
    if is_infinite && is_zero {
        return invalid;
    }
    if [x, y, z].iter().any(|operand| format.is_nan(*operand)) {
        return nan_of(format, &[x, y, z]);
    }
    let product_sign = format.sign(x) ^ format.sign(y);
    if is_infinite {
        let no_sum = format.is_infinite(z) && format.sign(z) != product_sign;
        return if no_sum { invalid } else { (product_sign | format.infinity(), Flags::NONE) };
    }
    if format.is_infinite(z) {
        return (z, Flags::NONE);
    }
    if is_zero {
        // Two zeros of one sign keep it, of two signs give +0.
        return (if format.is_zero(z) { product_sign & z } else { z }, Flags::NONE);
    }
    // The product of two counts of units is a count of squared units, which
    // are 2^unit_shift times smaller; z is brought to the same measure.
    let product = format.units(x).mul(&format.units(y));
    let addend = format.scaled_units(z, format.unit_shift());
    let (sign, sum) = signed_sum((product_sign, product), (format.sign(z), addend));
    if sum.is_zero() {
        return (0, Flags::NONE);
    }
    let (magnitude, flags) = nearest_with_flags(format, &sum, format.unit_shift());
    (sign | magnitude, flags)
}

/// The sum of two numbers, each a sign and a magnitude.
fn signed_sum(first: (u64, Big), second: (u64, Big)) -> (u64, Big) {
    if first.0 == second.0 {
        (first.0, first.1.add(&second.1))
    } else if first.1 >= second.1 {
        (first.0, first.1.sub(&second.1))
    } else {
        (second.0, second.1.sub(&first.1))
    }
}

/// Where fmod and remquo have no number to give.
fn has_no_remainder(format: Format, x: u64, y: u64) -> bool {
    !format.is_finite(x) || format.is_nan(y) || format.is_zero(y)
}

pub fn fmod(format: Format, x: u64, y: u64) -> u64 {
    if has_no_remainder(format, x, y) {
        return format.canonical_nan();
    }
    if format.is_infinite(y) {
        return x;
    }
    let (_, rest) = format.units(x).div_rem(&format.units(y));
    format.sign(x) | exact(format, &rest)
}

pub fn remquo(format: Format, x: u64, y: u64) -> (u64, i32) {
    if has_no_remainder(format, x, y) {
        return (format.canonical_nan(), 0);
    }
    if format.is_infinite(y) {
        return (x, 0);
    }
    let divisor = format.units(y);
    let (mut quotient, mut rest) = format.units(x).div_rem(&divisor);
    let mut sign = format.sign(x);
    let doubled = rest.shl(1);
    if doubled > divisor || (doubled == divisor && quotient.is_odd()) {
        quotient = quotient.add(&Big::from(1));
        // Never zero: the rest was below the divisor. So a zero remainder
        // always has the sign of x.
        rest = divisor.sub(&rest);
        sign ^= format.sign_bit();
    }
    let low = (quotient.low_word() & 0x7fff_ffff) as i32;
    let signs_differ = format.sign(x) != format.sign(y);
    (sign | exact(format, &rest), if signs_differ { -low } else { low })
}

/// (x * 2^shift) mod y, or the number of the refusal.
pub fn reduce(width: u32, x: u64, shift: u32, y: u64) -> (u32, u64) {
    let largest_divisor = (1u64 << (width - 2)) - 1;
    if y > largest_divisor || x as u128 >= 2 * y as u128 {
        return (4, 0);
    }
    if shift > LARGEST_SHIFT {
        return (5, 0);
    }
    let (_, rest) = Big::placed(x, shift).div_rem(&Big::from(y));
    (0, rest.low_word())
}

/// The refusal number and what the output holds afterwards.
pub fn list(number: u32, input: &[u64], output: &[u64]) -> (u32, Vec<u64>) {
    let single = match number {
        1 => sqrt,
        2 => floor,
        3 => trunc,
        _ => return (1, output.to_vec()),
    };
    if input.len() > LONGEST_LIST || output.len() > LONGEST_LIST {
        return (2, output.to_vec());
    }
    if input.len() != output.len() {
        return (3, output.to_vec());
    }
    (0, input.iter().map(|x| single(WIDTH_64, *x).0).collect())
}
