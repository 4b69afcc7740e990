//! Where an operand's exact answer lies, as far as flags turn on it. Each operand is in one place, told by the exact answer
//! and not by how it was drawn, so that the counts at the end show what a run has met. The sums of fma are in `fused_places`,
//! the operations without flags in `part_places`; under an attribute `rounded_places` tells where, and of a number for one
//! `attribute_numbers`; of numerals `text_places` and `pattern_places`.

use crate::attribute_numbers::{NUMBERS, number_of};
use crate::format::Format;
use crate::fused_places::{FUSED, fused};
use crate::halves::is_power_below_one;
use crate::operations::{Form, Operation, Task};
use crate::part_places::{LEADING, PARTED, STEPS, leading, parted, step};
use crate::pattern_places;
use crate::plain;
use crate::request::{Answer, Request};
use crate::rounded_places as rounded;
use crate::text_places;

/// Places as a type, and their names in a list.
macro_rules! places {
    ($of:ident, $names:ident: $($place:ident $name:literal,)+) => {
        #[derive(Clone, Copy)]
        pub enum $of { $($place),+ }
        pub const $names: &[&str] = &[$($name),+];
    };
}
pub(crate) use places;

places! { Root, ROOTS:
    SignallingX "x a signalling NaN",
    QuietX "x a quiet NaN",
    BelowZero "x below zero",
    Kept "x zero or infinite",
    AboutLeast "x about the least normal number",
    AboutLargest "x about the largest number",
    SmallExact "subnormal x, exact",
    SmallInexact "subnormal x, inexact",
    Exact "normal result, exact",
    Inexact "normal result, inexact",
}
places! { Whole, WHOLES:
    SignallingX "x a signalling NaN",
    QuietX "x a quiet NaN",
    Kept "x zero or infinite",
    AboutLeast "x about the least normal number",
    AboutLargest "x about the largest number",
    Small "subnormal x, inexact",
    Power "x a power of two below one",
    Integer "x an integer",
    Changed "x no integer",
}
places! { Scaled, SCALED:
    SignallingX "x a signalling NaN",
    QuietX "x a quiet NaN",
    Kept "x zero or infinite",
    Further "overflow, further up",
    Next "overflow, the first binade past the largest number",
    Largest "the largest number, exactly",
    Exact "normal result, exact",
    Least "the least normal number, exactly",
    HalfWay "half way from the largest subnormal to the least normal number",
    SmallExact "subnormal result, exact",
    SmallInexact "subnormal result, inexact",
    ToZero "rounded to zero",
}

/// The names of an operation's places; none for the remainders, the reduction and the list call.
pub fn places_of(operation: &Operation) -> &'static [&'static str] {
    match operation.task {
        _ if operation.form == Form::Numbered => NUMBERS,
        Task::Read => text_places::names(),
        Task::Write => pattern_places::names(),
        _ if operation.form != Form::Plain => rounded::names(),
        Task::Sqrt => ROOTS,
        Task::Floor | Task::Ceil | Task::Trunc => WHOLES,
        Task::Scalbn => SCALED,
        Task::Fma => FUSED,
        Task::Modf => PARTED,
        Task::Frexp | Task::Ilogb => LEADING,
        Task::Nextafter => STEPS,
        Task::Fmod | Task::Remquo | Task::Reduce | Task::List => &[],
    }
}

/// Whether a run of an operation must meet the place.
pub fn is_asked(operation: &Operation, place: usize) -> bool {
    match (operation.task, operation.form) {
        (_, Form::Numbered) => true,
        (Task::Read, form) => text_places::is_asked(form, place),
        (Task::Write, _) => pattern_places::is_asked(operation.format, place),
        (_, Form::Plain) => true,
        _ => rounded::is_asked(operation, place),
    }
}

/// The places of a text, or of the number of an attribute that was drawn with it.
pub fn places_of_text(operation: &Operation, number: u32, text: &[u8], exact: &Answer) -> Vec<usize> {
    match operation.form {
        Form::Numbered => vec![number_of(number) as usize],
        _ => text_places::places_met(operation.format, text, exact),
    }
}

/// All names there are of operations with flags and no attribute, in the order of the table at the end.
pub fn places_with_flags() -> Vec<&'static str> {
    each_once(&[FUSED, SCALED, ROOTS, WHOLES])
}
/// Those of operations without flags.
pub fn places_of_values() -> Vec<&'static str> {
    each_once(&[PARTED, LEADING, STEPS])
}
fn each_once(lists: &[&[&'static str]]) -> Vec<&'static str> {
    let mut all: Vec<&'static str> = Vec::new();
    for name in lists.concat() {
        if !all.contains(&name) {
            all.push(name);
        }
    }
    all
}

/// The places of an operand in the list of its operation: one or, under an attribute, one for what was made of it too.
pub fn places_met(operation: &Operation, request: &Request, exact: &Answer) -> [Option<usize>; 2] {
    match operation.form {
        Form::Plain => [Some(place_of(operation, request, exact)), None],
        Form::Numbered => [Some(number_of(request.attribute) as usize), None],
        Form::Attribute(_) => rounded::places_met(operation, request, exact),
    }
}

/// Of an operation without an attribute.
pub fn place_of(operation: &Operation, request: &Request, exact: &Answer) -> usize {
    match operation.task {
        Task::Sqrt => root(operation.format, request.x(), exact) as usize,
        Task::Floor | Task::Ceil | Task::Trunc => {
            whole(operation.format, request.x(), exact) as usize
        }
        Task::Scalbn => scaled(operation, request, exact) as usize,
        Task::Modf => parted(operation.format, request.x()) as usize,
        Task::Frexp | Task::Ilogb => leading(operation.format, request.x()) as usize,
        Task::Nextafter => step(operation.format, request.x(), request.y(), exact.word) as usize,
        _ => fused(operation, request, exact) as usize,
    }
}

fn is_kept(format: Format, x: u64) -> bool {
    format.is_zero(x) || format.is_infinite(x)
}
fn is_about(pattern: u64, x: u64) -> bool {
    x.abs_diff(pattern) <= 4
}

fn root(f: Format, x: u64, exact: &Answer) -> Root {
    let is_exact = exact.number == 0;
    match x {
        _ if f.is_signalling(x) => Root::SignallingX,
        _ if f.is_nan(x) => Root::QuietX,
        _ if f.is_negative(x) && !f.is_zero(x) => Root::BelowZero,
        _ if is_kept(f, x) => Root::Kept,
        _ if is_about(f.smallest_normal(), x) => Root::AboutLeast,
        _ if is_about(f.largest_finite(), x) => Root::AboutLargest,
        _ if f.exponent_field(x) == 0 && is_exact => Root::SmallExact,
        _ if f.exponent_field(x) == 0 => Root::SmallInexact,
        _ if is_exact => Root::Exact,
        _ => Root::Inexact,
    }
}

fn whole(f: Format, x: u64, exact: &Answer) -> Whole {
    let magnitude = f.magnitude(x);
    match x {
        _ if f.is_signalling(x) => Whole::SignallingX,
        _ if f.is_nan(x) => Whole::QuietX,
        _ if is_kept(f, x) => Whole::Kept,
        _ if is_about(f.smallest_normal(), magnitude) => Whole::AboutLeast,
        _ if is_about(f.largest_finite(), magnitude) => Whole::AboutLargest,
        _ if f.exponent_field(x) == 0 => Whole::Small,
        _ if is_power_below_one(f, x) => Whole::Power,
        _ if exact.number == 0 => Whole::Integer,
        _ => Whole::Changed,
    }
}

fn scaled(operation: &Operation, request: &Request, exact: &Answer) -> Scaled {
    let (f, x) = (operation.format, request.x());
    let (answer, least) = (f.magnitude(exact.word), f.smallest_normal());
    let is_exact = exact.number == 0;
    let half = || Request::word_and_number(x, request.n().saturating_sub(1));
    match answer {
        _ if f.is_signalling(x) => Scaled::SignallingX,
        _ if f.is_nan(x) => Scaled::QuietX,
        _ if is_kept(f, x) => Scaled::Kept,
        _ if f.is_infinite(answer) && f.is_finite(plain::exact(operation, &half()).word) => Scaled::Next,
        _ if f.is_infinite(answer) => Scaled::Further,
        _ if answer == f.largest_finite() => Scaled::Largest,
        _ if answer == least && is_exact => Scaled::Least,
        _ if answer == least => Scaled::HalfWay,
        _ if answer > least => Scaled::Exact,
        _ if is_exact => Scaled::SmallExact,
        0 => Scaled::ToZero,
        _ => Scaled::SmallInexact,
    }
}

#[cfg(test)]
mod tests {
    use super::*;
    use crate::operations::find;
    use crate::plain::exact;

    fn place(name: &str, request: Request) -> &'static str {
        let operation = find(name).unwrap();
        places_of(operation)[place_of(operation, &request, &exact(operation, &request))]
    }
    const ONE: u64 = 0x3ff0000000000000;
    const TWO: u64 = 0x4000000000000000;

    #[test]
    fn a_scaled_number_past_the_largest_is_in_the_first_binade_or_further() {
        let scaled = |x, n| place("scalbn64", Request::word_and_number(x, n));
        assert_eq!(scaled(ONE, 1024), "overflow, the first binade past the largest number");
        assert_eq!(scaled(TWO - 1, 1024), "overflow, the first binade past the largest number");
        assert_eq!(scaled(TWO, 1024), "overflow, further up");
        assert_eq!(scaled(TWO - 1, 1023), "the largest number, exactly");
        let half = "half way from the largest subnormal to the least normal number";
        assert_eq!(scaled(TWO - 1, -1023), half);
    }
}
