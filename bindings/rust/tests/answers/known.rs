//! Every function on the lines of known answers, on patterns and on numbers.

use std::collections::{BTreeMap, BTreeSet};
use std::fmt::LowerHex;

use paskerotim::*;

use crate::attributes;
use crate::claims::{self, list_text, Claim, Operands};
use crate::numerals;
use crate::parts;

pub fn hex<T: LowerHex>(word: T) -> String {
    format!("{word:0digits$x}", digits = 2 * size_of::<T>())
}

/// The value alone must be the value that comes with flags.
fn with_flags<T: LowerHex + PartialEq>(alone: T, (value, flags): (T, Flags)) -> String {
    assert!(
        alone == value,
        "{alone:x} alone, {value:x} with {flags}, bits {}",
        flags.bits()
    );
    format!("{} {flags}", hex(value))
}

/// The number of a refusal, or 0, and the value.
pub fn refusable<T: LowerHex + Default>(answer: Result<T, Refusal>) -> String {
    match answer {
        Ok(value) => format!("0 {}", hex(value)),
        Err(refusal) => format!("{} {}", refusal.number(), hex(T::default())),
    }
}

/// By the operation's number and, where it has one, by its name.
fn listed(op: u32, xs: &[u64], mut ys: Vec<u64>) -> String {
    let input = xs.to_vec();
    let mut by_name = ys.clone();
    let answer = list64_by_number(op, xs, &mut ys);
    for name in [
        ListOperation::Sqrt,
        ListOperation::Floor,
        ListOperation::Trunc,
    ] {
        if name.number() == op {
            assert_eq!(list64(name, xs, &mut by_name), answer);
            assert_eq!(by_name, ys);
        }
    }
    assert_eq!(xs, input);
    format!(
        "{} {}",
        answer.map_or_else(Refusal::number, |()| 0),
        list_text(&ys)
    )
}

fn on_patterns(operation: &str, o: &Operands) -> String {
    match operation {
        "sqrt64" => with_flags(sqrt64(o.word64(0)), sqrt64_flags(o.word64(0))),
        "sqrt32" => with_flags(sqrt32(o.word32(0)), sqrt32_flags(o.word32(0))),
        "floor64" => with_flags(floor64(o.word64(0)), floor64_flags(o.word64(0))),
        "floor32" => with_flags(floor32(o.word32(0)), floor32_flags(o.word32(0))),
        "trunc64" => with_flags(trunc64(o.word64(0)), trunc64_flags(o.word64(0))),
        "trunc32" => with_flags(trunc32(o.word32(0)), trunc32_flags(o.word32(0))),
        "ceil64" => with_flags(ceil64(o.word64(0)), ceil64_flags(o.word64(0))),
        "ceil32" => with_flags(ceil32(o.word32(0)), ceil32_flags(o.word32(0))),
        "scalbn64" => with_flags(
            scalbn64(o.word64(0), o.signed(1)),
            scalbn64_flags(o.word64(0), o.signed(1)),
        ),
        "scalbn32" => with_flags(
            scalbn32(o.word32(0), o.signed(1)),
            scalbn32_flags(o.word32(0), o.signed(1)),
        ),
        "fma64" => with_flags(
            fma64(o.word64(0), o.word64(1), o.word64(2)),
            fma64_flags(o.word64(0), o.word64(1), o.word64(2)),
        ),
        "fma32" => with_flags(
            fma32(o.word32(0), o.word32(1), o.word32(2)),
            fma32_flags(o.word32(0), o.word32(1), o.word32(2)),
        ),
        "fmod64" => hex(fmod64(o.word64(0), o.word64(1))),
        "fmod32" => hex(fmod32(o.word32(0), o.word32(1))),
        "remquo64" => {
            let (value, quotient) = remquo64(o.word64(0), o.word64(1));
            format!("{} {quotient}", hex(value))
        }
        "reduce64" => refusable(reduce64(o.word64(0), o.unsigned(1), o.word64(2))),
        "reduce32" => refusable(reduce32(o.word32(0), o.unsigned(1), o.word32(2))),
        "list64" => listed(o.unsigned(0), &o.list(1), o.list(2)),
        other => parts::on_patterns(other, o),
    }
}

/// The answer of the operations that have a form on numbers, as patterns.
fn on_numbers(operation: &str, o: &Operands) -> Option<String> {
    let double = |place| f64::from_bits(o.word64(place));
    let single = |place| f32::from_bits(o.word32(place));
    let doubles = |alone: f64, (value, flags): (f64, Flags)| {
        with_flags(alone.to_bits(), (value.to_bits(), flags))
    };
    let singles = |alone: f32, (value, flags): (f32, Flags)| {
        with_flags(alone.to_bits(), (value.to_bits(), flags))
    };
    Some(match operation {
        "sqrt64" => doubles(sqrt(double(0)), sqrt_flags(double(0))),
        "sqrt32" => singles(sqrtf(single(0)), sqrtf_flags(single(0))),
        "floor64" => doubles(floor(double(0)), floor_flags(double(0))),
        "floor32" => singles(floorf(single(0)), floorf_flags(single(0))),
        "trunc64" => doubles(trunc(double(0)), trunc_flags(double(0))),
        "trunc32" => singles(truncf(single(0)), truncf_flags(single(0))),
        "ceil64" => doubles(ceil(double(0)), ceil_flags(double(0))),
        "ceil32" => singles(ceilf(single(0)), ceilf_flags(single(0))),
        "scalbn64" => doubles(
            scalbn(double(0), o.signed(1)),
            scalbn_flags(double(0), o.signed(1)),
        ),
        "scalbn32" => singles(
            scalbnf(single(0), o.signed(1)),
            scalbnf_flags(single(0), o.signed(1)),
        ),
        "fma64" => doubles(
            fma(double(0), double(1), double(2)),
            fma_flags(double(0), double(1), double(2)),
        ),
        "fma32" => singles(
            fmaf(single(0), single(1), single(2)),
            fmaf_flags(single(0), single(1), single(2)),
        ),
        "fmod64" => hex(fmod(double(0), double(1)).to_bits()),
        "fmod32" => hex(fmodf(single(0), single(1)).to_bits()),
        "remquo64" => {
            let (value, quotient) = remquo(double(0), double(1));
            format!("{} {quotient}", hex(value.to_bits()))
        }
        other => return parts::on_numbers(other, o),
    })
}

/// What is given on patterns, and on numbers where there is such a form.
fn given(claim: &Claim) -> (String, Option<String>) {
    let (operation, operands) = (claim.operation.as_str(), &claim.operands);
    if claim.is_of_numerals() {
        return (
            numerals::on_patterns(claim.attribute, operation, operands),
            Some(numerals::on_numbers(claim.attribute, operation, operands)),
        );
    }
    match claim.attribute {
        None => (
            on_patterns(operation, operands),
            on_numbers(operation, operands),
        ),
        Some(number) => (
            attributes::on_patterns(number, operation, operands),
            Some(attributes::on_numbers(number, operation, operands)),
        ),
    }
}

/// The lines that do not hold, in their own form or in the other one of nearest even, and what is
/// given.
fn differences(claims: &[Claim]) -> Vec<String> {
    let mut found = Vec::new();
    for claim in claims.iter().cloned() {
        let other = claim.other_form();
        for claim in [claim].into_iter().chain(other) {
            let (patterns, numbers) = given(&claim);
            if patterns != claim.answer {
                found.push(format!("{}; on patterns {patterns}", claim.line));
            }
            if let Some(numbers) = numbers.filter(|numbers| *numbers != claim.answer) {
                found.push(format!("{}; on numbers {numbers}", claim.line));
            }
        }
    }
    found
}

fn all_hold(claims: &[Claim]) {
    let found = differences(claims);
    assert!(
        found.is_empty(),
        "{} differences:\n{}",
        found.len(),
        found.join("\n")
    );
}

/// Two threads go through them all at the same time.
fn all_hold_in_two_threads(claims: &[Claim]) {
    std::thread::scope(|threads| {
        for _ in 0..2 {
            threads.spawn(|| all_hold(claims));
        }
    });
}

#[test]
fn the_worked_cases_hold() {
    all_hold(&claims::of_file("tests/scope.lines"));
    all_hold(&claims::of_file("tests/differences.lines"));
    all_hold(&claims::of_long_lists());
}

/// Every operation has some hundreds of lines.
#[test]
fn the_recorded_cases_hold() {
    let claims = claims::of_file("tests/cases.lines");
    let mut counts = BTreeMap::new();
    for claim in &claims {
        *counts.entry(claim.operation.as_str()).or_insert(0) += 1;
    }
    assert_eq!(counts.len(), 26);
    assert!(counts.values().all(|count| *count >= 200), "{counts:?}");
    all_hold_in_two_threads(&claims);
    println!(
        "{} recorded cases, on patterns and on numbers, in 2 threads",
        claims.len()
    );
}

/// Every operation that has flags, at either width, without an attribute and under each, with every
/// flag that it can raise.
#[test]
fn the_cases_of_flags_hold() {
    let claims = claims::of_our_widths("tests/flags.lines");
    let mut found = BTreeMap::new();
    for claim in &claims {
        if claim.attribute.is_some_and(|number| number > 4) {
            continue;
        }
        let (_, flags) = claim.answer.rsplit_once(' ').expect("flags");
        let all = found
            .entry((claim.operation.as_str(), claim.attribute))
            .or_insert(String::new());
        all.push_str(flags);
    }
    assert_eq!(found.len(), 12 + 6 * claims::ATTRIBUTES.len());
    for ((operation, attribute), all) in found {
        let rounds = operation.starts_with("fma") || operation.starts_with("scalbn");
        for (flag, raised) in [
            ("OK", true),
            ("INVALID", true),
            ("DIVBYZERO", false),
            ("OVERFLOW", rounds),
            ("UNDERFLOW", rounds),
            ("INEXACT", true),
        ] {
            assert_eq!(
                all.contains(flag),
                raised,
                "{operation} under {attribute:?}: {flag}"
            );
        }
    }
    all_hold_in_two_threads(&claims);
    println!(
        "{} recorded cases of flags and attributes, on patterns and on numbers, in 2 threads",
        claims.len()
    );
}

/// The reader at either width, without an attribute and under each, with every number that it can
/// give, and the writer.
#[test]
fn the_cases_of_numerals_hold() {
    let claims = claims::of_our_widths("tests/numerals.lines");
    let mut found = BTreeMap::new();
    for claim in &claims {
        let (number, _) = claim.answer.split_once(' ').expect("a number");
        let attribute = claim.attribute.filter(|number| *number <= 4);
        let all = found
            .entry((claim.operation.as_str(), attribute))
            .or_insert(BTreeSet::new());
        all.insert(number);
    }
    for operation in ["read64", "read32"] {
        assert_eq!(found[&(operation, None)], ["0", "10", "6", "7"].into());
        for number in 0..5 {
            assert!(found[&(operation, Some(number))].contains("0"));
        }
    }
    for operation in ["write64", "write32"] {
        assert_eq!(found[&(operation, None)], ["0", "8"].into());
    }
    all_hold_in_two_threads(&claims);
    println!(
        "{} recorded cases of numerals, on patterns and on numbers, in 2 threads",
        claims.len()
    );
}

#[test]
fn the_published_vectors_hold() {
    all_hold(&claims::of_file("tests/published.lines"));
}
