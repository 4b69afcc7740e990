//! Faults of a list call, each a call of its own that goes wrong in one way: a run must find every one of them. The call
//! that they are made from answers by libm's functions, and the run finds nothing in it.

use crate::format::WIDTH_64;
use crate::list_shapes::Shape;
use crate::lists::{LONGEST, Lent, ListCall, by_the_crate, drawn, refusal, row_of};
use crate::run::{Run, Spoiled};

/// Every place of the input and of the output, for a call that is wrong on purpose.
fn lists(lent: &Lent) -> (&[u64], &mut [u64]) {
    unsafe {
        (
            std::slice::from_raw_parts(lent.input, lent.input_length),
            std::slice::from_raw_parts_mut(lent.output, lent.output_length),
        )
    }
}
/// A word beside the output, counted from its first place.
fn word_at(lent: &Lent, place: isize) -> &mut u64 {
    unsafe { &mut *lent.output.offset(place) }
}

fn rule(number: u32, lent: &Lent) -> u32 {
    refusal(Shape { number, lengths: [lent.input_length, lent.output_length] })
}
fn value(number: u32, x: u64) -> u64 {
    by_the_crate(row_of(number).expect("an operation that there is"), x)
}
/// Places of the output, made of the same places of the input.
fn fill(number: u32, input: &[u64], output: &mut [u64]) {
    for (x, y) in input.iter().zip(output) {
        *y = value(number, *x);
    }
}

fn right(number: u32, lent: &Lent) -> u32 {
    let refused = rule(number, lent);
    if refused == 0 {
        let (input, output) = lists(lent);
        fill(number, input, output);
    }
    refused
}
/// The right call where it is done, changed by what `wrong` does then.
fn when_done(number: u32, lent: &Lent, wrong: fn(&[u64], &mut [u64])) -> u32 {
    let refused = right(number, lent);
    if refused == 0 {
        let (input, output) = lists(lent);
        wrong(input, output);
    }
    refused
}
/// What the right call gives, or another number where the fault strikes.
fn number_if(strikes: bool, other: u32, number: u32, lent: &Lent) -> u32 {
    if strikes { other } else { right(number, lent) }
}
fn is_long(lent: &Lent) -> bool {
    lent.input_length.max(lent.output_length) > LONGEST
}
fn is_unlike(lent: &Lent) -> bool {
    lent.input_length != lent.output_length
}
fn is_unnamed(number: u32) -> bool {
    row_of(number).is_none()
}

fn nans_go_through(input: &[u64], output: &mut [u64]) {
    for (x, y) in input.iter().zip(output) {
        *y = if WIDTH_64.is_nan(*x) { *x } else { *y };
    }
}

static FAULTS: [(&str, ListCall); 26] = [
    ("every list is refused", |_, _| 3),
    ("every list that is not empty is refused", |number, lent| {
        number_if(lent.input_length > 0 && rule(number, lent) == 0, 2, number, lent)
    }),
    ("two empty lists are refused", |number, lent| {
        number_if(lent.output_length == 0 && rule(number, lent) == 0, 3, number, lent)
    }),
    ("the output is untouched", rule),
    ("the first place alone is written", |number, lent| {
        let (input, output) = lists(lent);
        let refused = rule(number, lent);
        let first = usize::from(refused == 0).min(output.len());
        fill(number, input, &mut output[..first]);
        refused
    }),
    ("the last place is not written", |number, lent| {
        let last = lent.output_length.saturating_sub(1);
        let held = lists(lent).1.get(last).copied();
        let refused = right(number, lent);
        if let Some(held) = held {
            lists(lent).1[last] = held;
        }
        refused
    }),
    ("the limit is one early", |number, lent| {
        number_if(lent.input_length == LONGEST && rule(number, lent) == 0, 2, number, lent)
    }),
    ("the limit is one late", |number, lent| {
        let shape = Shape { number, lengths: [lent.input_length, lent.output_length] };
        let is_next = shape.lengths == [LONGEST + 1; 2] && !is_unnamed(number);
        if is_next {
            let (input, output) = lists(lent);
            fill(number, input, output);
        }
        number_if(is_next, 0, number, lent)
    }),
    ("the input alone is held to the limit", |number, lent| {
        number_if(rule(number, lent) == 2 && lent.input_length <= LONGEST, 3, number, lent)
    }),
    ("the output alone is held to the limit", |number, lent| {
        number_if(rule(number, lent) == 2 && lent.output_length <= LONGEST, 3, number, lent)
    }),
    ("2 comes before 1", |number, lent| {
        number_if(is_unnamed(number) && is_long(lent), 2, number, lent)
    }),
    ("3 comes before 1", |number, lent| {
        number_if(is_unnamed(number) && is_unlike(lent), 3, number, lent)
    }),
    ("3 comes before 2", |number, lent| {
        number_if(is_long(lent) && is_unlike(lent), 3, number, lent)
    }),
    ("operation 0 is done", |number, lent| number_if(number == 0, 0, number, lent)),
    ("operation 4 is done", |number, lent| number_if(number == 4, 0, number, lent)),
    ("the shorter list decides", |number, lent| {
        let (input, output) = lists(lent);
        let strikes = rule(number, lent) == 3;
        if strikes {
            fill(number, input, output);
        }
        number_if(strikes, 0, number, lent)
    }),
    ("the place before is read", |number, lent| {
        let refused = rule(number, lent);
        if refused == 0 {
            let (input, output) = lists(lent);
            for (place, y) in output.iter_mut().enumerate() {
                *y = value(number, input[place.saturating_sub(1)]);
            }
        }
        refused
    }),
    ("the place after is read", |number, lent| {
        let refused = rule(number, lent);
        if refused == 0 {
            let (input, output) = lists(lent);
            for (place, y) in output.iter_mut().enumerate() {
                *y = value(number, input[(place + 1).min(input.len() - 1)]);
            }
        }
        refused
    }),
    ("floor stands for trunc", |number, lent| match number {
        3 => right(2, lent),
        _ => right(number, lent),
    }),
    ("a NaN goes through the root", |number, lent| match number {
        1 => when_done(number, lent, nans_go_through),
        _ => right(number, lent),
    }),
    ("a NaN goes through floor", |number, lent| match number {
        2 => when_done(number, lent, nans_go_through),
        _ => right(number, lent),
    }),
    ("a NaN goes through trunc", |number, lent| match number {
        3 => when_done(number, lent, nans_go_through),
        _ => right(number, lent),
    }),
    ("the word past the output is written", |number, lent| {
        let refused = right(number, lent);
        *word_at(lent, lent.output_length as isize) ^= u64::from(refused == 0);
        refused
    }),
    ("the word before the output is written", |number, lent| {
        let refused = right(number, lent);
        *word_at(lent, -1) ^= u64::from(refused == 0);
        refused
    }),
    ("the input is changed", |number, lent| {
        let refused = right(number, lent);
        if let Some(place) = lent.input_length.checked_sub(1) {
            unsafe { *lent.input.cast_mut().add(place) ^= u64::from(refused == 0) };
        }
        refused
    }),
    ("a refused call touches the output", |number, lent| {
        let refused = right(number, lent);
        if let (true, Some(y)) = (refused != 0, lists(lent).1.last_mut()) {
            *y ^= 1;
        }
        refused
    }),
];

fn found(ours: ListCall, spoiled: Spoiled) -> u64 {
    let run = Run { seed: 1, on: String::new(), build: String::new(), spoiled };
    let tally = drawn(&run, ours, 10_000);
    assert_eq!(tally.kinds.iter().sum::<u64>(), 100);
    assert_eq!(tally.is_clean(), tally.unexplained == 0);
    tally.unexplained
}

#[test]
fn each_fault_is_found() {
    for (what, ours) in &FAULTS {
        assert!(found(*ours, Spoiled::Nothing) > 0, "{what}");
    }
}
#[test]
fn nothing_is_found_in_the_right_call() {
    assert_eq!(found(right, Spoiled::Nothing), 0);
}
#[test]
fn a_spoiled_call_is_seen() {
    // Of ten, some have no place in the output, and in some libm has no say.
    assert_eq!(found(right, Spoiled::Number), 10);
    assert!((8..=10).contains(&found(right, Spoiled::Ours)));
    assert!((2..=8).contains(&found(right, Spoiled::Crate)));
}
