//! The two loops, and the turns in which both sides go through them.

use crate::answers::Answer;
use std::hint::black_box;
use std::time::Instant;

/// The operands of one set. A pass goes through all of them once.
pub const COUNT: usize = 8192;

/// Turns of both sides that are not counted, before those that are.
const WARMING: usize = 5;

#[derive(Clone, Copy, PartialEq)]
pub enum Calls {
    Independent,
    Dependent,
}

/// Nanoseconds a call, or a place of a list, over the passes.
pub struct Figures {
    pub least: f64,
    pub median: f64,
}

/// A side is a function of the operands and a word that each operand is xored with: 0 here, and known to be.
#[inline(never)]
fn independent<T: Copy, A: Answer>(operands: &[T], side: impl Fn(T, u64) -> A) -> u64 {
    let mut mixed = 0;
    for &operand in operands {
        mixed ^= side(operand, 0).mixed();
    }
    mixed
}

/// The word is 0 here too, but is made of the last answer in a way that the compiler cannot see through.
#[inline(never)]
fn dependent<T: Copy, A: Answer>(operands: &[T], side: impl Fn(T, u64) -> A) -> u64 {
    let zero = black_box(0);
    let mut last = 0;
    for &operand in operands {
        last = side(operand, last & zero).mixed();
    }
    last
}

/// Nanoseconds a call, over one pass.
pub fn pass<T: Copy, A: Answer>(calls: Calls, operands: &[T], side: impl Fn(T, u64) -> A) -> f64 {
    let operands = black_box(operands);
    let start = Instant::now();
    black_box(match calls {
        Calls::Independent => independent(operands, side),
        Calls::Dependent => dependent(operands, side),
    });
    start.elapsed().as_nanos() as f64 / operands.len() as f64
}

/// Nanoseconds a place, over one pass from one list into another.
pub fn list_pass(input: &[u64], output: &mut [u64], side: impl Fn(&[u64], &mut [u64])) -> f64 {
    let input = black_box(input);
    let start = Instant::now();
    side(input, output);
    black_box(output);
    start.elapsed().as_nanos() as f64 / input.len() as f64
}

/// Both sides in turns, so that both meet the same state of the machine; which goes first changes at every turn.
pub fn turns(passes: usize, mut ours: impl FnMut() -> f64, mut theirs: impl FnMut() -> f64) -> (Figures, Figures) {
    let (mut our_passes, mut their_passes) = (Vec::new(), Vec::new());
    for turn in 0..WARMING + passes {
        if turn % 2 == 0 {
            our_passes.push(ours());
            their_passes.push(theirs());
        } else {
            their_passes.push(theirs());
            our_passes.push(ours());
        }
    }
    (figures(&mut our_passes[WARMING..]), figures(&mut their_passes[WARMING..]))
}

fn figures(passes: &mut [f64]) -> Figures {
    passes.sort_by(f64::total_cmp);
    let (low, high) = (passes[(passes.len() - 1) / 2], passes[passes.len() / 2]);
    Figures { least: passes[0], median: (low + high) / 2.0 }
}
