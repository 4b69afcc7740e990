//! The reduction beside libm: which requests are refused, by a test of its own, and the kinds of its operands.

use crate::format::Format;
use crate::quick::{Draw, draw};
use crate::random::Random;
use crate::request::{Answer, Request};

const LARGEST_SHIFT: u32 = 4096;

/// The number of the refusal: 4 before 5, 0 for none. A fourth of the words can be a y, and y is above the half of x.
fn refusal(width: u32, request: &Request) -> u32 {
    let (x, y) = (u128::from(request.x()), u128::from(request.y()));
    let has_premise = 4 * y < 1u128 << width && y + y > x;
    match (has_premise, request.shift() > LARGEST_SHIFT) {
        (false, _) => 4,
        (true, true) => 5,
        (true, false) => 0,
    }
}

/// libm asserts what we refuse, so it is called where nothing is to be refused; elsewhere the rule answers.
pub fn by_the_crate(width: u32, request: &Request, call: impl Fn() -> u64) -> Answer {
    match refusal(width, request) {
        0 => Answer::refusal(0, call()),
        number => Answer::refusal(number, 0),
    }
}

pub static FOR_REDUCTIONS: [Draw; 13] = [
    draw("drawn", |f, _, random| drawn(f, random)),
    draw("every shift", every_shift),
    draw("y about its limit", y_at_limit),
    draw("x about 2y", x_at_twice_y),
    draw("x about y", x_at_y),
    draw("shifts about 4096", shift_at_limit),
    draw("shifts about multiples of a step", shift_at_steps),
    draw("y zero", y_zero),
    draw("y a power of two", y_power),
    draw("y beside a power of two", y_beside_power),
    draw("refused for both reasons", refused_twice),
    draw("great shifts", great_shift),
    draw("any words", any_words),
];

/// The largest y that is not refused.
fn limit(format: Format) -> u64 {
    format.all_ones() >> 2
}

/// A y that is not refused, of any length.
fn divisor(format: Format, random: &mut Random) -> u64 {
    random.up_to_bits(format.width - 2)
}

/// An x that is not refused with this y; 0 where every x is.
fn below_twice(y: u64, random: &mut Random) -> u64 {
    let twice = y.saturating_mul(2);
    let any = random.below(twice);
    if y == 0 { 0 } else { random.pick(&[any, any, 0, 1, twice - 1]) }
}

fn shift(random: &mut Random) -> u32 {
    random.below(u64::from(LARGEST_SHIFT) + 1) as u32
}

/// The words that the width has room for.
fn request(format: Format, x: u64, shift: u32, y: u64) -> Request {
    Request::reduction(x & format.all_ones(), shift, y & format.all_ones())
}

fn drawn(format: Format, random: &mut Random) -> Request {
    let y = divisor(format, random);
    request(format, random.below(2 * y), shift(random), y)
}

fn every_shift(format: Format, turn: u64, random: &mut Random) -> Request {
    let y = random.of_bits(format.width - 2 - (turn / 4097 % 2) as u32);
    request(format, below_twice(y, random), (turn % 4097) as u32, y)
}

fn y_at_limit(format: Format, turn: u64, random: &mut Random) -> Request {
    let y = limit(format) - 2 + turn % 5;
    request(format, below_twice(y, random), shift(random), y)
}

fn x_at_twice_y(format: Format, turn: u64, random: &mut Random) -> Request {
    let y = if turn % 3 == 0 { limit(format) - random.below(2) } else { divisor(format, random) };
    request(format, (2 * y - 2).saturating_add(turn % 4), shift(random), y)
}

fn x_at_y(format: Format, turn: u64, random: &mut Random) -> Request {
    let y = divisor(format, random);
    request(format, (y - 1).saturating_add(turn % 3), shift(random), y)
}

fn shift_at_limit(format: Format, turn: u64, random: &mut Random) -> Request {
    let y = divisor(format, random);
    request(format, below_twice(y, random), LARGEST_SHIFT - 2 + (turn % 5) as u32, y)
}

/// A routine goes in steps of one digit less than the word, some after y was moved up to two digits below the word.
fn shift_at_steps(format: Format, turn: u64, random: &mut Random) -> Request {
    let y = divisor(format, random);
    let step = u64::from(format.width - 1);
    let moved = if random.coin() { y.leading_zeros() - (64 - format.width) - 2 } else { 0 };
    let steps = turn % (u64::from(LARGEST_SHIFT) / step + 1) * step;
    let shift = steps as i64 + i64::from(random.between(-2, 2)) - i64::from(moved);
    request(format, below_twice(y, random), shift.max(0) as u32, y)
}

fn y_zero(format: Format, turn: u64, random: &mut Random) -> Request {
    let shift = if turn % 4 == 3 { random.word() as u32 } else { shift(random) };
    let any = random.word();
    request(format, random.pick(&[0, 1, 2, any, u64::MAX]), shift, 0)
}

fn y_power(format: Format, turn: u64, random: &mut Random) -> Request {
    let y = 1u64 << (turn % u64::from(format.width));
    let (short, any) = (random.below(u64::from(format.width) + 2) as u32, shift(random));
    let shift = random.pick(&[short, short, any]);
    request(format, below_twice(y, random), shift, y)
}

fn y_beside_power(format: Format, turn: u64, random: &mut Random) -> Request {
    let power = 1u64 << (turn % u64::from(format.width - 2));
    let y = power.saturating_add_signed(random.pick(&[-1, 1])).max(1);
    request(format, below_twice(y, random), shift(random), y)
}

fn refused_twice(format: Format, turn: u64, random: &mut Random) -> Request {
    let shift = LARGEST_SHIFT + 1 + (random.word() as u32 >> random.below(32)) / 2;
    let any = random.word();
    match turn % 3 {
        0 => request(format, any, shift, limit(format) + 1 + (any & limit(format))),
        1 => request(format, any, shift, 0),
        _ => {
            let y = divisor(format, random);
            request(format, 2 * y + random.below(2), shift, y)
        }
    }
}

fn great_shift(format: Format, _: u64, random: &mut Random) -> Request {
    let y = divisor(format, random);
    let any = (random.word() as u32 >> random.below(20)).max(LARGEST_SHIFT + 1);
    let shift = random.pick(&[any, u32::MAX, u32::MAX - 1, 1 << 31, LARGEST_SHIFT + 1]);
    request(format, below_twice(y, random), shift, y)
}

fn any_words(format: Format, _: u64, random: &mut Random) -> Request {
    let [x, y] = [random.word(), random.word()].map(|word| word >> random.below(64));
    request(format, x, random.word() as u32 >> random.below(32), y)
}

#[cfg(test)]
mod tests {
    use super::*;
    use crate::answers::reduce;
    use crate::format::{WIDTH_32, WIDTH_64};
    use crate::quick::drawn;
    use std::collections::BTreeSet;

    const WIDTHS: [Format; 2] = [WIDTH_64, WIDTH_32];

    /// The first so many of a kind, each as what `of` makes of it and its refusal.
    fn made<T: Ord>(
        format: Format,
        kind: &str,
        count: u64,
        of: impl Fn(&Request) -> T,
    ) -> BTreeSet<(T, u32)> {
        let with = |r: &Request| (of(r), refusal(format.width, r));
        drawn(&FOR_REDUCTIONS, kind, format, count).iter().map(with).collect()
    }

    #[test]
    fn the_plain_program_refuses_alike() {
        for format in WIDTHS {
            for Draw { kind, .. } in &FOR_REDUCTIONS {
                for r in drawn(&FOR_REDUCTIONS, kind, format, 1000) {
                    let exact = reduce(format.width, r.x(), r.shift(), r.y());
                    assert_eq!(refusal(format.width, &r), exact.0, "{kind}");
                }
            }
        }
    }
    #[test]
    fn each_refusal_is_met_with_its_neighbours_done() {
        for format in WIDTHS {
            let y = made(format, "y about its limit", 100, |r| {
                r.y() as i128 - i128::from(limit(format))
            });
            assert!(y.into_iter().eq([(-2, 0), (-1, 0), (0, 0), (1, 4), (2, 4)]));
            let twice = |r: &Request| r.x() as i128 - 2 * r.y() as i128;
            let x = made(format, "x about 2y", 100, twice);
            assert!(x.into_iter().eq([(-2, 0), (-1, 0), (0, 4), (1, 4)]));
            let shift = made(format, "shifts about 4096", 100, |r| r.shift());
            assert!(shift.into_iter().eq([(4094, 0), (4095, 0), (4096, 0), (4097, 5), (4098, 5)]));
        }
    }
    #[test]
    fn what_is_always_refused_is() {
        for format in WIDTHS {
            assert!(made(format, "y zero", 1000, |r| r.y()).into_iter().eq([(0, 4)]));
            let twice = made(format, "refused for both reasons", 1000, |r| r.shift() > 4096);
            assert!(twice.into_iter().eq([(true, 4)]));
            assert!(made(format, "great shifts", 1000, |_| ()).into_iter().eq([((), 5)]));
        }
    }
    #[test]
    fn every_shift_and_every_power_is_met() {
        for format in WIDTHS {
            let shifts = made(format, "every shift", 4097, |r| r.shift());
            assert!(shifts.into_iter().eq((0..=4096).map(|shift| (shift, 0))));
            let width = u64::from(format.width);
            let powers = made(format, "y a power of two", 4 * width, |r| r.y().trailing_zeros());
            let done = powers.iter().filter(|(_, number)| *number == 0).count();
            assert_eq!((powers.len(), done), (format.width as usize, format.width as usize - 2));
        }
    }
    #[test]
    fn shifts_stand_about_every_step_with_y_as_it_is_and_moved() {
        for format in WIDTHS {
            let step = format.width - 1;
            let kind = "shifts about multiples of a step";
            let (mut plain, mut moved) = (BTreeSet::new(), BTreeSet::new());
            for r in drawn(&FOR_REDUCTIONS, kind, format, 20_000) {
                let up = r.y().leading_zeros() - (64 - format.width) - 2;
                plain.extend((r.shift() % step == 0).then_some(r.shift() / step));
                moved.extend(((r.shift() + up) % step == 0).then_some((r.shift() + up) / step));
            }
            assert!(
                (0..=4096 / step).all(|times| plain.contains(&times) && moved.contains(&times))
            );
        }
    }
}
