// Drawn operands for the operations of one pattern and for scalbn, each kind built on purpose.

use crate::big::Big;
use crate::format::Format;
use crate::operands::*;
use crate::random::Random;

/// An operand for the root. `turn` picks the kind, so that all kinds come.
pub fn for_root(format: Format, turn: usize, random: &mut Random) -> u64 {
    let digits = format.fraction_bits + 1;
    // A square must stay in the range, which at 16 bits has room for one alone.
    let room = if highest(format) > 60 { 60 } else { digits as i32 };
    let even = 2 * random.between(lowest(format) / 2, (highest(format) - room) / 2);
    match turn % 8 {
        0 => any(format, random),
        1 | 2 => {
            // A square that fits exactly, or its neighbours.
            let root = random.up_to_bits(digits / 2);
            let square = placed(format, false, root * root, even);
            neighbour(format, square, if turn % 8 == 1 { 0 } else { random.between(-2, 2) })
        }
        3 => {
            // The square of a midpoint between two numbers: roots close to a tie.
            let midpoint = Big::from(2 * random.of_bits(digits) + 1);
            let exponent = even - 2 * digits as i32;
            let square = placed_big(format, false, &midpoint.mul(&midpoint), exponent);
            neighbour(format, square, random.between(-1, 1))
        }
        4 => {
            // The square of a whole significand: roots close to a number.
            let root = Big::from(significand(format, random));
            let exponent = even - 2 * digits as i32;
            let square = placed_big(format, false, &root.mul(&root), exponent);
            neighbour(format, square, random.between(-1, 1))
        }
        5 => random.up_to_bits(format.fraction_bits),
        6 => near_power_of_two(format, random),
        _ => {
            let edge = random.pick(&[format.largest_finite(), format.smallest_normal(), 1]);
            let near = neighbour(format, edge, random.between(-40, 40));
            signed(format, random.below(4) == 0, near)
        }
    }
}

/// An operand for floor, trunc, ceil and modf.
pub fn for_integer(format: Format, turn: usize, random: &mut Random) -> u64 {
    let negative = random.coin();
    let digits = format.fraction_bits;
    let step = random.between(-2, 2);
    let magnitude = match turn % 8 {
        0 => return any(format, random),
        1 => neighbour(format, placed(format, false, random.up_to_bits(digits + 2), 0), step),
        2 => {
            let halves = random.up_to_bits(digits) | 1;
            neighbour(format, placed(format, false, halves, -1), step)
        }
        3 => neighbour(format, placed(format, false, 1, random.between(-70, 1)), step.min(1)),
        4 => {
            // Around the first number that has no fraction digits left.
            let edge = placed(format, false, 1, digits as i32 + random.between(-2, 2));
            neighbour(format, edge, random.between(-6, 6))
        }
        5 => random.up_to_bits(digits),
        6 => {
            let exponent = random.between(-2, digits as i32 + 2) - digits as i32;
            placed(format, false, significand(format, random), exponent)
        }
        _ => {
            // A whole number with one digit far below added or taken away.
            let below = random.below(digits as u64) as u32 + 1;
            let whole = random.up_to_bits(digits + 1 - below) << below;
            let number = if random.coin() { whole + 1 } else { whole - 1 };
            placed(format, false, number, -(below as i32))
        }
    };
    signed(format, negative, magnitude)
}

/// An operand for frexp and ilogb.
pub fn for_exponent(format: Format, turn: usize, random: &mut Random) -> u64 {
    let magnitude = match turn % 4 {
        0 => return any(format, random),
        1 => near_power_of_two(format, random),
        2 => random.up_to_bits(format.fraction_bits),
        _ => {
            let ends = [1, format.smallest_normal(), format.one(), format.largest_finite()];
            neighbour(format, random.pick(&ends), random.between(-3, 3))
        }
    };
    signed(format, random.coin(), magnitude)
}

/// An operand and a power for scalbn.
pub fn for_scaling(format: Format, turn: usize, random: &mut Random) -> (u64, i32) {
    let x = finite(format, random);
    let toward = |exponent: i32| exponent - top(format, x);
    let digits = format.fraction_bits as i32;
    match turn % 8 {
        0 => (any(format, random), random.word() as i32 >> random.below(32)),
        // Around half the smallest unit, where the answer becomes zero.
        1 => (x, toward(lowest(format) + random.between(-3, 2))),
        // m / 2 units with m odd: a tie among the subnormals.
        2 | 3 => {
            let twos = format.units(x).twos() as i32;
            let moved = if turn % 8 == 2 { x } else { neighbour(format, x, random.between(-1, 1)) };
            (moved, -twos - 1)
        }
        4 => {
            let ones = placed(format, random.coin(), significand(format, random), 0);
            let place = highest(format) + random.between(-1, 2) - top(format, ones);
            (ones, place)
        }
        5 => (x, toward(highest(format) + random.between(-1, 2))),
        6 => (x, toward(lowest(format) + random.between(-1, digits + 2))),
        _ => {
            let n = random.pick(&[i32::MIN, i32::MIN + 1, i32::MAX, i32::MAX - 1, 0, -1, 1]);
            (any(format, random), n)
        }
    }
}
