// Drawn operands for nextafter: pairs by where the next number lies.

use crate::format::Format;
use crate::operands::*;
use crate::random::Random;

/// Operands for nextafter. `turn` picks the kind, so that all kinds come.
pub fn for_next(format: Format, turn: usize, random: &mut Random) -> [u64; 2] {
    match turn % 8 {
        0 => [any(format, random), any(format, random)],
        1 => {
            let x = any(format, random);
            [x, x]
        }
        2 => {
            let x = any(format, random);
            [x, x ^ format.sign_bit()]
        }
        3 => neighbours(format, random),
        4 => about_zero(format, random),
        5 => past_the_largest(format, random),
        6 => {
            // Below a power of two the numbers lie closer than above it.
            let x = signed(format, random.coin(), near_power_of_two(format, random));
            [x, any(format, random)]
        }
        _ => [finite(format, random), finite(format, random)],
    }
}

/// One or two numbers apart, or equal.
fn neighbours(format: Format, random: &mut Random) -> [u64; 2] {
    let x = finite(format, random);
    [x, neighbour(format, x, random.between(-2, 2))]
}

/// Zeros and the least numbers, of either sign, toward one another and toward any.
fn about_zero(format: Format, random: &mut Random) -> [u64; 2] {
    let x = signed(format, random.coin(), random.below(3));
    let y = signed(format, random.coin(), random.below(3));
    [x, if random.coin() { y } else { any(format, random) }]
}

/// The largest numbers and infinity, of either sign, likewise.
fn past_the_largest(format: Format, random: &mut Random) -> [u64; 2] {
    let x = signed(format, random.coin(), format.infinity() - random.below(3));
    let y = signed(format, random.coin(), format.infinity() - random.below(3));
    [x, if random.coin() { y } else { any(format, random) }]
}
