//! Operands of nextafter: pairs by the step from x toward y.

use crate::ends::nan;
use crate::format::Format;
use crate::numbers::moved;
use crate::parts::about_power;
use crate::quick::{Draw, draw, pattern, sign};
use crate::random::Random;
use crate::request::Request;

pub static FOR_STEPS: [Draw; 8] = [
    draw("zeros of every sign", |f, turn, _| {
        Request::two_words(turn % 2 * f.sign_bit(), turn / 2 % 2 * f.sign_bit())
    }),
    draw("equal operands", |f, turn, random| {
        let x = pattern(f, turn, random);
        Request::two_words(x, x)
    }),
    draw("neighbours", neighbours),
    draw("between the ends of the range", between_ends),
    draw("from powers of two and beside them", from_powers),
    draw("of one magnitude, or near, and unlike signs", unlike_signs),
    draw("all classes", |f, turn, random| {
        Request::two_words(pattern(f, turn, random), pattern(f, turn / 5, random))
    }),
    draw("a NaN in each position", nan_in_each),
];

/// x of any class, and y one or two numbers from it, up or down.
fn neighbours(format: Format, turn: u64, random: &mut Random) -> Request {
    let x = pattern(format, turn, random);
    let y = moved(format, format.magnitude(x), random.pick(&[-2, -1, 1, 2]));
    Request::two_words(x, format.sign(x) | y)
}

/// Every two of the magnitudes at which something changes, of either sign, and beside them.
fn between_ends(format: Format, turn: u64, random: &mut Random) -> Request {
    let ends = [0, 1, format.smallest_normal(), format.one(), format.largest_finite(), format.infinity()];
    let count = ends.len() as u64;
    let signed = |place: u64| ends[(place / 2 % count) as usize] | place % 2 * format.sign_bit();
    let (x, y) = (signed(turn), signed(turn / (2 * count)));
    let beside = |end: u64, random: &mut Random| match random.below(3) {
        0 if format.is_finite(end) => format.sign(end) | moved(format, format.magnitude(end), random.between(-2, 2)),
        _ => end,
    };
    Request::two_words(beside(x, random), beside(y, random))
}

/// y of any class, or zero, or infinite.
fn from_powers(format: Format, turn: u64, random: &mut Random) -> Request {
    let any = pattern(format, turn, random);
    let y = random.pick(&[0, format.infinity(), any, any]);
    Request::two_words(about_power(format, turn) | sign(format, random), y ^ sign(format, random))
}

fn unlike_signs(format: Format, turn: u64, random: &mut Random) -> Request {
    let x = pattern(format, turn, random);
    let y = match format.is_finite(x) {
        true => moved(format, format.magnitude(x), random.between(-1, 1)),
        false => format.magnitude(x),
    };
    Request::two_words(x, y | format.sign(x) ^ format.sign_bit())
}

/// In x, in y and in both.
fn nan_in_each(format: Format, turn: u64, random: &mut Random) -> Request {
    let any = pattern(format, turn / 3, random);
    let first = nan(format, turn / 3, random);
    match turn % 3 {
        0 => Request::two_words(first, any),
        1 => Request::two_words(any, first),
        _ => Request::two_words(first, nan(format, turn, random)),
    }
}

#[cfg(test)]
mod tests {
    use super::*;
    use crate::operations::find;
    use crate::part_places::STEPS;
    use crate::places::place_of;
    use crate::plain::exact;
    use crate::quick::drawn;

    /// Whether so many of a kind meet each of these.
    fn has(kind: &str, count: u64, places: &[&str]) {
        for name in ["nextafter64", "nextafter32"] {
            let operation = find(name).unwrap();
            let requests = drawn(&FOR_STEPS, kind, operation.format, count);
            let place = |r: &Request| STEPS[place_of(operation, r, &exact(operation, r))];
            let met: Vec<&str> = requests.iter().map(place).collect();
            for place in places {
                assert!(met.contains(place), "{name}, {kind}: {place}");
            }
        }
    }

    #[test]
    fn every_step_at_an_end_is_taken() {
        has("between the ends of the range", 2000, &[
            "zeros of one sign",
            "zeros of unlike signs",
            "from zero to the least subnormal number",
            "from the least subnormal number to zero",
            "from the largest subnormal to the least normal number",
            "from the least normal to the largest subnormal number",
            "from the largest number to infinity",
            "from infinity to the largest number",
            "toward zero, within a binade, y of the other sign",
        ]);
        has("from powers of two and beside them", 2000, &[
            "away from zero to a power of two",
            "toward zero from a power of two",
        ]);
    }
    #[test]
    fn zeros_and_nans_are_in_each_position() {
        has("zeros of every sign", 4, &["zeros of one sign", "zeros of unlike signs"]);
        has("a NaN in each position", 300, &["x a NaN, y none", "y a NaN, x none", "x and y NaNs"]);
    }
}
