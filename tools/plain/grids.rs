// Every pair of operand classes, laid out once for each operation.

use crate::draws_several::{far_tail_above, longest_gap};
use crate::format::Format;
use crate::operands::{highest, of_class, placed, signed, CLASSES};
use crate::operations::{Field, Operation, Task};
use crate::random::Random;

/// Requests that every run contains, whatever its count.
pub fn grid(operation: &Operation, random: &mut Random) -> Vec<Vec<Field>> {
    let format = operation.format;
    match operation.task {
        Task::Sqrt | Task::Floor | Task::Trunc | Task::Ceil | Task::Modf => singles(format, random),
        Task::Frexp | Task::Ilogb => exponents(format, random),
        Task::Scalbn => scalings(format, random),
        Task::Fma => triples(format, random),
        Task::Fmod | Task::Remquo | Task::Nextafter => pairs(format, random),
        Task::Reduce => reductions(format.width),
        Task::List => lists(format, random),
        Task::Read | Task::Write => unreachable!("numerals have a small grid alone"),
    }
}

fn singles(format: Format, random: &mut Random) -> Vec<Vec<Field>> {
    let places = 0..3 * CLASSES;
    places.map(|place| vec![Field::Word(of_class(format, place % CLASSES, random))]).collect()
}

/// The classes, and subnormal numbers of every length.
fn exponents(format: Format, random: &mut Random) -> Vec<Vec<Field>> {
    let mut requests = singles(format, random);
    for bits in 1..=format.fraction_bits {
        let x = signed(format, random.coin(), random.of_bits(bits));
        requests.push(vec![Field::Word(x)]);
    }
    requests
}

fn pairs(format: Format, random: &mut Random) -> Vec<Vec<Field>> {
    let mut requests = Vec::new();
    for place in 0..CLASSES * CLASSES {
        let x = of_class(format, place / CLASSES, random);
        let y = of_class(format, place % CLASSES, random);
        requests.push(vec![Field::Word(x), Field::Word(y)]);
    }
    requests
}

/// One layer of the triples; all triples of zeros, ones and infinities, where
/// the sign rules and the sums without an answer are; and sums a hair's breadth
/// from a tie, beside an even and an odd number.
fn triples(format: Format, random: &mut Random) -> Vec<Vec<Field>> {
    let layer = (0..CLASSES * CLASSES).map(|place| triple(format, place, random));
    let mut requests: Vec<Vec<Field>> = layer.collect();
    let plain = [0, format.one(), format.infinity()];
    let special = |place: usize| signed(format, place % 2 == 1, plain[place / 2 % 3]);
    for place in 0..216 {
        let places = [place / 36, place / 6 % 6, place % 6];
        requests.push(places.iter().map(|one| Field::Word(special(*one))).collect());
    }
    for place in 0..40 {
        let z = signed(format, place % 2 == 1, format.one() + place / 2 % 2);
        let power = longest_gap(format) - (place / 4 % 5) as u32;
        requests.push(far_tail_above(format, random, z, power, 1).map(Field::Word).to_vec());
    }
    requests
}

/// How many triples of classes there are.
pub const TRIPLES: usize = CLASSES * CLASSES * CLASSES;

/// Triples in layers of CLASSES^2. Within a layer any two classes fix the
/// third, so one layer already shows every pair in each two places; all
/// layers together show every triple.
pub fn triple(format: Format, place: usize, random: &mut Random) -> Vec<Field> {
    let (layer, square) = (place / (CLASSES * CLASSES), place % (CLASSES * CLASSES));
    let (first, second) = (square / CLASSES, square % CLASSES);
    let third = (first + second + layer) % CLASSES;
    let classes = [first, second, third];
    classes.iter().map(|class| Field::Word(of_class(format, *class, random))).collect()
}

/// Every class with every power at which some class meets a boundary.
fn scalings(format: Format, random: &mut Random) -> Vec<Vec<Field>> {
    let (unit, bias) = (format.unit_shift() as i32, format.bias() as i32);
    let digits = format.fraction_bits as i32;
    let powers = [
        i32::MIN,
        i32::MIN + 1,
        -unit - bias - 2,
        -unit - bias - 1,
        -unit - bias,
        -unit - 1,
        -unit,
        -bias,
        -digits - 1,
        -digits,
        -1,
        0,
        1,
        digits,
        bias,
        bias + 1,
        2 * bias,
        unit + bias,
        unit + bias + 1,
        i32::MAX - 1,
        i32::MAX,
    ];
    let mut requests = Vec::new();
    for class in 0..CLASSES {
        for n in powers {
            requests.push(vec![Field::Word(of_class(format, class, random)), Field::Signed(n)]);
        }
    }
    requests
}

/// Both sides of every refusal of the reduction.
fn reductions(width: u32) -> Vec<Vec<Field>> {
    let (bound, most) = ((1u64 << (width - 2)) - 1, u64::MAX >> (64 - width));
    let divisors = [0, 1, 2, 3, 7, 8, 9, 1 << (width - 3), bound - 1, bound, bound + 1, most];
    let mut requests = Vec::new();
    for y in divisors {
        let double = y.wrapping_mul(2) & most;
        let around = [0, 1, y.wrapping_sub(1) & most, y, double.wrapping_sub(1) & most];
        for x in around.into_iter().chain([double, double.wrapping_add(1) & most, most]) {
            for shift in [0, 1, 4096, 4097, u32::MAX] {
                requests.push(vec![Field::Word(x), Field::Unsigned(shift), Field::Word(y)]);
            }
        }
    }
    requests
}

/// Every operation number of interest with every pair of lengths that tells
/// the refusals apart; the places run through the classes.
fn lists(format: Format, random: &mut Random) -> Vec<Vec<Field>> {
    let mut requests = Vec::new();
    let mut class = 0;
    for number in [0, 1, 2, 3, 4, u32::MAX] {
        for length in 0..13usize {
            for other in [length, length + 1, length.saturating_sub(1), 12 - length] {
                let input = (0..length).map(|_| {
                    class += 1;
                    of_class(format, class, random)
                });
                let input = Field::Words(input.collect());
                let output = Field::Words((0..other).map(|_| random.word()).collect());
                requests.push(vec![Field::Unsigned(number), input, output]);
            }
        }
    }
    requests
}

/// The few requests of a name with an attribute or flags that every run has.
pub fn small_grid(operation: &Operation) -> Vec<Vec<Field>> {
    let format = operation.format;
    let (one, infinity) = (format.one(), format.infinity());
    let (largest, half) = (format.largest_finite(), one - format.smallest_normal());
    let minus = |magnitude: u64| magnitude | format.sign_bit();
    let (quiet, signalling) = (minus(format.canonical_nan() | 1), infinity + 1);
    let single = [0, minus(0), infinity, minus(infinity), quiet, signalling, minus(one)];
    let word = |x: u64| vec![Field::Word(x)];
    let scaled = |(x, n): (u64, i32)| vec![Field::Word(x), Field::Signed(n)];
    match operation.task {
        Task::Sqrt => single.into_iter().chain([one + 1, largest, 1]).map(word).collect(),
        Task::Scalbn => {
            let over = [(largest, 1), (minus(largest), i32::MAX)];
            let under = [(1, -1), (minus(1), -1), (one, i32::MIN)];
            // Half a smallest unit below the least normal number.
            let (ones, bias) = (one | (format.smallest_normal() - 1), format.bias() as i32);
            let tiny = [(ones, -bias), (minus(ones), -bias)];
            let first = single.into_iter().map(|x| (x, 1));
            first.chain(over).chain(under).chain(tiny).map(scaled).collect()
        }
        Task::Fma => {
            let triples = small_triples(format).into_iter().chain(turning_triples(format));
            triples.map(|triple| triple.map(Field::Word).to_vec()).collect()
        }
        _ => single.into_iter().chain([half, minus(half), minus(one + 1)]).map(word).collect(),
    }
}

fn small_triples(format: Format) -> [[u64; 3]; 12] {
    let (one, infinity, quiet) = (format.one(), format.infinity(), format.canonical_nan());
    let (largest, half) = (format.largest_finite(), one - format.smallest_normal());
    let minus = |magnitude: u64| magnitude | format.sign_bit();
    [
        [0, infinity, one],
        [minus(infinity), 0, quiet],
        [infinity, one, minus(infinity)],
        [one, one, infinity + 1],
        [quiet, minus(one), infinity],
        [one, one, minus(one)],
        [minus(0), one, 0],
        [minus(one), 0, minus(0)],
        [largest, one, largest],
        [largest, minus(largest), one],
        [1, half, 0],
        [minus(1), half, minus(0)],
    ]
}

/// Where tininess, overflow and the answer turn under one attribute or other:
/// eighths of the smallest unit below the least normal number, and of the gap
/// above the largest.
fn turning_triples(format: Format) -> Vec<[u64; 3]> {
    let digits = format.fraction_bits as i32;
    let gap = placed(format, false, 1, highest(format) - digits);
    let eighth = |number| placed(format, false, number, -3);
    let below = [1, 2, 3, 4].map(|k| [1 | format.sign_bit(), eighth(k), format.smallest_normal()]);
    let above = [3, 4, 8].map(|k| [gap, eighth(k), format.largest_finite()]);
    let triples = below.into_iter().chain(above);
    let flip = format.sign_bit();
    triples.flat_map(|[x, y, z]| [[x, y, z], [x ^ flip, y, z ^ flip]]).collect()
}
