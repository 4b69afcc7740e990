// Texts that every run has: each rule of the grammar broken at several places, lengths about the limit, and where an attribute turns.

use crate::big::Big;
use crate::draws_numerals::hex_digits;
use crate::format::Format;
use crate::numerals::written;
use crate::operations::{Field, Form, Operation, Task};

/// The requests of a name of numerals that every run has.
pub fn grid(operation: &Operation) -> Vec<Vec<Field>> {
    let format = operation.format;
    let text = |text: String| vec![Field::Text(text.into_bytes())];
    match (operation.task, operation.form) {
        (Task::Write, _) => writings(format),
        (_, Form::Plain) => {
            let texts = spelt_wrong().into_iter().chain(lengths()).chain(turns(format));
            texts.map(text).collect()
        }
        _ => turns(format).into_iter().map(text).collect(),
    }
}

/// A numeral with each part, of which one is taken out or a character put in.
const WHOLE: &str = "-0x1a.8p+12";

const TEXTS: [&str; 56] = [
    "", "-", "+", "0", "0x", "0x.", "0xp0", "0x.p0", "-0xp0", "p0", ".p0", "x1p0", "1p0", ".8p0",
    "1.5", "15", "1e5", "0x1", "0x1.8", "0x1p", "0x1p+", "0x1p-", "0x1p+-1", "0x1p000000",
    "0x1p123456", "0x1p+000001", "0x1p00000", "0x1p99999", "0x1p-99999", "0X1p0", "0x1P0", "0xAp0",
    "0x1..p0", "0x1.0.p0", "0x1p0.", "0x1p0.5", "0x1p0p0", "0x0x1p0", "00x1p0", "0b1p0", "++0x1p0",
    "--0x1p0", "+-0x1p0", "0x-1p0", "0x1p0f", "0x1p0l", "0x1pa", "0x1,8p0", "0x1'0p0", "0x1p0\t",
    "\t0x1p0", "0x1\rp0", "0x1p0\u{1}", "0x\u{ff11}p0", "\u{2212}0x1p0", "\u{feff}0x1p0",
];

/// The last two are misread by glibc 2.36, the first at 64 bits and the second at
/// 32 (docs/RUNS.md).
const RIGHT: [&str; 23] = [
    WHOLE, "+0x1a.8p+12", "0x1a.8p12", "0x1a.p-12", "0x.8p+12", "0x0.8p12", "0x1p0", "0x1p-0",
    "0x1p+00000", "0x0p0", "-0x0p0", "+0x0.p-99999", "-0x.0p99999", "0x9p9", "0xfp1", "0xa.fp0",
    "0x00000001p0", "0x1.00000000p0", "inf", "-inf", "nan", "0x1.ffffffffffffd8p-1023",
    "0x1.fffffbp-127",
];

const WRONG_WORDS: [&str; 14] = [
    "+inf", "-nan", "+nan", "infinity", "in", "na", "INF", "NaN", "inf ", " inf", "-inf0", "--inf",
    "nan()", "infp0",
];

fn spelt_wrong() -> Vec<String> {
    let whole = TEXTS.into_iter().chain(RIGHT).chain(WRONG_WORDS).map(str::to_string);
    let mut texts: Vec<String> = whole.collect();
    for place in 0..WHOLE.len() {
        texts.push(format!("{}{}", &WHOLE[..place], &WHOLE[place + 1..]));
    }
    for put in [" ", ".", "-", "p"] {
        let places = 0..=WHOLE.len();
        texts.extend(places.map(|place| format!("{}{put}{}", &WHOLE[..place], &WHOLE[place..])));
    }
    texts
}

/// 63 to 66 bytes: zeros before the digits, behind them before the point, and
/// behind the point, and bytes that are no numeral.
fn lengths() -> Vec<String> {
    let filled = |length: usize, start: &str, fill: &str, end: &str| {
        format!("{start}{}{end}", fill.repeat(length - start.len() - end.len()))
    };
    let each = |length: usize| {
        [
            filled(length, "-0x", "0", "1.8p-1"),
            filled(length, "0x1", "0", ".p-200"),
            filled(length, "+0x.", "0", "1p+00220"),
            filled(length, "0x1.8", "0", "p+00001"),
            filled(length, "0x1.", "f", "p0"),
            filled(length, "0x1p", "0", "1"),
        ]
    };
    (63..=66).flat_map(each).collect()
}

/// A digit so far below that no format has it.
const FAR: u32 = 100;

/// Magnitudes where one attribute or other turns, on them and to either side,
/// each with either sign.
fn turns(format: Format) -> Vec<String> {
    let (digits, bias) = (format.fraction_bits, format.bias() as i64);
    let (unit, gap) = (-(format.unit_shift() as i64), bias - digits as i64);
    let full = 1u64 << (digits + 1);
    // In quarters of a gap, of a smallest unit, and of a place of 1.
    let above = [4 * full - 4, 4 * full - 3, 4 * full - 2, 4 * full];
    let least = [2 * full - 4, 2 * full - 2, 2 * full - 1, 2 * full];
    let mut exact: Vec<(Big, i64)> = Vec::new();
    exact.extend(above.map(|quarters| (Big::from(quarters), gap - 2)));
    exact.extend(least.map(|quarters| (Big::from(quarters), unit - 2)));
    exact.extend([1, 2, 3, 4, 6].map(|quarters| (Big::from(quarters), unit - 2)));
    exact.extend([2, 6].map(|more| (Big::from(2 * full + more), -2 - digits as i64)));
    let beside = [(4 * full - 2, gap - 2), (2, unit - 2), (2 * full + 2, -2 - digits as i64)];
    for (number, exponent) in beside {
        let (far, one) = (Big::from(number).shl(FAR), Big::from(1));
        exact.extend([far.sub(&one), far.add(&one)].map(|one| (one, exponent - FAR as i64)));
    }
    exact.extend([99999, -99999].map(|exponent| (Big::from(1), exponent)));
    let signed = |(number, exponent): &(Big, i64)| {
        let text = format!("0x{}p{exponent}", hex_digits(number));
        [text.clone(), format!("-{text}")]
    };
    exact.iter().flat_map(signed).collect()
}

/// Patterns of every kind with either sign, in a room that their text just fits,
/// and in one that is a byte too small.
fn writings(format: Format) -> Vec<Vec<Field>> {
    let (least, infinity, one) = (format.smallest_normal(), format.infinity(), format.one());
    let (nan, half) = (format.canonical_nan(), format.smallest_normal() >> 1);
    let magnitudes = [
        0, 1, 2, half, least - 1, least, least + 1, one - 1, one, one + 1, one | half, infinity - 1,
        infinity, infinity + 1, nan, nan + 1, format.sign_bit() - 1,
    ];
    let mut requests = Vec::new();
    for magnitude in magnitudes {
        for x in [magnitude, magnitude | format.sign_bit()] {
            let length = written(format, x).len() as u32;
            let rooms = [length - 1, length].map(Field::Unsigned);
            requests.extend(rooms.map(|room| vec![Field::Word(x), room]));
        }
    }
    requests
}
