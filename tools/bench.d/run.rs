//! One run: what is asked for, and the rows that come of it.

use crate::answers::{Answer, Flags};
use crate::measure::{list_pass, pass, turns, Calls, Figures, COUNT};
use crate::random::Random;

/// The attributes, in the order of their numbers.
pub const ATTRIBUTES: [&str; 5] = ["even", "zero", "down", "up", "away"];

/// The kinds of calls, by their names.
const CALLS: [(Calls, &str); 2] = [(Calls::Independent, "independent"), (Calls::Dependent, "dependent")];

pub struct Row {
    pub operation: &'static str,
    pub set: &'static str,
    pub calls: &'static str,
    pub ours: Figures,
    pub theirs: Figures,
}

impl Row {
    /// Of the leasts, ours to libm's.
    pub fn ratio(&self) -> f64 {
        self.ours.least / self.theirs.least
    }
    /// The same as the table and the picture write it.
    pub fn ratio_text(&self) -> String {
        format!("{:.2}", self.ratio())
    }
}

/// An operation under each attribute, in turns with a call without one. Pairs alone go in turns, here as elsewhere: a
/// processor remembers fewer branches of each of several functions.
pub struct RoundedRow {
    pub operation: &'static str,
    pub set: &'static str,
    pub calls: &'static str,
    /// With our call for the value alone, and with another: ours for value and flags or, of a reader, the C library's.
    pub beside_plain: [Pair; ATTRIBUTES.len()],
    pub beside_other: [Pair; ATTRIBUTES.len()],
}

/// The leasts under an attribute and without.
pub struct Pair {
    pub under: f64,
    pub without: f64,
}

pub struct Run {
    pub seed: u64,
    pub passes: usize,
    /// What is asked for, as operation/set.
    pub chosen: Vec<String>,
    /// Whether the operands are to be written, and nothing is measured.
    pub operands_alone: bool,
    /// Where a picture is to be written, if it is, and what stands above it.
    pub picture: Option<String>,
    pub captions: Vec<String>,
    pub operation: &'static str,
    pub requests: String,
    pub rows: Vec<Row>,
    pub rounded: Vec<RoundedRow>,
    /// Beside the C library: numerals, and the readers under attributes.
    pub numerals: Vec<Row>,
    pub rounded_numerals: Vec<RoundedRow>,
    /// Where the two sides do not answer alike.
    pub differences: Vec<String>,
}

impl Run {
    /// One operation on one set, its operands drawn by `draw` and written by `request`.
    pub fn measure<T: Copy, A: Answer>(
        &mut self,
        set: &'static str,
        draw: fn(&mut Random) -> T,
        request: fn(T) -> String,
        ours: impl Fn(T, u64) -> A + Copy,
        theirs: impl Fn(T, u64) -> A + Copy,
    ) {
        let Some(operands) = self.operands_or_lines(set, draw, request) else { return };
        self.compare(set, operands.iter().filter(|&&x| !ours(x, 0).same(theirs(x, 0))).count());
        let rows = self.both(set, &operands, ours, theirs);
        self.rows.extend(rows);
    }

    /// Both sides in turns on these operands, by calls of either kind.
    pub fn both<T: Copy, A: Answer>(
        &self,
        set: &'static str,
        operands: &[T],
        ours: impl Fn(T, u64) -> A + Copy,
        theirs: impl Fn(T, u64) -> A + Copy,
    ) -> [Row; 2] {
        CALLS.map(|(calls, name)| {
            let (ours, theirs) = turns(self.passes, || pass(calls, operands, ours), || pass(calls, operands, theirs));
            Row { operation: self.operation, set, calls: name, ours, theirs }
        })
    }

    /// One operation on one set under each attribute by its number, and without: `plain` gives the value alone.
    pub fn measure_rounded<T: Copy, V: Answer>(
        &mut self,
        set: &'static str,
        draw: fn(&mut Random) -> T,
        request: fn(T) -> String,
        plain: impl Fn(T, u64) -> V + Copy,
        flags: impl Fn(T, u64) -> (V, Flags) + Copy,
        under: impl Fn(u32, T, u64) -> ((u32, V), Flags) + Copy,
    ) {
        let Some(operands) = self.operands_or_lines(set, draw, request) else { return };
        let differs = |x: T| {
            let ((_, value), raised) = under(0, x, 0);
            let refused = (0..ATTRIBUTES.len() as u32).any(|number| under(number, x, 0).0 .0 != 0);
            let (right, right_flags) = flags(x, 0);
            refused || !value.same(right) || !value.same(plain(x, 0)) || raised.0 != right_flags.0
        };
        self.compare(set, operands.iter().filter(|&&x| differs(x)).count());
        let rows = self.under_each(set, &operands, plain, flags, under);
        self.rounded.extend(rows);
    }

    /// Under each attribute in turns with two calls without one, by calls of either kind.
    pub fn under_each<T: Copy, A: Answer, B: Answer, C: Answer>(
        &self,
        set: &'static str,
        operands: &[T],
        plain: impl Fn(T, u64) -> A + Copy,
        other: impl Fn(T, u64) -> B + Copy,
        under: impl Fn(u32, T, u64) -> C + Copy,
    ) -> [RoundedRow; 2] {
        CALLS.map(|(calls, name)| {
            let under = |number: usize| pass(calls, operands, move |x, stir| under(number as u32, x, stir));
            let pair = |number: usize, without: &dyn Fn() -> f64| {
                let (under, without) = turns(self.passes, || under(number), without);
                Pair { under: under.least, without: without.least }
            };
            let beside_plain = std::array::from_fn(|number| pair(number, &|| pass(calls, operands, plain)));
            let beside_other = std::array::from_fn(|number| pair(number, &|| pass(calls, operands, other)));
            RoundedRow { operation: self.operation, set, calls: name, beside_plain, beside_other }
        })
    }

    /// The list call on one set: all of its operands are one list.
    pub fn measure_list(
        &mut self,
        set: &'static str,
        draw: fn(&mut Random) -> (u64,),
        number: u32,
        ours: impl Fn(&[u64], &mut [u64]) + Copy,
        theirs: impl Fn(&[u64], &mut [u64]) + Copy,
    ) {
        let Some(operands) = self.operands(set, draw) else { return };
        let input: Vec<u64> = operands.into_iter().map(|(x,)| x).collect();
        let [mut output, mut other] = [vec![0; COUNT], vec![0; COUNT]];
        if self.operands_alone {
            let written = [&input, &output].map(|list| list.iter().map(|word| format!("{word:016x}")).collect::<Vec<_>>().join(","));
            self.requests += &format!("list64 {number} {}\n", written.join(" "));
            return;
        }
        ours(&input, &mut output);
        theirs(&input, &mut other);
        self.compare(set, output.iter().zip(&other).filter(|(one, other)| !one.same(**other)).count());
        let (ours, theirs) = turns(self.passes, || list_pass(&input, &mut output, ours), || list_pass(&input, &mut other, theirs));
        self.rows.push(Row { operation: self.operation, set, calls: "list", ours, theirs });
    }

    /// A set's operands, if the operation is asked for with this set. They are the same for every operation that takes the
    /// set, asked for alone or with others.
    pub fn operands<T>(&self, set: &str, draw: fn(&mut Random) -> T) -> Option<Vec<T>> {
        let mut random = Random::new(self.seed, stream(set));
        let is_chosen = self.chosen.contains(&format!("{}/{set}", self.operation));
        is_chosen.then(|| (0..COUNT).map(|_| draw(&mut random)).collect())
    }

    /// The same, unless lines of them are asked for, which are then written.
    fn operands_or_lines<T: Copy>(&mut self, set: &str, draw: fn(&mut Random) -> T, request: fn(T) -> String) -> Option<Vec<T>> {
        let operands = self.operands(set, draw)?;
        if self.operands_alone {
            let operation = self.operation.split('_').next().unwrap_or_default();
            self.requests.extend(operands.iter().map(|&operand| format!("{operation} {}\n", request(operand))));
            return None;
        }
        Some(operands)
    }

    pub fn compare(&mut self, set: &str, differing: usize) {
        if differing > 0 {
            self.differences.push(format!("{} on {set}: {differing} of {COUNT}", self.operation));
        }
    }
}

/// Each set has a stream of numbers of its own, made of its name.
fn stream(set: &str) -> u64 {
    set.bytes().fold(0, |sum: u64, byte| sum.wrapping_mul(31).wrapping_add(byte as u64))
}
