//! The kinds of list calls: which operation, and how long the lists are. Each reason for a refusal comes alone and with
//! every other, and both sides of each limit come.

use crate::lists::LONGEST;
use crate::random::Random;

/// What a call is like: the number of the operation, and the lengths of the input and of the output.
#[derive(Clone, Copy, Debug, PartialEq, Eq)]
pub struct Shape {
    pub number: u32,
    pub lengths: [usize; 2],
}

/// One kind of calls: its name, and how the next of them is drawn.
pub struct ListDraw {
    pub kind: &'static str,
    /// The turn counts the calls of the kind.
    pub make: fn(u64, &mut Random) -> Shape,
}

const fn draw(kind: &'static str, make: fn(u64, &mut Random) -> Shape) -> ListDraw {
    ListDraw { kind, make }
}

pub static FOR_LISTS: [ListDraw; 13] = [
    draw("every length", |turn, random| alike(named(random), turn as usize % (LONGEST + 1))),
    draw("lengths about the limit", |turn, random| {
        alike(named(random), LONGEST - 2 + turn as usize % 5)
    }),
    draw("lengths about a power of two", |turn, random| {
        alike(named(random), (1 << (turn / 3 % 14)) + turn as usize % 3 - 1)
    }),
    draw("any length", |_, random| alike(named(random), any_length(random))),
    draw("no place, or one", |turn, random| alike(named(random), turn as usize % 2)),
    draw("unlike by one place", |_, random| unlike(named(random), by_one(random))),
    draw("unlike lengths", |turn, random| unlike(named(random), any_two(turn, random))),
    draw("too long", |turn, random| alike(named(random), too_long(turn, random))),
    draw("too long, unlike", |turn, random| unlike(named(random), one_too_long(turn, random))),
    draw("no operation", |turn, random| alike(unnamed(turn, random), any_length(random))),
    draw("no operation, too long", |turn, random| {
        alike(unnamed(turn, random), too_long(turn, random))
    }),
    draw("no operation, unlike", |turn, random| {
        unlike(unnamed(turn, random), any_two(turn, random))
    }),
    draw("no operation, too long, unlike", |turn, random| {
        unlike(unnamed(turn, random), one_too_long(turn, random))
    }),
];

fn alike(number: u32, length: usize) -> Shape {
    Shape { number, lengths: [length, length] }
}
fn unlike(number: u32, lengths: [usize; 2]) -> Shape {
    Shape { number, lengths }
}

fn named(random: &mut Random) -> u32 {
    1 + random.below(3) as u32
}

/// A number of no operation: beside those that there are, or any other.
fn unnamed(turn: u64, random: &mut Random) -> u32 {
    let any = 4 + random.below(u64::from(u32::MAX) - 3) as u32;
    [0, 4, u32::MAX, any, 5, 1 << 31, 1 << 8 | 1, 1 << 16 | 2][(turn % 8) as usize]
}

fn any_length(random: &mut Random) -> usize {
    random.below(LONGEST as u64 + 1) as usize
}

/// A length past the limit: next to it, about another that may be one, or any.
fn too_long(turn: u64, random: &mut Random) -> usize {
    let any = LONGEST + 1 + random.below(LONGEST as u64) as usize;
    [LONGEST + 1, any, LONGEST + 2, 1 << 14, 1 << 16, (1 << 16) + 1][(turn % 6) as usize]
}

fn in_any_order([one, other]: [usize; 2], random: &mut Random) -> [usize; 2] {
    if random.coin() { [one, other] } else { [other, one] }
}

fn by_one(random: &mut Random) -> [usize; 2] {
    let longest = random.pick(&[1, 2, 9, 64, LONGEST]);
    let length = random.below(longest as u64) as usize;
    in_any_order([length, length + 1], random)
}

/// Two lengths, neither past the limit, and one of them now and then nothing or all that there may be.
fn any_two(turn: u64, random: &mut Random) -> [usize; 2] {
    let one = [any_length(random), 0, LONGEST][(turn % 3) as usize];
    let other = any_length(random);
    let other = if other == one { (one + 1) % (LONGEST + 1) } else { other };
    in_any_order([one, other], random)
}

/// One list past the limit or both, and never as long as each other.
fn one_too_long(turn: u64, random: &mut Random) -> [usize; 2] {
    let long = too_long(turn, random);
    let other = match turn % 3 {
        0 => long + 1 + random.below(9) as usize,
        1 => LONGEST,
        _ => any_length(random),
    };
    in_any_order([long, other], random)
}

#[cfg(test)]
mod tests {
    use super::*;
    use crate::answers::list;
    use crate::lists::refusal;
    use std::collections::BTreeSet;

    fn shapes(kind: &str, count: u64) -> Vec<Shape> {
        let mut random = Random::new(1, 1);
        let make = FOR_LISTS.iter().find(|one| one.kind == kind).expect("a kind of the list").make;
        (0..count).map(|turn| make(turn, &mut random)).collect()
    }
    /// The reasons that hold for a call, each by its number.
    fn reasons(Shape { number, lengths: [input, output] }: Shape) -> Vec<u32> {
        let held = [!(1..=3).contains(&number), input.max(output) > 8192, input != output];
        (1..).zip(held).filter(|(_, held)| *held).map(|(number, _)| number).collect()
    }

    #[test]
    fn the_plain_program_refuses_alike() {
        for ListDraw { kind, .. } in &FOR_LISTS {
            for shape in shapes(kind, 40) {
                let [input, output] = shape.lengths.map(|length| vec![0; length]);
                assert_eq!(refusal(shape), list(shape.number, &input, &output).0, "{kind}");
            }
        }
    }
    #[test]
    fn each_kind_has_its_reasons_and_every_set_of_reasons_its_kind() {
        let with = |kind, reasons_held: &[u32]| {
            let held = shapes(kind, 200).into_iter().map(reasons);
            held.for_each(|held| assert_eq!(held, reasons_held, "{kind}"));
        };
        with("every length", &[]);
        with("any length", &[]);
        with("no place, or one", &[]);
        with("no operation", &[1]);
        with("too long", &[2]);
        with("unlike by one place", &[3]);
        with("unlike lengths", &[3]);
        with("no operation, too long", &[1, 2]);
        with("no operation, unlike", &[1, 3]);
        with("too long, unlike", &[2, 3]);
        with("no operation, too long, unlike", &[1, 2, 3]);
    }
    #[test]
    fn both_sides_of_the_limit_and_every_length_are_met() {
        let met = |kind, count| -> BTreeSet<(usize, u32)> {
            let shape = |shape: Shape| (shape.lengths[0], refusal(shape));
            shapes(kind, count).into_iter().map(shape).collect()
        };
        let about = met("lengths about the limit", 5);
        assert!(about.into_iter().eq([(8190, 0), (8191, 0), (8192, 0), (8193, 2), (8194, 2)]));
        assert!(met("every length", 8193).into_iter().eq((0..=8192).map(|length| (length, 0))));
        let powers = met("lengths about a power of two", 42);
        assert!([0, 1, 2, 3, 5, 4095, 4097, 8192].iter().all(|one| powers.contains(&(*one, 0))));
    }
    #[test]
    fn each_operation_comes_with_every_kind_that_names_one() {
        for ListDraw { kind, .. } in
            FOR_LISTS.iter().filter(|one| !one.kind.starts_with("no operation"))
        {
            let numbers: BTreeSet<u32> = shapes(kind, 40).iter().map(|one| one.number).collect();
            assert!(numbers.into_iter().eq(1..=3), "{kind}");
        }
    }
}
