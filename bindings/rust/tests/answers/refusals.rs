//! What is refused, by its number, and that a refusal changes nothing.

use std::error::Error;

use paskerotim::*;

const INFINITE: u64 = 0x7ff0000000000000;
const UNTOUCHED: u64 = 0x0123456789abcdef;
const OPERATIONS: [ListOperation; 3] = [
    ListOperation::Sqrt,
    ListOperation::Floor,
    ListOperation::Trunc,
];

/// Makes a list call on lists of these lengths, infinities to be read. It must be refused so and
/// leave the output, or do every place.
fn list_gives(wanted: Result<(), Refusal>, op: u32, read: usize, written: usize) {
    let xs = vec![INFINITE; read];
    let mut ys = vec![UNTOUCHED; written];
    assert_eq!(
        list64_by_number(op, &xs, &mut ys),
        wanted,
        "operation {op}, {read} and {written} places"
    );
    let held = if wanted.is_ok() { INFINITE } else { UNTOUCHED };
    assert!(
        ys.iter().all(|place| *place == held),
        "operation {op}, {read} and {written} places"
    );
    assert!(
        xs.iter().all(|place| *place == INFINITE),
        "operation {op}, {read} and {written} places"
    );
}

#[test]
fn lists_are_done_up_to_the_limit() {
    for op in OPERATIONS.map(ListOperation::number) {
        for places in [0, 1, 2, 8191, 8192] {
            list_gives(Ok(()), op, places, places);
        }
        for (read, written) in [
            (8193, 8193),
            (8193, 8192),
            (8192, 8193),
            (8193, 0),
            (0, 8193),
            (1 << 20, 1),
        ] {
            list_gives(Err(Refusal::ListTooLong), op, read, written);
        }
        for (read, written) in [(1, 0), (0, 1), (3, 2), (2, 3), (8192, 8191), (8191, 8192)] {
            list_gives(Err(Refusal::LengthsDiffer), op, read, written);
        }
    }
    assert_eq!(LIST_LIMIT, 8192);
}

#[test]
fn an_unknown_operation_is_refused_first() {
    for op in [0, 4, 5, 1 << 31, u32::MAX] {
        for (read, written) in [(0, 0), (1, 1), (1, 2), (8193, 8193), (8193, 1)] {
            list_gives(Err(Refusal::UnknownOperation), op, read, written);
        }
    }
}

/// The output is one part of a longer list: its neighbours stay.
#[test]
fn a_list_is_written_within_its_length() {
    for op in OPERATIONS {
        let mut places = [UNTOUCHED; 5];
        assert_eq!(list64(op, &[INFINITE; 3], &mut places[1..4]), Ok(()));
        assert_eq!(places, [UNTOUCHED, INFINITE, INFINITE, INFINITE, UNTOUCHED]);
    }
}

#[test]
fn reductions_are_done_up_to_the_limits() {
    assert_eq!(reduce64(1, 0, DIVISOR_LIMIT64), Ok(1));
    assert_eq!(reduce32(1, 0, DIVISOR_LIMIT32), Ok(1));
    assert_eq!(
        reduce64(1, 0, DIVISOR_LIMIT64 + 1),
        Err(Refusal::OutOfRange)
    );
    assert_eq!(
        reduce32(1, 0, DIVISOR_LIMIT32 + 1),
        Err(Refusal::OutOfRange)
    );
    assert_eq!(reduce64(0, SHIFT_LIMIT, 3), Ok(0));
    assert_eq!(reduce32(0, SHIFT_LIMIT, 3), Ok(0));
    assert_eq!(reduce64(0, SHIFT_LIMIT + 1, 3), Err(Refusal::ShiftTooGreat));
    assert_eq!(reduce32(0, SHIFT_LIMIT + 1, 3), Err(Refusal::ShiftTooGreat));
    assert_eq!(
        (DIVISOR_LIMIT64, DIVISOR_LIMIT32, SHIFT_LIMIT),
        (0x3fffffffffffffff, 0x3fffffff, 4096)
    );
}

#[test]
fn refusals_have_their_numbers() {
    let refusals = [
        (
            1,
            Refusal::UnknownOperation,
            "refusal 1: the operation is not 1 sqrt, 2 floor or 3 trunc",
        ),
        (
            2,
            Refusal::ListTooLong,
            "refusal 2: a list is longer than 8192 places",
        ),
        (
            3,
            Refusal::LengthsDiffer,
            "refusal 3: the two lists have not the same length",
        ),
        (
            4,
            Refusal::OutOfRange,
            "refusal 4: y is above its limit, or x is not below 2y",
        ),
        (
            5,
            Refusal::ShiftTooGreat,
            "refusal 5: the shift is above 4096",
        ),
        (
            6,
            Refusal::TextTooLong,
            "refusal 6: the text is longer than 64 bytes",
        ),
        (
            7,
            Refusal::NotANumeral,
            "refusal 7: the text is no hexadecimal numeral",
        ),
        (
            8,
            Refusal::RoomTooSmall,
            "refusal 8: the output holds fewer bytes than the text needs",
        ),
    ];
    for (number, refusal, text) in refusals {
        assert_eq!(
            (refusal.number(), Refusal::from_number(number)),
            (number, Some(refusal))
        );
        let error: Box<dyn Error> = Box::new(refusal);
        assert_eq!(error.to_string(), text);
    }
    for number in [0, 9, 10, u32::MAX] {
        assert_eq!(Refusal::from_number(number), None);
    }
    assert_eq!(OPERATIONS.map(ListOperation::number), [1, 2, 3]);
}
