//! Each wrong answer under an attribute in a run of its own, which must find it, and the exact answers, in which a run finds
//! nothing.

use crate::faults_flags::{RIGHT, run};
use crate::forms::of_stem;
use crate::operations::{self, Operation};
use crate::request::{Answer, Request};
use crate::rounded::under_attributes;
use crate::table::{self, Row};
use crate::wrong_attributes::{Case, WRONG};

/// The rows of an operation: under each attribute, and by numbers.
fn rows(stem: &str) -> impl Iterator<Item = &'static Row> + '_ {
    of_stem(stem).filter_map(|form| table::find(form.name))
}

#[test]
fn each_wrong_answer_is_found_in_every_operation_that_can_have_it() {
    let mut tried = 0;
    for fault in &WRONG {
        for stem in fault.operations {
            let operation = operations::find(stem).unwrap();
            let spoil = |_: &Operation, request: &Request, answer: &mut Answer| {
                (fault.spoil)(&Case { operation, request }, answer)
            };
            let found: u64 = rows(stem).map(|row| run(row, 3000, &spoil, RIGHT).unexplained).sum();
            assert!(found > 0, "{stem}: {}", fault.name);
            tried += 1;
        }
    }
    assert_eq!(tried, 13 * 6 + 11 * 4 + 8 * 2);
}
#[test]
fn nothing_is_found_in_the_exact_answers_and_every_place_is_met() {
    for row in under_attributes() {
        let tally = run(row, 20_000, RIGHT, RIGHT);
        assert!(tally.is_clean(), "{}: {:?}", row.name, tally.unmet);
    }
}
#[test]
fn our_call_without_an_attribute_is_held_to_nearest_even() {
    for row in under_attributes() {
        let wrong = run(row, 2000, RIGHT, &|_, _, answer| answer.number ^= 32);
        assert_eq!(wrong.unexplained, if row.name.ends_with(".even") { 2000 } else { 0 }, "{}", row.name);
    }
}
