//! Each answer with wrong flags, or a wrong value, in a run of its own, which must find it, and the exact answers, in which a
//! run finds nothing.

use crate::kinds::known_of;
use crate::operations::Operation;
use crate::plain::exact;
use crate::request::{Answer, Request};
use crate::rows_with_flags::WITH_FLAGS;
use crate::run::{Run, Spoiled, operation_of};
use crate::settle::Sides;
use crate::stream::requests;
use crate::table::{self, Judge, Row, Status, plain_rows};
use crate::tally::Tally;
use crate::{wrong_flags, wrong_values};

type Spoil<'a> = dyn Fn(&Operation, &Request, &mut Answer) + 'a;

/// A run in which ours gives the exact answers, changed by `ours`, and libm its own, changed by `crates`.
pub fn run(row: &Row, count: usize, ours: &Spoil, crates: &Spoil) -> Tally {
    let run = Run { seed: 1, on: String::new(), build: String::new(), spoiled: Spoiled::Nothing };
    let operation = operation_of(row);
    let mut tally = Tally::of_row(row, String::new(), String::new());
    for (_, request) in requests(row, 1, count as u64).take(count) {
        let right = exact(operation, &request);
        let (mut spoiled, mut other) = (right, row.others(&request));
        ours(operation, &request, &mut spoiled);
        other.iter_mut().for_each(|answer| crates(operation, &request, answer));
        let sides =
            Sides { ours: spoiled, alone: Some(spoiled.word), crates: other, exact: Some(right) };
        run.settle(row, &request, sides, &mut tally);
    }
    tally.look_for_unmet(count as u64);
    tally
}
pub const RIGHT: &Spoil<'static> = &|_, _, _| ();

#[test]
fn what_is_wrong_is_found_in_every_operation_that_can_have_it() {
    let mut tried = 0;
    for fault in wrong_flags::WRONG.iter().chain(&wrong_values::WRONG) {
        for row in fault.operations.iter().filter_map(|name| table::find(name)) {
            let spoil = |operation: &Operation, request: &Request, answer: &mut Answer| {
                (fault.spoil)(operation.format, request, answer)
            };
            let found = run(row, 4000, &spoil, RIGHT).unexplained;
            assert!(found > 0, "{}: {}", row.name, fault.name);
            tried += 1;
        }
    }
    assert_eq!(tried, 6 * 12 + 12 * 2 + 8 * 4 + 2 * 6 + wrong_values::WRONG.len() * 2);
}
#[test]
fn nothing_is_found_in_the_exact_answers_and_every_known_difference_is_met() {
    for row in plain_rows().filter(|row| row.judge == Judge::Plain) {
        let tally = run(row, 30_000, RIGHT, RIGHT);
        assert!(tally.is_clean(), "{}: {:?}", row.name, tally.unmet);
        assert!(tally.explained.iter().all(|count| *count > 0), "{}", row.name);
        assert_eq!(tally.places.iter().sum::<u64>(), 30_000);
    }
}
#[test]
fn the_head_of_a_run_meets_every_known_difference() {
    for row in &WITH_FLAGS {
        let heads = known_of(row).len();
        let tally = run(row, heads, RIGHT, RIGHT);
        assert!(tally.is_clean() && tally.explained.iter().all(|count| *count > 0), "{}", row.name);
    }
}
#[test]
fn a_status_that_libm_does_not_give_there_is_found() {
    for row in WITH_FLAGS.iter().filter(|row| row.status == Status::Libms && oracle::api::STATUSES) {
        // As it would be with libm's text mended: no difference, and that is one from what is known of it.
        let mended = run(row, 3000, RIGHT, &|operation, request, answer| {
            answer.number = exact(operation, request).number
        });
        assert!(mended.unexplained > 0 && !mended.unmet.is_empty(), "{}", row.name);
        for flag in [1, 4, 8, 16, 32] {
            let other = run(row, 3000, RIGHT, &move |_, request, answer| {
                answer.number ^= if request.x() % 7 == 0 { flag } else { 0 }
            });
            assert!(other.unexplained > 0, "{} {flag}", row.name);
        }
    }
}
