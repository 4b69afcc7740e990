//! The stream of requests of a row: what is known, the plain program's own, and what is drawn, with the number of an attribute
//! where there is one.

use crate::attribute_numbers as numbers;
use crate::attributes::ATTRIBUTES;
use crate::cases::Requests;
use crate::forms::forms;
use crate::kinds::known_of;
use crate::operations::{Form, Operation};
use crate::random::Random;
use crate::request::Request;
use crate::run::operation_of;
use crate::table::Row;

/// The plain program's own draws at the head of a run: exact numbers of thousands of digits take their time.
const MOST_BUILT: u64 = 20_000;

/// The requests, each with its kind: the first operands of each known difference; the plain program's grid in any
/// order, at most half of the count, so that a short run too has all classes; some of its drawn boundary cases, which take
/// longer to make; then the row's own draws. Each comes with the number of the row's attribute, or with one that is drawn.
pub fn requests(row: &Row, seed: u64, count: u64) -> impl Iterator<Item = (usize, Request)> {
    let operation = operation_of(row);
    let (draws, format) = (row.draws, operation.format);
    let kinds = draws.len() as u64;
    let mut random = Random::new(seed, stream(operation));
    let mut built = Requests::new(operation, seed);
    let mut grid: Vec<Request> =
        (0..built.grid_left()).map(|_| Request::of_fields(&built.next())).collect();
    grid.sort_by_cached_key(|_| random.word());
    grid.truncate((count / 2) as usize);
    let boundaries =
        (0..(count / 20).min(MOST_BUILT)).map(move |_| Request::of_fields(&built.next()));
    let drawn = (0..).map(move |turn: u64| {
        let kind = (turn % kinds) as usize;
        (kind + 2, (draws[kind].make)(format, turn / kinds, &mut random))
    });
    let heads = known_of(row).into_iter().map(move |kind| (1, (kind.first)(format)));
    let grid = grid.into_iter().map(|request| (0, request));
    let all = heads.chain(grid).chain(boundaries.map(|request| (1, request))).chain(drawn);
    let mut attribute = attributes(operation, seed);
    all.map(move |(kind, request)| (kind, Request { attribute: attribute(), ..request }))
}

/// Under each attribute the operands are others.
fn stream(operation: &Operation) -> u64 {
    let form = forms().iter().position(|form| form.name == operation.name);
    form.map_or(1000, |form| 2000 + form as u64)
}

/// The number that goes with each request: of the operation's attribute, or any that is drawn; 0 without an attribute.
pub fn attributes(operation: &'static Operation, seed: u64) -> impl FnMut() -> u32 {
    let mut random = Random::new(seed, 3000 + stream(operation));
    move || match operation.form {
        Form::Plain => 0,
        Form::Attribute(attribute) => {
            ATTRIBUTES.iter().position(|(one, _)| *one == attribute).unwrap_or_default() as u32
        }
        Form::Numbered => numbers::drawn(&mut random),
    }
}

#[cfg(test)]
mod tests {
    use super::*;
    use crate::table::rows;

    #[test]
    fn every_row_has_an_operation_and_makes_its_count() {
        for row in rows() {
            assert_eq!(requests(row, 1, 3000).take(3000).count(), 3000);
        }
    }
    #[test]
    fn fields_and_numbers_are_the_same_request() {
        for row in rows() {
            let operation = operation_of(row);
            for (_, request) in requests(row, 1, 2000).take(2000) {
                // An attribute that is named is no field.
                let named = match operation.form {
                    Form::Numbered => 0,
                    _ => request.attribute,
                };
                let mut read = Request::of_fields(&request.fields(operation));
                read.attribute += named;
                assert_eq!(read, request);
            }
        }
    }
    #[test]
    fn under_each_attribute_the_operands_are_others() {
        let drawn = |name| requests(crate::table::find(name).unwrap(), 1, 4000).skip(3000).take(1000);
        let same = drawn("fma64.up").zip(drawn("fma64.down")).filter(|((_, one), (_, other))| one.words == other.words);
        assert!(same.count() < 100);
        assert!(drawn("fma64.up").all(|(_, request)| request.attribute == 3));
        assert!(drawn("fma64").all(|(_, request)| request.attribute == 0));
    }
}
