//! The differences from libm that are known: which operands, and the entry of docs/DIFFERENCES.md that explains them.

use crate::format::{Format, WIDTH_64};
use crate::halves::is_power_below_one;
use crate::known::{at_the_fault, is_lost, is_rounded_twice};
use crate::operations::Operation;
use crate::plain::below;
use crate::random::Random;
use crate::request::flags::{INEXACT, INVALID, OVERFLOW, UNDERFLOW};
use crate::request::{Answer, Request};
use crate::table::{Row, Status};

pub struct Kind {
    /// The entry's name in docs/DIFFERENCES.md.
    pub entry: &'static str,
    /// The operations as docs/LINES.md names them.
    pub operations: &'static [&'static str],
    /// Operands that are of the kind. They stand at the head of a run, so that a short one meets it.
    pub first: fn(Format) -> Request,
    pub other: Other,
}

/// What the other side says on operands of a kind, of which the exact answer is known.
pub enum Other {
    /// Now and then another value; and where it takes the result for exact, no status.
    AnotherValue(fn(&Request) -> bool),
    /// Always this status, in place of the flags that the judge raises.
    Status(u32, fn(&Case) -> bool),
}

/// Operands and their exact answer.
pub struct Case<'a> {
    pub operation: &'a Operation,
    pub request: &'a Request,
    pub exact: &'a Answer,
}

impl Case<'_> {
    fn raises(&self, flags: u32) -> bool {
        self.exact.number == i64::from(flags)
    }
    /// Where libm's fma at 64 has a status: a sum of finite numbers, none of them zero, that is inexact and of magnitude
    /// from half the least normal number up to it, before it is rounded.
    fn is_in_the_last_subnormal_binade(&self) -> bool {
        let f = WIDTH_64;
        let least = f.smallest_normal();
        let usual = |x: &u64| f.is_finite(*x) && !f.is_zero(*x);
        self.operation.format == f
            && (least / 2..=least).contains(&f.magnitude(self.exact.word))
            && self.request.words.iter().all(usual)
            && self.exact.number != 0
            && (least / 2..least).contains(&below(self.operation, self.request))
    }
}

const ROOTS: &[&str] = &["sqrt64", "sqrt32"];
const WHOLES: &[&str] = &["trunc64", "trunc32", "floor64", "floor32", "ceil64", "ceil32"];
const FUSED: &[&str] = &["fma64", "fma32"];

pub static KINDS: [Kind; 12] = [
    Kind {
        entry: "fma64-lost-bits",
        operations: &["fma64"],
        first: |f| at_the_fault(f, 0, &mut Random::new(1, 1)),
        other: Other::AnotherValue(is_lost),
    },
    Kind {
        entry: "fma32-rounded-twice",
        operations: &["fma32"],
        first: |f| at_the_fault(f, 0, &mut Random::new(1, 1)),
        other: Other::AnotherValue(is_rounded_twice),
    },
    Kind {
        entry: "half-says-ok",
        operations: WHOLES,
        first: |f| Request::word(f.one() - f.smallest_normal()),
        other: Other::Status(0, |case| {
            is_power_below_one(case.operation.format, case.request.x())
        }),
    },
    Kind {
        entry: "signalling-says-ok",
        operations: WHOLES,
        first: |f| Request::word(f.infinity() + 1),
        other: Other::Status(0, |case| case.raises(INVALID)),
    },
    Kind {
        entry: "inexact-root",
        operations: ROOTS,
        first: |f| Request::word(f.one() + f.smallest_normal()),
        other: Other::Status(0, |case| case.raises(INEXACT)),
    },
    Kind {
        entry: "quiet-nan-root",
        operations: ROOTS,
        first: |f| Request::word(f.canonical_nan()),
        other: Other::Status(INVALID, |case| {
            case.raises(0) && case.operation.format.is_nan(case.request.x())
        }),
    },
    Kind {
        entry: "fma-invalid-says-ok",
        operations: FUSED,
        first: |f| Request::three_words([0, f.infinity(), f.one()]),
        other: Other::Status(0, |case| case.raises(INVALID)),
    },
    Kind {
        entry: "fma-overflow-says-ok",
        operations: FUSED,
        first: |f| Request::three_words([f.largest_finite(), f.largest_finite(), f.one()]),
        other: Other::Status(0, |case| case.raises(OVERFLOW | INEXACT)),
    },
    // Before the two that say OK: the first that holds decides.
    Kind {
        entry: "fma-underflow-alone",
        operations: &["fma64"],
        first: |f| Request::three_words([f.smallest_normal() + 1, f.one() - f.smallest_normal(), 1]),
        other: Other::Status(UNDERFLOW, |case| {
            case.raises(UNDERFLOW | INEXACT) && case.is_in_the_last_subnormal_binade()
        }),
    },
    Kind {
        entry: "fma-tiny-before-rounding",
        operations: &["fma64"],
        // An eighth of the smallest unit is taken off the least normal number.
        first: |f| {
            let eighth = f.one() - 3 * f.smallest_normal();
            Request::three_words([f.sign_bit() | 1, eighth, f.smallest_normal()])
        },
        other: Other::Status(UNDERFLOW, |case| {
            case.raises(INEXACT) && case.is_in_the_last_subnormal_binade()
        }),
    },
    Kind {
        entry: "fma-underflow-says-ok",
        operations: FUSED,
        first: |f| Request::three_words([1, f.one() - f.smallest_normal(), 0]),
        other: Other::Status(0, |case| case.raises(UNDERFLOW | INEXACT)),
    },
    Kind {
        entry: "fma-inexact-says-ok",
        operations: FUSED,
        first: |f| Request::three_words([f.one() + 1, f.one() + 1, f.one()]),
        other: Other::Status(0, |case| case.raises(INEXACT)),
    },
];

/// Whether what stands beside the other side's value is compared: of libm's statuses the text must be the one that is known.
pub fn compares_status(row: &Row) -> bool {
    match row.status {
        Status::Nothing => false,
        Status::Libms => oracle::api::STATUSES,
        Status::Flags => true,
    }
}

/// The known differences that a run of a row can meet: one in statuses only where these are compared.
pub fn known_of(row: &Row) -> Vec<&'static Kind> {
    let is_seen =
        |kind: &Kind| matches!(kind.other, Other::AnotherValue(_)) || compares_status(row);
    KINDS.iter().filter(|kind| kind.operations.contains(&row.name) && is_seen(kind)).collect()
}

/// The place in the list of the kind whose values the operands may have, if there is one.
pub fn in_values(known: &[&'static Kind], request: &Request) -> Option<usize> {
    known.iter().position(|kind| matches!(kind.other, Other::AnotherValue(holds) if holds(request)))
}

/// The status that libm must give, and the place of the kind that says so where it is not the flags of the exact answer.
pub fn in_status(known: &[&'static Kind], case: &Case) -> (i64, Option<usize>) {
    let of = |(place, kind): (usize, &&'static Kind)| match kind.other {
        Other::Status(says, holds) if holds(case) => Some((says.into(), Some(place))),
        _ => None,
    };
    known.iter().enumerate().find_map(of).unwrap_or((case.exact.number, None))
}

/// A kind whose operation no entry names would explain by nothing. The entries are the rows of the table in the file.
pub fn check_entries(kinds: &[Kind]) -> Result<(), String> {
    let text = include_str!("../../docs/DIFFERENCES.md");
    let named = kinds.iter().flat_map(|kind| kind.operations.iter().map(|name| (kind.entry, name)));
    for (entry, operation) in named {
        let start = format!("| [{entry}](#{entry}) | ");
        let bare = operation.trim_end_matches(|one: char| one.is_ascii_digit());
        let names =
            |row: &str| row.split('|').next().is_some_and(|operations| operations.contains(bare));
        if !text.lines().filter_map(|line| line.strip_prefix(&start)).any(names) {
            return Err(format!("docs/DIFFERENCES.md has no entry {entry} for {bare}"));
        }
    }
    Ok(())
}

#[cfg(test)]
mod tests {
    use super::*;
    use crate::plain::exact;
    use crate::run::operation_of;
    use crate::table::{find, plain_rows};

    fn entries(name: &str) -> Vec<&'static str> {
        known_of(find(name).unwrap()).iter().map(|kind| kind.entry).collect()
    }

    #[test]
    fn a_kind_needs_its_entry_and_the_entry_its_operations() {
        let kind = |entry, operations| {
            [Kind { entry, operations, first: |_| Request::word(0), other: Other::Status(0, |_| true) }]
        };
        assert!(check_entries(&kind("fma64-lost-bits", &["fma64"])).is_ok());
        assert!(check_entries(&kind("fma64-lost-bits", &["fma64", "trunc64"])).is_err());
        assert!(check_entries(&kind("made-up", &["fma64"])).is_err());
    }
    #[test]
    fn the_first_operands_of_a_kind_are_of_it() {
        for row in plain_rows() {
            let (known, operation) = (known_of(row), operation_of(row));
            for (place, kind) in known.iter().enumerate() {
                let request = (kind.first)(operation.format);
                let answer = exact(operation, &request);
                let case = Case { operation, request: &request, exact: &answer };
                let met = match kind.other {
                    Other::AnotherValue(_) => in_values(&known, &request),
                    Other::Status(..) => in_status(&known, &case).1,
                };
                assert_eq!(met, Some(place), "{} {}", row.name, kind.entry);
            }
        }
    }
    #[test]
    fn each_operation_has_its_own() {
        assert!(entries("scalbn64").is_empty() && entries("remquo64").is_empty());
        let status = oracle::api::STATUSES;
        assert_eq!(entries("sqrt32") == ["inexact-root", "quiet-nan-root"], status);
        for name in WHOLES {
            assert_eq!(entries(name) == ["half-says-ok", "signalling-says-ok"], status);
        }
        assert_eq!(entries("fma32").len(), if status { 5 } else { 1 });
        assert_eq!(entries("fma64").len(), if status { 7 } else { 1 });
        assert!(!entries("fma32").contains(&"fma-underflow-alone"));
    }
    #[test]
    fn a_status_of_no_kind_is_that_of_the_exact_answer() {
        let row = find("trunc64").unwrap();
        let operation = operation_of(row);
        let said = |x: u64| {
            let request = Request::word(x);
            let answer = exact(operation, &request);
            in_status(&known_of(row), &Case { operation, request: &request, exact: &answer }).0
        };
        let ok = if oracle::api::STATUSES { 0 } else { 32 };
        assert_eq!(said(0x3fe0000000000000), ok);
        assert_eq!(said(0x3fe8000000000000), 32);
        assert_eq!(said(0x3ff0000000000000), 0);
        assert_eq!(said(0x7ff8000000000000), 0);
    }
}
