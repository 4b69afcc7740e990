//! The operations under an attribute: for each a row by the name of every attribute, and one, NUMBER, by numbers, of which
//! most are no attribute's.

use crate::attributes::Attribute;
use crate::forms::of_stem;
use crate::operations::{Form, Operation};
use crate::quick::Draw;
use crate::request::{Answer, Beside, Request};
use crate::rows_with_flags::WITH_FLAGS;
use crate::table::{Judge, Nans, Other, Row, STALE, Status};
use crate::turns::{OF_FUSED, OF_ROOTS, OF_SCALED};
use std::sync::OnceLock;

/// How ours is called with the number of an attribute, and the kinds of operands that it is given beside those of the row
/// without an attribute.
struct Rounded {
    stem: &'static str,
    turns: &'static [Draw],
    ours: fn(&Request) -> Answer,
}

extern "C" {
    fn pk_sqrt64_rounded(attribute: u32, x: u64, value: *mut u64, flags: *mut u32) -> u32;
    fn pk_sqrt32_rounded(attribute: u32, x: u32, value: *mut u32, flags: *mut u32) -> u32;
    fn pk_fma64_rounded(attribute: u32, x: u64, y: u64, z: u64, value: *mut u64, flags: *mut u32) -> u32;
    fn pk_fma32_rounded(attribute: u32, x: u32, y: u32, z: u32, value: *mut u32, flags: *mut u32) -> u32;
    fn pk_scalbn64_rounded(attribute: u32, x: u64, n: i32, value: *mut u64, flags: *mut u32) -> u32;
    fn pk_scalbn32_rounded(attribute: u32, x: u32, n: i32, value: *mut u32, flags: *mut u32) -> u32;
}

/// Both places hold what is no answer before the call.
fn written<W: From<u32> + Into<u64>>(call: impl FnOnce(&mut W, &mut u32) -> u32) -> Answer {
    let (mut value, mut flags) = (W::from(STALE), STALE);
    let refused = call(&mut value, &mut flags);
    Answer { refused, ..Answer::flags(value.into(), flags) }
}

// As those of the table, each takes numbers, writes the two places that are lent to it, and touches nothing else.
static ROUNDED: [Rounded; 6] = [
    Rounded {
        stem: "scalbn64",
        turns: &OF_SCALED,
        ours: |r| written(|value, flags| unsafe { pk_scalbn64_rounded(r.attribute, r.x(), r.n(), value, flags) }),
    },
    Rounded {
        stem: "scalbn32",
        turns: &OF_SCALED,
        ours: |r| written(|value, flags| unsafe { pk_scalbn32_rounded(r.attribute, r.x32(), r.n(), value, flags) }),
    },
    Rounded {
        stem: "sqrt64",
        turns: &OF_ROOTS,
        ours: |r| written(|value, flags| unsafe { pk_sqrt64_rounded(r.attribute, r.x(), value, flags) }),
    },
    Rounded {
        stem: "sqrt32",
        turns: &OF_ROOTS,
        ours: |r| written(|value, flags| unsafe { pk_sqrt32_rounded(r.attribute, r.x32(), value, flags) }),
    },
    Rounded {
        stem: "fma64",
        turns: &OF_FUSED,
        ours: |r| written(|value, flags| unsafe { pk_fma64_rounded(r.attribute, r.x(), r.y(), r.z(), value, flags) }),
    },
    Rounded {
        stem: "fma32",
        turns: &OF_FUSED,
        ours: |r| written(|value, flags| unsafe { pk_fma32_rounded(r.attribute, r.x32(), r.y32(), r.z32(), value, flags) }),
    },
];

pub fn under_attributes() -> &'static [Row] {
    static UNDER: OnceLock<Vec<Row>> = OnceLock::new();
    UNDER.get_or_init(|| {
        let forms = |rounded: &'static Rounded| of_stem(rounded.stem).map(move |form| row(rounded, form));
        ROUNDED.iter().flat_map(forms).collect()
    })
}

/// To nearest even our call without an attribute stands beside. libm has nothing to compare with.
fn row(rounded: &Rounded, form: &'static Operation) -> Row {
    let plain = WITH_FLAGS.iter().find(|row| row.name == rounded.stem).expect("it has a row without an attribute");
    let is_even = form.form == Form::Attribute(Attribute::Even);
    Row {
        name: form.name,
        nans: Nans::BitForBit,
        judge: Judge::Plain,
        beside: Beside::RefusalAndFlags,
        status: Status::Flags,
        draws: [plain.draws, rounded.turns].concat().leak(),
        ours: rounded.ours,
        alone: None,
        crates: is_even.then_some(Other { who: "the call without an attribute", answer: plain.ours }),
    }
}
