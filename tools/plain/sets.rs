// The sets of names that are drawn by kinds and have a record of their own.

use crate::forms::{flagged, of_numerals};
use crate::operations::Operation;

/// A name whose lines are wanted, and the attribute where that is a number.
pub type Choice = (&'static Operation, Option<u32>);

/// The names of one set that there is a record of.
#[derive(Clone, Copy, PartialEq, Eq)]
pub enum Set {
    Flags,
    Numerals,
}

impl Set {
    pub fn holds(self, operation: &Operation) -> bool {
        match self {
            Set::Flags => operation.tells_flags(),
            Set::Numerals => operation.is_of_numerals(),
        }
    }

    /// Those that are wanted, none with a number of its own.
    pub fn choices(self, of: impl Fn(&Operation) -> bool) -> Vec<Choice> {
        let names: Vec<_> = match self {
            Set::Flags => flagged().collect(),
            Set::Numerals => of_numerals().collect(),
        };
        names.into_iter().filter(|one| of(one)).map(|one| (one, None)).collect()
    }

    pub fn option(self) -> &'static str {
        match self {
            Set::Flags => "--flags",
            Set::Numerals => "--numerals",
        }
    }

    pub fn about(self) -> &'static str {
        match self {
            Set::Flags => "for each name whose answer has flags a small grid",
            Set::Numerals => {
                "for each name of numerals a grid (of the reader where an attribute turns and, \
                 without one, each rule of the grammar broken at several places and 63 to 66 \
                 bytes; of the writer rooms that just fit and a byte less)"
            }
        }
    }
}
