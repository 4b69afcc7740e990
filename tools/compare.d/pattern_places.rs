//! Where the patterns of a writer lie: of which class they are, and how long their texts are.

use crate::format::Format;
use crate::part_places::{LEADING, leading};
use crate::plain::text_of;
use std::sync::OnceLock;

/// The length of the longest text there is, at 64 bits.
const LONGEST: usize = 24;

/// The classes, then the lengths.
pub fn names() -> &'static [&'static str] {
    static NAMES: OnceLock<Vec<&'static str>> = OnceLock::new();
    NAMES.get_or_init(|| {
        let length = |bytes: usize| -> &'static str { String::leak(format!("a text of {bytes} bytes")) };
        LEADING.iter().copied().chain((0..=LONGEST).map(length)).collect()
    })
}

pub fn places_met(format: Format, x: u64, length: usize) -> [usize; 2] {
    [leading(format, x) as usize, LEADING.len() + length.min(LONGEST)]
}

/// Whether a run must meet a place: every class, and every length that a text of the format may have.
pub fn is_asked(format: Format, place: usize) -> bool {
    let minus_least = text_of(format, format.sign_bit() | format.smallest_normal() | (format.smallest_normal() - 1));
    let longest = minus_least.len();
    match place.checked_sub(LEADING.len()) {
        None => true,
        Some(length) => matches!(length, 3 | 4) || (6..=longest).contains(&length),
    }
}

#[cfg(test)]
mod tests {
    use super::*;
    use crate::format::{WIDTH_32, WIDTH_64};

    #[test]
    fn lengths_are_asked_for_up_to_the_longest() {
        let asked = |format| (0..=LONGEST).filter(|length| is_asked(format, LEADING.len() + length)).max();
        assert_eq!((asked(WIDTH_64), asked(WIDTH_32)), (Some(24), Some(16)));
        assert_eq!(names()[places_met(WIDTH_64, 0, 6)[1]], "a text of 6 bytes");
    }
}
