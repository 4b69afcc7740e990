//! Patterns written wrongly, in one way each: an exact answer and the output after it, changed where the fault strikes. A run
//! must find every one of them, in a program and in an archive.

use crate::format::Format;

/// A pattern, and what the room held before.
pub struct Writing<'a> {
    pub format: Format,
    pub x: u64,
    pub room: &'a [u8],
}

/// What a call answers, and what the room holds after.
#[derive(Clone, Debug, PartialEq, Eq)]
pub struct Written {
    pub refused: u32,
    pub length: u32,
    pub output: Vec<u8>,
}

pub struct WrongWrite {
    pub name: &'static str,
    /// Changes an exact answer where the fault strikes; the text is the right one.
    pub spoil: fn(&Writing, &str, &mut Written),
}

const fn wrong(name: &'static str, spoil: fn(&Writing, &str, &mut Written)) -> WrongWrite {
    WrongWrite { name, spoil }
}

impl Writing<'_> {
    /// The answer for a text.
    pub fn of(&self, text: &str) -> Written {
        let mut output = self.room.to_vec();
        match output.get_mut(..text.len()) {
            None => Written { refused: 8, length: 0, output },
            Some(place) => {
                place.copy_from_slice(text.as_bytes());
                Written { refused: 0, length: text.len() as u32, output }
            }
        }
    }
    fn is_subnormal(&self) -> bool {
        (1..self.format.smallest_normal()).contains(&self.format.magnitude(self.x))
    }
    fn is_number(&self) -> bool {
        self.format.is_finite(self.x) && !self.format.is_zero(self.x)
    }
}

pub static WRONG: [WrongWrite; 25] = [
    // 8: no room
    wrong("a-byte-too-few-is-enough", |w, text, a| {
        if w.room.len() + 1 == text.len() {
            *a = w.of(&text[..text.len() - 1]);
        }
    }),
    wrong("enough-room-refused", |w, text, a| {
        if w.room.len() == text.len() {
            *a = Written { refused: 8, length: 0, output: w.room.to_vec() };
        }
    }),
    wrong("room-for-the-longest-asked-for", |w, _, a| {
        if w.room.len() < 24 {
            *a = Written { refused: 8, length: 0, output: w.room.to_vec() };
        }
    }),
    wrong("output-touched-where-refused", |w, text, a| {
        if a.refused == 8 {
            a.output.copy_from_slice(&text.as_bytes()[..w.room.len()]);
        }
    }),
    wrong("length-given-where-refused", |_, text, a| a.length = text.len() as u32),
    wrong("another-refusal", |_, _, a| a.refused = if a.refused == 8 { 3 } else { 0 }),
    wrong("no-room-is-done", |w, _, a| {
        if w.room.is_empty() {
            a.refused = 0;
        }
    }),
    // bytes past the text
    wrong("zero-byte-after-the-text", |_, text, a| {
        if let (0, Some(byte)) = (a.refused, a.output.get_mut(text.len())) {
            *byte = 0;
        }
    }),
    wrong("room-filled-with-blanks", |_, text, a| {
        if a.refused == 0 {
            a.output[text.len()..].fill(b' ');
        }
    }),
    wrong("length-one-more", |_, _, a| a.length += u32::from(a.refused == 0)),
    // texts that are read back as another number, or as none
    wrong("last-digit-lost", |w, text, a| of_changed(w, a, text, |digits| digits[..digits.len().saturating_sub(1)].to_string())),
    wrong("last-digit-rounded", |w, text, a| {
        of_changed(w, a, text, |digits| if digits.len() == 13 { format!("{}8", &digits[..12]) } else { digits.to_string() })
    }),
    wrong("digits-not-from-the-left", |w, text, a| {
        if w.is_number() && w.format.fraction_bits % 4 != 0 {
            let digits = format!("{:06x}", w.format.fraction_field(w.x));
            of_changed(w, a, text, |_| digits.trim_end_matches('0').to_string());
        }
    }),
    wrong("zeros-before-the-digits-lost", |w, text, a| of_changed(w, a, text, |digits| digits.trim_start_matches('0').to_string())),
    wrong("subnormal-with-a-one", |w, text, a| {
        if w.is_subnormal() {
            *a = w.of(&text.replacen("0x0", "0x1", 1));
        }
    }),
    wrong("subnormal-exponent-one-off", |w, text, a| {
        if w.is_subnormal() {
            *a = w.of(&text.replace("p-1022", "p-1023").replace("p-126", "p-127"));
        }
    }),
    wrong("sign-of-zero-lost", |w, text, a| {
        if w.format.is_zero(w.x) {
            *a = w.of(text.trim_start_matches('-'));
        }
    }),
    wrong("sign-of-infinity-lost", |w, text, a| {
        if w.format.is_infinite(w.x) {
            *a = w.of(text.trim_start_matches('-'));
        }
    }),
    wrong("nan-with-its-sign", |w, text, a| {
        if w.format.is_nan(w.x) && w.format.is_negative(w.x) {
            *a = w.of(&format!("-{text}"));
        }
    }),
    wrong("nan-with-its-digits", |w, _, a| {
        if w.format.is_nan(w.x) {
            *a = w.of(&format!("nan(0x{:x})", w.format.fraction_field(w.x)));
        }
    }),
    wrong("sign-of-the-exponent-lost", |w, text, a| *a = w.of(&text.replace("p-", "p+"))),
    // texts that are read back as they must be, and are not the ones
    wrong("zeros-kept-behind-the-digits", |w, text, a| {
        if w.is_number() {
            let digits = w.format.fraction_bits.div_ceil(4) as usize;
            of_changed(w, a, text, |kept| format!("{kept:0<digits$}"));
        }
    }),
    wrong("point-without-digits", |w, text, a| {
        if !text.contains('.') {
            *a = w.of(&text.replace('p', ".p"));
        }
    }),
    wrong("exponent-of-two-digits-at-least", |w, text, a| {
        if text.len() > 2 && text.as_bytes()[text.len() - 2] == b'+' {
            *a = w.of(&text.replace("p+", "p+0"));
        }
    }),
    wrong("plus-of-the-exponent-left-out", |w, text, a| *a = w.of(&text.replace("p+", "p"))),
];

/// The digits behind the point made into others.
fn of_changed(writing: &Writing, answer: &mut Written, text: &str, change: impl Fn(&str) -> String) {
    let Some((before, power)) = text.split_once('p') else { return };
    let (whole, digits) = before.split_once('.').unwrap_or((before, ""));
    let digits = change(digits);
    let point = if digits.is_empty() { "" } else { "." };
    *answer = writing.of(&format!("{whole}{point}{digits}p{power}"));
}
