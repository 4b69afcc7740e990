// The line format of docs/LINES.md: reading and writing.

use crate::format::Format;
use crate::forms::{expected_names, find_form};
use crate::operations::{find, Field, Flags, Form, Kind, Operation, FLAGS};

/// The arrow between a request and what is claimed of it: the first one, and so
/// no text holds it.
const ARROW: &[u8] = b" -> ";

/// One request, as it is written too, with what stands after the arrow if the
/// line has one. That is read only when it is asked for: who answers requests
/// ignores claims.
pub struct Line<'a> {
    pub operation: &'static Operation,
    pub operands: Vec<Field>,
    pub request: &'a [u8],
    pub claim: Option<&'a [u8]>,
}

impl Line<'_> {
    /// The fields claimed, or what was expected in their place.
    pub fn read_claim(&self) -> Result<Vec<Field>, String> {
        let operation = self.operation;
        match self.claim {
            Some(claim) => {
                let text = String::from_utf8_lossy(claim);
                read_fields(operation, "answer", operation.answer_kinds(), &text)
            }
            // A question passed over in silence would look like a checked claim.
            None => {
                let (name, shape) = (operation.name, operation.shape);
                Err(format!("no claim to check; expected {name} {shape}"))
            }
        }
    }
}

/// Nothing for an empty line or a comment; the error says what was expected.
pub fn read_line(line: &[u8]) -> Result<Option<Line<'_>>, String> {
    if line.is_empty() || line.starts_with(b"#") {
        return Ok(None);
    }
    let (request, claim) = match line.windows(ARROW.len()).position(|part| part == ARROW) {
        Some(place) => (&line[..place], Some(&line[place + ARROW.len()..])),
        None => (line, None),
    };
    let blank = request.iter().position(|byte| *byte == b' ');
    let name = String::from_utf8_lossy(&request[..blank.unwrap_or(request.len())]);
    let unknown = || format!("no operation {}; expected {}", quoted(&name), expected_names(&name));
    let (operation, attribute) = find_named(&name).ok_or_else(unknown)?;
    let mut operands = read_operands(operation, blank.map(|place| &request[place + 1..]))?;
    if let Some(number) = attribute {
        operands.insert(0, Field::Unsigned(number));
    }
    Ok(Some(Line { operation, operands, request, claim }))
}

/// The operands from what stands after the name and a blank.
fn read_operands(operation: &Operation, rest: Option<&[u8]>) -> Result<Vec<Field>, String> {
    match (operation.operand_kinds(), rest) {
        ([Kind::Text], Some(text)) => Ok(vec![Field::Text(text.to_vec())]),
        ([Kind::Text], None) => {
            let (name, shape) = (operation.name, operation.shape);
            Err(format!("no blank after the name; expected {name} {shape}, TEXT may be empty"))
        }
        (kinds, rest) => {
            let text = String::from_utf8_lossy(rest.unwrap_or(b""));
            read_fields(operation, "operand", kinds, &text)
        }
    }
}

/// The operation of a name, and the attribute where that is a number.
pub fn find_named(name: &str) -> Option<(&'static Operation, Option<u32>)> {
    find(name).map(|plain| (plain, None)).or_else(|| find_form(name))
}

fn read_fields(
    operation: &Operation,
    what: &str,
    kinds: &[Kind],
    text: &str,
) -> Result<Vec<Field>, String> {
    let shape = || format!("expected {} {}", operation.name, operation.shape);
    let tokens: Vec<&str> = match text {
        "" => Vec::new(),
        _ => text.split(' ').collect(),
    };
    if tokens.iter().any(|token| token.is_empty()) {
        let shape = shape();
        return Err(format!("a blank too many near the {what}; {shape}, single blanks between"));
    }
    let may_lack = kinds.contains(&Kind::Written) as usize;
    if tokens.len() > kinds.len() || tokens.len() + may_lack < kinds.len() {
        let (found, wanted, shape) = (tokens.len(), kinds.len(), shape());
        return Err(format!("number of {what} fields is {found}, not {wanted}; {shape}"));
    }
    // Room for the number of an attribute, which comes before the operands.
    let mut fields = Vec::with_capacity(kinds.len() + 1);
    for (place, (kind, token)) in kinds.iter().zip(&tokens).enumerate() {
        let field = read_field(*kind, operation.format, token).ok_or_else(|| {
            let wanted = describe(*kind, operation.format);
            format!("{what} field {} is {}; expected {wanted}", place + 1, quoted(token))
        })?;
        fields.push(field);
    }
    Ok(fields)
}

fn read_field(kind: Kind, format: Format, token: &str) -> Option<Field> {
    match kind {
        Kind::Word => read_word(format, token).map(Field::Word),
        // Writing the number back shows whether it was written the one way.
        Kind::Signed => {
            let number: i32 = token.parse().ok()?;
            (number.to_string() == token).then_some(Field::Signed(number))
        }
        Kind::Unsigned => {
            let number: u32 = token.parse().ok()?;
            (number.to_string() == token).then_some(Field::Unsigned(number))
        }
        Kind::Words if token == "-" => Some(Field::Words(Vec::new())),
        Kind::Words => {
            let words: Option<Vec<u64>> =
                token.split(',').map(|word| read_word(format, word)).collect();
            words.map(Field::Words)
        }
        Kind::Flags => read_flags(token).map(Field::Flags),
        Kind::Text | Kind::Written => Some(Field::Text(token.as_bytes().to_vec())),
    }
}

fn read_word(format: Format, token: &str) -> Option<u64> {
    let digit = |byte| matches!(byte, b'0'..=b'9' | b'a'..=b'f');
    if token.len() != format.width as usize / 4 || !token.bytes().all(digit) {
        return None;
    }
    u64::from_str_radix(token, 16).ok()
}

/// The flags of words that stand once and in their order.
fn read_flags(token: &str) -> Option<Flags> {
    if token == "OK" {
        return Some(Flags::NONE);
    }
    let (mut raised, mut next) = (Flags::NONE, 0);
    for part in token.split('+') {
        let place = next + FLAGS[next..].iter().position(|(_, word)| *word == part)?;
        raised = raised.and(FLAGS[place].0);
        next = place + 1;
    }
    Some(raised)
}

fn describe(kind: Kind, format: Format) -> String {
    let digits = format.width / 4;
    match kind {
        Kind::Word => format!("{digits} lower-case hex digits"),
        Kind::Signed => "a decimal number from -2147483648 to 2147483647".to_string(),
        Kind::Unsigned => "a decimal number from 0 to 4294967295".to_string(),
        Kind::Words => format!("words of {digits} lower-case hex digits joined by commas, or -"),
        Kind::Flags => {
            let words = FLAGS.map(|(_, word)| word).join(", ");
            format!("OK or words of {words} joined by +")
        }
        Kind::Text | Kind::Written => "a text".to_string(),
    }
}

/// A token as an error message shows it, cut where a list would fill the screen.
fn quoted(token: &str) -> String {
    match token.char_indices().nth(60) {
        Some((end, _)) => format!("\"{}...\"", &token[..end]),
        None => format!("\"{token}\""),
    }
}

/// The request again, with its name as it was written. Bytes of a text that are
/// no characters are shown as ones that stand for them.
pub fn write_request(operation: &Operation, operands: &[Field]) -> String {
    let mut text = String::with_capacity(72);
    match (operation.form, operands) {
        (Form::Numbered, [Field::Unsigned(number), rest @ ..]) => {
            text.push_str(&format!("{}.{number}", operation.stem()));
            push_fields(&mut text, operation, " ", rest);
        }
        _ => {
            text.push_str(operation.name);
            push_fields(&mut text, operation, " ", operands);
        }
    }
    text
}

pub fn write_fields(operation: &Operation, fields: &[Field]) -> String {
    let mut text = String::with_capacity(72);
    push_fields(&mut text, operation, "", fields);
    text
}

/// The fields with single blanks between, and `before` in front.
fn push_fields(text: &mut String, operation: &Operation, before: &str, fields: &[Field]) {
    for (place, field) in fields.iter().enumerate() {
        text.push_str(if place == 0 { before } else { " " });
        push_field(text, operation.format, field);
    }
}

fn push_field(text: &mut String, format: Format, field: &Field) {
    match field {
        Field::Word(word) => push_word(text, format, *word),
        Field::Signed(number) => text.push_str(&number.to_string()),
        Field::Unsigned(number) => text.push_str(&number.to_string()),
        Field::Words(words) if words.is_empty() => text.push('-'),
        Field::Words(words) => {
            for (place, word) in words.iter().enumerate() {
                text.push_str(if place == 0 { "" } else { "," });
                push_word(text, format, *word);
            }
        }
        Field::Flags(flags) => push_flags(text, *flags),
        Field::Text(bytes) => text.push_str(&String::from_utf8_lossy(bytes)),
    }
}

fn push_word(text: &mut String, format: Format, word: u64) {
    for place in (0..format.width / 4).rev() {
        text.push(b"0123456789abcdef"[(word >> (4 * place) & 15) as usize] as char);
    }
}

pub fn push_flags(text: &mut String, flags: Flags) {
    if flags == Flags::NONE {
        text.push_str("OK");
    }
    let mut before = "";
    for (_, word) in FLAGS.iter().filter(|(flag, _)| flags.has(*flag)) {
        text.push_str(before);
        text.push_str(word);
        before = "+";
    }
}
