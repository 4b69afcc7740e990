// The tokens of a Rattle source, and what stands between a clause's braces, which is no Rattle.

#[derive(Clone, Copy, PartialEq, Debug)]
pub enum Kind {
    Name,
    Number,
    Text,
    Sign,
}

#[derive(Clone, Debug)]
pub struct Token {
    pub kind: Kind,
    pub text: String,
    pub start: usize,
    pub end: usize,
}

const LONG_SIGNS: [&str; 23] = [
    "<<=", ">>=", "..=", "::", "->", "=>", "==", "!=", "<=", ">=", "&&", "||", "<<", ">>", "+=",
    "-=", "*=", "/=", "%=", "&=", "|=", "^=", "..",
];

// The words after which braces hold terms of the logic.
const CLAUSES: [&str; 4] = ["requires", "ensures", "ghost", "invariant"];

pub fn tokens(source: &str) -> Vec<Token> {
    let mut found = Vec::new();
    let mut at = 0;
    while at < source.len() {
        let rest = &source[at..];
        let (kind, size) = match next(rest) {
            Some(seen) => seen,
            None => {
                at += passed_over(rest);
                continue;
            }
        };
        let text = rest[..size].to_string();
        let is_clause = CLAUSES.contains(&text.as_str());
        found.push(Token {
            kind,
            text,
            start: at,
            end: at + size,
        });
        at += size;
        if is_clause {
            at += clause(&source[at..]);
        }
    }
    found
}

// How long a blank or a comment is.
fn passed_over(rest: &str) -> usize {
    if rest.starts_with("//") {
        return rest.find('\n').unwrap_or(rest.len());
    }
    rest.chars().next().map_or(1, char::len_utf8)
}

// How much of the text up to and with a clause's closing brace is no token of Rattle; nothing where no brace follows. A clause may have a name before it.
fn clause(rest: &str) -> usize {
    let named = rest.trim_start();
    let name = span(named, |c| c.is_alphanumeric() || c == '_');
    if !named[name..].trim_start().starts_with('{') {
        return 0;
    }
    let mut depth = 0;
    for (i, c) in rest.char_indices() {
        match c {
            '{' => depth += 1,
            '}' => depth -= 1,
            _ => continue,
        }
        if depth == 0 {
            return i + 1;
        }
    }
    rest.len()
}

fn next(rest: &str) -> Option<(Kind, usize)> {
    let c = rest.chars().next()?;
    if c.is_whitespace() || rest.starts_with("//") {
        return None;
    }
    if let Some(size) = text(rest) {
        return Some((Kind::Text, size));
    }
    if c.is_ascii_digit() {
        return Some((
            Kind::Number,
            span(rest, |c| c.is_ascii_alphanumeric() || c == '_'),
        ));
    }
    if c.is_alphabetic() || c == '_' {
        return Some((Kind::Name, span(rest, |c| c.is_alphanumeric() || c == '_')));
    }
    for sign in LONG_SIGNS {
        if rest.starts_with(sign) {
            return Some((Kind::Sign, sign.len()));
        }
    }
    Some((Kind::Sign, c.len_utf8()))
}

fn span(rest: &str, holds: impl Fn(char) -> bool) -> usize {
    rest.find(|c| !holds(c)).unwrap_or(rest.len())
}

// A string, a byte string, a byte or a character. A quote that begins a lifetime has none after its name.
fn text(rest: &str) -> Option<usize> {
    let open = if rest.starts_with('b') { 1 } else { 0 };
    let quote = rest[open..].chars().next()?;
    if quote != '"' && quote != '\'' {
        return None;
    }
    let is_character = |c: char| c == '\\' || rest[1 + c.len_utf8()..].starts_with('\'');
    if quote == '\'' && open == 0 && !rest[1..].chars().next().is_some_and(is_character) {
        return None;
    }
    let mut is_escaped = false;
    for (i, c) in rest.char_indices().skip(open + 1) {
        if c == quote && !is_escaped {
            return Some(i + 1);
        }
        is_escaped = c == '\\' && !is_escaped;
    }
    None
}
