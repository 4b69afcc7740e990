// The type of an expression, as far as signatures, structs and casts tell it. What is not told is no fault: a mutant that does not compile is thrown away.

use crate::sources::plain;
use crate::tree::{Form, Parser};

const WHOLE: [&str; 12] = [
    "u8", "u16", "u32", "u64", "u128", "usize", "i8", "i16", "i32", "i64", "i128", "isize",
];

pub fn is_whole(ty: &str) -> bool {
    WHOLE.contains(&ty)
}

pub fn of(p: &Parser, id: usize) -> Option<String> {
    let node = &p.nodes[id];
    let kid = |i: usize| node.kids.get(i).and_then(|k| p.nodes[*k].ty.clone());
    match node.form {
        Form::Truth => Some("bool".to_string()),
        Form::Text if node.word.starts_with("b'") => Some("u8".to_string()),
        Form::Path => path(p, id),
        Form::Call => call(p, id),
        Form::Method => method(p, id),
        Form::Field => field(p, &kid(0)?, &node.word),
        Form::Index => element(&kid(0)?),
        Form::Unary if node.word == "&" => Some(format!("&{}", kid(0)?)),
        Form::Unary if node.word == "*" => kid(0).map(|t| t.trim_start_matches('&').to_string()),
        Form::Unary => kid(0),
        Form::Binary => match node.word.as_str() {
            "==" | "!=" | "<" | ">" | "<=" | ">=" | "&&" | "||" => Some("bool".to_string()),
            "<<" | ">>" => kid(0),
            _ => kid(0).or_else(|| kid(1)),
        },
        Form::Cast | Form::Struct => Some(node.word.rsplit("::").next()?.to_string()),
        Form::Block if node.has_value => kid(node.kids.len() - 1),
        Form::If | Form::Match => kid(1),
        Form::Other if node.word == "(" && node.kids.len() == 1 => kid(0),
        _ => None,
    }
}

fn path(p: &Parser, id: usize) -> Option<String> {
    let node = &p.nodes[id];
    let local = node.scope.iter().rev().find(|(n, _)| *n == node.word);
    if let Some((_, ty)) = local {
        return ty.clone();
    }
    let mut parts = node.word.rsplit("::");
    let name = parts.next()?;
    let holder = parts.next().unwrap_or("");
    let variants = p.all.enums.get(holder);
    if variants.is_some_and(|all| all.iter().any(|v| v == name)) {
        return Some(holder.to_string());
    }
    p.all.constants.get(name).map(|c| c.0.clone())
}

fn call(p: &Parser, id: usize) -> Option<String> {
    let node = &p.nodes[id];
    let whole = &p.nodes[*node.kids.first()?].word;
    let name = whole.rsplit("::").next()?;
    if name == "leading_zeros" || name == "trailing_zeros" {
        return Some("u32".to_string());
    }
    if let Some(last) = name
        .rsplit('_')
        .next()
        .filter(|l| whole.starts_with("std::") && is_whole(l))
    {
        return Some(last.to_string());
    }
    result(p, name, node.kids.len() - 1)
}

// What a whole number's own methods give, or those of the sources.
fn method(p: &Parser, id: usize) -> Option<String> {
    let node = &p.nodes[id];
    let own = p.nodes[*node.kids.first()?].ty.clone();
    match node.word.as_str() {
        "len" => Some("usize".to_string()),
        "leading_zeros" | "trailing_zeros" | "count_ones" => Some("u32".to_string()),
        "min" | "max" | "clamp" | "abs" | "pow" => own,
        word if ["wrapping_", "saturating_", "rotate_"]
            .iter()
            .any(|w| word.starts_with(w)) =>
        {
            own
        }
        word if word.starts_with("is_") => Some("bool".to_string()),
        word => result(p, word, node.kids.len()),
    }
}

// Where all functions of the name, with so many parameters, give the same.
fn result(p: &Parser, name: &str, params: usize) -> Option<String> {
    let like = p.all.signatures.get(name)?;
    let mut results = like.iter().filter(|s| s.0.len() == params).map(|s| &s.1);
    let first = results.next()?;
    results.all(|r| r == first).then(|| first.clone())
}

// A parameter of a generic struct is what stands in its place.
fn field(p: &Parser, ty: &str, name: &str) -> Option<String> {
    let fields = p.all.structs.get(bare(ty))?;
    let of = fields.iter().find(|f| f.0 == name)?.1.clone();
    let params = p.all.generics.get(bare(ty))?;
    let Some(at) = params.iter().position(|n| *n == of) else {
        return Some(of);
    };
    let inner = ty.split_once('<')?.1.strip_suffix('>')?;
    Some(inner.split(',').nth(at)?.to_string())
}

// The name of a type without what stands before it, a reference or a module, and without its arguments.
pub fn bare(ty: &str) -> &str {
    plain(ty.trim_start_matches('&').trim_start_matches("mut "))
}

fn element(ty: &str) -> Option<String> {
    let inner = ty
        .trim_start_matches('&')
        .trim_start_matches("mut")
        .trim_start()
        .strip_prefix('[')?;
    Some(inner.split([';', ']']).next()?.to_string())
}
