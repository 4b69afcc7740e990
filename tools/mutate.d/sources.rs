// The crates' sources: crates.txt, the files, and in them the functions, with what is known of signatures, structs and constants.

use crate::tokens::{tokens, Token};
use std::collections::BTreeMap;
use std::fs;
use std::path::{Path, PathBuf};

// A function with a body: its whole name, and where its parts stand in its file.
#[derive(Clone)]
pub struct Function {
    pub name: String,
    pub krate: String,
    pub file: usize,
    pub params: Vec<(String, String)>,
    pub result: String,
    // the tokens from the brace that opens the body up to the one that closes it
    pub body: (usize, usize),
}

pub struct Source {
    // below the repository's root
    pub path: String,
    pub text: String,
    pub tokens: Vec<Token>,
}

#[derive(Default)]
pub struct Sources {
    pub files: Vec<Source>,
    pub functions: Vec<Function>,
    // by the last part of the name; crates may have several of one name
    pub signatures: BTreeMap<String, Vec<(Vec<String>, String)>>,
    pub structs: BTreeMap<String, Vec<(String, String)>>,
    // the parameters of a generic struct
    pub generics: BTreeMap<String, Vec<String>>,
    // the variants that hold nothing
    pub enums: BTreeMap<String, Vec<String>>,
    // the type and the module
    pub constants: BTreeMap<String, (String, String)>,
    // in the order of crates.txt, each with what it rests on
    pub crates: Vec<(String, Vec<String>)>,
}

pub fn read(root: &Path) -> Result<Sources, String> {
    let mut all = Sources {
        crates: crates(root)?,
        ..Sources::default()
    };
    for (krate, _) in all.crates.clone() {
        let base = root.join("crates").join(&krate).join("src");
        let mut paths = Vec::new();
        below(&base, &mut paths).map_err(|e| format!("{}: {e}", base.display()))?;
        paths.sort();
        let mut files = Vec::new();
        for path in paths {
            let module = module_of(&krate, path.strip_prefix(&base).unwrap_or(&path));
            let text = fs::read_to_string(&path).map_err(|e| format!("{}: {e}", path.display()))?;
            let tokens = tokens(&text);
            let path = path.strip_prefix(root).unwrap_or(&path);
            let path = path.display().to_string();
            files.push((module, Source { path, text, tokens }));
        }
        let homes = homes(&files);
        for (module, source) in files {
            all.files.push(source);
            items(&mut all, &krate, &module, &homes)?;
        }
    }
    Ok(all)
}

// The module of each type.
fn homes(files: &[(String, Source)]) -> BTreeMap<String, String> {
    let mut found = BTreeMap::new();
    for (module, source) in files {
        for pair in source.tokens.windows(2) {
            if matches!(pair[0].text.as_str(), "struct" | "enum") {
                found.insert(pair[1].text.clone(), module.clone());
            }
        }
    }
    found
}

fn crates(root: &Path) -> Result<Vec<(String, Vec<String>)>, String> {
    let text =
        fs::read_to_string(root.join("crates.txt")).map_err(|e| format!("crates.txt: {e}"))?;
    let lines = text.lines().map(|l| l.split('#').next().unwrap_or(""));
    let pairs = lines.filter_map(|l| l.split_once(':'));
    Ok(pairs
        .map(|(n, d)| {
            (
                // of a static library `NAME staticlib`
                n.split_whitespace().next().unwrap_or("").to_string(),
                d.split_whitespace().map(str::to_string).collect(),
            )
        })
        .collect())
}

fn below(folder: &Path, paths: &mut Vec<PathBuf>) -> std::io::Result<()> {
    for entry in fs::read_dir(folder)? {
        let path = entry?.path();
        if path.is_dir() {
            below(&path, paths)?;
        } else if path.extension().is_some_and(|e| e == "rt") {
            paths.push(path);
        }
    }
    Ok(())
}

// a/b.rt is krate::a::b; lib.rt and main.rt are the crate, and mod.rt is its folder.
fn module_of(krate: &str, path: &Path) -> String {
    let mut parts = vec![krate.to_string()];
    for part in path.with_extension("").components() {
        parts.push(part.as_os_str().to_string_lossy().to_string());
    }
    let last = parts.last().map_or("", String::as_str);
    if last == "mod" || (parts.len() == 2 && (last == "lib" || last == "main")) {
        parts.pop();
    }
    parts.join("::")
}

// The items of the last file.
fn items(
    all: &mut Sources,
    krate: &str,
    module: &str,
    homes: &BTreeMap<String, String>,
) -> Result<(), String> {
    let file = all.files.len() - 1;
    let tokens = all.files[file].tokens.clone();
    let find = |from: usize, text: &str| (from..tokens.len()).find(|i| tokens[*i].text == text);
    let is_at = |at: usize, text: &str| tokens.get(at).is_some_and(|t| t.text == text);
    // the type or the trait whose methods these are, what `self` is there, and where they end
    let mut holder = (String::new(), String::new(), 0);
    let mut at = 0;
    while at < tokens.len() {
        let name = tokens.get(at + 1).map_or("", |t| &t.text).to_string();
        let after = past_generics(&tokens, at + 2);
        match tokens[at].text.as_str() {
            "impl" => {
                let head = past_generics(&tokens, at + 1);
                let open = find(head, "{").unwrap_or(head);
                let (place, own) = holder_of(&tokens[head..open], module, homes);
                holder = (place, own, closing(&tokens, open));
                at = open;
            }
            "trait" => {
                let open = find(after, "{").unwrap_or(after);
                let place = format!("{module}::{name}");
                holder = (place, "Self".to_string(), closing(&tokens, open));
                at = open;
            }
            "fn" => {
                let bad = || format!("{module}: the function {name} is not understood");
                let seen = signature(&tokens, after).ok_or_else(bad)?;
                let is_held = at < holder.2;
                let place = if is_held { &holder.0 } else { module };
                at = seen.body.1;
                add(
                    all,
                    krate,
                    (place, &holder.1),
                    &name,
                    Function { file, ..seen },
                );
            }
            "struct" if is_at(after, "{") => {
                let end = closing(&tokens, after);
                let params = split(&tokens[(at + 3).min(after)..after.max(at + 3) - 1]);
                let params = params.iter().filter_map(|p| p.first());
                let params = params.map(|t| t.text.clone()).collect();
                all.generics.insert(name.clone(), params);
                all.structs.insert(name, typed(&tokens[after + 1..end]));
                at = end;
            }
            "enum" if is_at(after, "{") => {
                let end = closing(&tokens, after);
                let variants = split(&tokens[after + 1..end]);
                let bare = variants.iter().filter(|v| v.len() == 1);
                all.enums
                    .insert(name, bare.map(|v| v[0].text.clone()).collect());
                at = end;
            }
            "const" if is_at(at + 2, ":") => {
                let end = find(at, "=").unwrap_or(at + 3);
                let ty = joined(&tokens[at + 3..end]);
                all.constants.insert(name, (ty, module.to_string()));
                at = find(end, ";").unwrap_or(end);
            }
            _ => {}
        }
        at += 1;
    }
    Ok(())
}

// What stands before the methods' names, as the prover has it, and the type: MODULE::TYPE by the type's module, or of an impl of a trait MODULE::TYPETRAIT by its own.
fn holder_of(head: &[Token], module: &str, homes: &BTreeMap<String, String>) -> (String, String) {
    let end = head.iter().position(|t| t.text == "where");
    let head = &head[..end.unwrap_or(head.len())];
    match head.iter().position(|t| t.text == "for") {
        Some(at) => {
            let own = joined(&head[at + 1..]);
            let name = format!(
                "{}{}",
                run_on(plain(&own)),
                run_on(last(&joined(&head[..at])))
            );
            (format!("{module}::{name}"), own)
        }
        None => {
            let own = joined(head);
            let home = homes.get(plain(&own)).map_or(module, String::as_str);
            (format!("{home}::{}", plain(&own)), own)
        }
    }
}

// A type without its module, and without its arguments.
pub fn plain(ty: &str) -> &str {
    last(ty.split('<').next().unwrap_or(ty))
}

// A path without what stands before its last name.
fn last(path: &str) -> &str {
    let end = path.find('<').unwrap_or(path.len());
    path[..end].rfind("::").map_or(path, |at| &path[at + 2..])
}

// TryFrom<u32> as TryFromU32.
fn run_on(words: &str) -> String {
    let parts = words.split(|c: char| !c.is_alphanumeric() && c != '_');
    let mut text = String::new();
    for part in parts {
        let (first, rest) = part.split_at(part.chars().next().map_or(0, char::len_utf8));
        text += &(first.to_uppercase() + rest);
    }
    text
}

// The place after the generics that begin at a place, or that place where none do.
pub fn past_generics(tokens: &[Token], open: usize) -> usize {
    if !tokens.get(open).is_some_and(|t| t.text == "<") {
        return open;
    }
    let mut depth = 0;
    for (i, token) in tokens.iter().enumerate().skip(open) {
        match token.text.as_str() {
            "<" => depth += 1,
            ">" => depth -= 1,
            ">>" => depth -= 2,
            _ => {}
        }
        if depth <= 0 {
            return i + 1;
        }
    }
    tokens.len()
}

// A signature, and where it has a body the function. The place is what stands before its name, and the type of its `self`.
fn add(all: &mut Sources, krate: &str, (place, own): (&str, &str), name: &str, mut seen: Function) {
    if let Some(first) = seen.params.first_mut().filter(|p| p.0 == "self") {
        first.1 = own.to_string();
    }
    let types = seen.params.iter().map(|p| p.1.clone()).collect();
    let like = all.signatures.entry(name.to_string()).or_default();
    like.push((types, seen.result.clone()));
    if seen.body.0 < seen.body.1 {
        let (name, krate) = (format!("{place}::{name}"), krate.to_string());
        all.functions.push(Function {
            name,
            krate,
            ..seen
        });
    }
}

// From the parenthesis after a function's name on. A function without a body ends at its semicolon.
fn signature(tokens: &[Token], open: usize) -> Option<Function> {
    if tokens.get(open)?.text != "(" {
        return None;
    }
    let close = closing(tokens, open);
    let params = typed(&tokens[open + 1..close]);
    let mut at = close + 1;
    let mut result = String::new();
    if tokens.get(at)?.text == "->" {
        let end = (at..tokens.len()).find(|i| {
            matches!(
                tokens[*i].text.as_str(),
                "{" | "where" | "requires" | "ensures" | "ghost"
            ) || (tokens[*i].text == ";" && !tokens[at..*i].iter().any(|t| t.text == "["))
        })?;
        result = joined(&tokens[at + 1..end]);
        at = end;
    }
    while !matches!(tokens.get(at)?.text.as_str(), "{" | ";") {
        at += 1;
    }
    let end = if tokens.get(at)?.text == "{" {
        closing(tokens, at)
    } else {
        at
    };
    Some(Function {
        name: String::new(),
        krate: String::new(),
        file: 0,
        params,
        result,
        body: (at, end),
    })
}

// NAME: TYPE, NAME: TYPE, each as it is written but for blanks.
fn typed(tokens: &[Token]) -> Vec<(String, String)> {
    let mut pairs = Vec::new();
    for part in split(tokens) {
        let colon = part.iter().position(|t| t.text == ":");
        if part.first().is_some_and(|t| t.text == "ghost") {
            continue;
        }
        if part.last().is_some_and(|t| t.text == "self") {
            pairs.push(("self".to_string(), String::new()));
        } else if let Some(at) = colon.filter(|at| *at > 0) {
            pairs.push((part[at - 1].text.clone(), joined(&part[at + 1..])));
        }
    }
    pairs
}

fn split(tokens: &[Token]) -> Vec<&[Token]> {
    let mut parts = Vec::new();
    let (mut depth, mut from) = (0, 0);
    for (i, token) in tokens.iter().enumerate() {
        match token.text.as_str() {
            "(" | "[" | "{" | "<" => depth += 1,
            ")" | "]" | "}" | ">" => depth -= 1,
            ">>" => depth -= 2,
            "," if depth == 0 => {
                parts.push(&tokens[from..i]);
                from = i + 1;
            }
            _ => {}
        }
    }
    parts.push(&tokens[from..]);
    parts
}

fn joined(tokens: &[Token]) -> String {
    let mut text = String::new();
    for token in tokens {
        let is_word = |c: Option<char>| c.is_some_and(|c| c.is_alphanumeric() || c == '_');
        if is_word(text.chars().last()) && is_word(token.text.chars().next()) {
            text.push(' ');
        }
        text.push_str(&token.text);
    }
    text
}

// The place of the bracket that closes the one at open, or the end.
pub fn closing(tokens: &[Token], open: usize) -> usize {
    let mut depth = 0;
    for (i, token) in tokens.iter().enumerate().skip(open) {
        match token.text.as_str() {
            "(" | "[" | "{" => depth += 1,
            ")" | "]" | "}" => depth -= 1,
            _ => {}
        }
        if depth == 0 {
            return i;
        }
    }
    tokens.len()
}
