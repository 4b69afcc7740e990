// All mutants of a function: one place of its body changed, by the kinds of fault below.

use crate::random::draw;
use crate::sources::{Function, Sources};
use crate::tree::{tree, Form, Node, Tree};
use crate::types::{bare, is_whole};
use std::collections::{BTreeMap, BTreeSet};

#[derive(Clone)]
pub struct Mutant {
    pub function: usize,
    // which of the function's mutants it is, in the order in which they are tried
    pub number: usize,
    pub kind: &'static str,
    pub start: usize,
    pub end: usize,
    pub new: String,
    pub line: usize,
    // the lines that it changes, as they are and as they become, and which of the function's places with that text it is
    pub before: String,
    pub after: String,
}

struct Maker<'a> {
    all: &'a Sources,
    f: &'a Function,
    text: &'a str,
    tree: Tree,
    found: Vec<(&'static str, usize, usize, String)>,
}

// In the order in which they are tried: the kinds take turns, and the seed draws the order of the kinds and in each kind.
pub fn mutants(all: &Sources, function: usize, seed: u64) -> Result<Vec<Mutant>, String> {
    let f = &all.functions[function];
    let source = &all.files[f.file];
    let tree = tree(all, f).map_err(|e| format!("{}: {}: {e}", source.path, f.name))?;
    let mut maker = Maker {
        all,
        f,
        text: &source.text,
        tree,
        found: Vec::new(),
    };
    for id in 0..maker.tree.nodes.len() {
        maker.node(id);
    }
    maker.answers();
    let mut seen = BTreeSet::new();
    let mut kinds: BTreeMap<u64, Vec<Mutant>> = BTreeMap::new();
    for (kind, start, end, new) in std::mem::take(&mut maker.found) {
        let whole = format!("{}{new}{}", &source.text[..start], &source.text[end..]);
        if whole == source.text || !seen.insert(whole) {
            continue;
        }
        let mutant = maker.mutant(function, kind, (start, end), new);
        kinds
            .entry(draw(seed, &[&f.name, kind]))
            .or_default()
            .push(mutant);
    }
    Ok(in_turns(seed, &f.name, kinds.into_values().collect()))
}

fn in_turns(seed: u64, name: &str, mut kinds: Vec<Vec<Mutant>>) -> Vec<Mutant> {
    for kind in &mut kinds {
        kind.sort_by_cached_key(|m| (draw(seed, &[name, &m.before, &m.after]), m.start));
        kind.reverse();
    }
    let mut ordered = Vec::new();
    while kinds.iter().any(|k| !k.is_empty()) {
        ordered.extend(kinds.iter_mut().filter_map(Vec::pop));
    }
    for (i, mutant) in ordered.iter_mut().enumerate() {
        mutant.number = i + 1;
    }
    ordered
}

fn collapsed(text: &str) -> String {
    text.split_whitespace().collect::<Vec<_>>().join(" ")
}

impl Maker<'_> {
    fn mutant(
        &self,
        function: usize,
        kind: &'static str,
        (start, end): (usize, usize),
        new: String,
    ) -> Mutant {
        let from = self.text[..start].rfind('\n').map_or(0, |i| i + 1);
        let to = self.text[end..]
            .find('\n')
            .map_or(self.text.len(), |i| end + i);
        let old = &self.text[from..to];
        let body = self.tree.nodes[self.tree.body].start;
        let earlier = self.text[body..from.max(body)].matches(old).count();
        let which = if earlier > 0 {
            format!(" (place {})", earlier + 1)
        } else {
            String::new()
        };
        Mutant {
            function,
            number: 0,
            kind,
            start,
            end,
            line: self.text[..start].matches('\n').count() + 1,
            before: collapsed(old) + &which,
            after: collapsed(&format!(
                "{}{new}{}",
                &self.text[from..start],
                &self.text[end..to]
            )),
            new,
        }
    }

    fn text_of(&self, id: usize) -> &str {
        let node = &self.tree.nodes[id];
        &self.text[node.start..node.end]
    }

    fn replace(&mut self, kind: &'static str, id: usize, new: &str) {
        let node = &self.tree.nodes[id];
        // A field that is named for its variable would be written out, and nothing changed.
        if !node.before.is_empty() && new == node.word {
            return;
        }
        self.found
            .push((kind, node.start, node.end, format!("{}{new}", node.before)));
    }

    fn sign(&mut self, kind: &'static str, id: usize, new: &str) {
        let (start, end) = self.tree.nodes[id].sign;
        self.found.push((kind, start, end, new.to_string()));
    }

    // Two parts of one expression change places.
    fn swap(&mut self, a: usize, b: usize) {
        let (first, last) = (&self.tree.nodes[a], &self.tree.nodes[b]);
        let between = &self.text[first.end..last.start];
        let new = format!("{}{between}{}", self.text_of(b), self.text_of(a));
        self.found
            .push(("operands swapped", first.start, last.end, new));
    }

    fn node(&mut self, id: usize) {
        let node = &self.tree.nodes[id];
        let word = node.word.clone();
        let kids = node.kids.clone();
        match node.form {
            Form::Number => self.number(id, &word),
            Form::Truth => self.replace(
                "true and false exchanged",
                id,
                if word == "true" { "false" } else { "true" },
            ),
            Form::Path => self.variable(id),
            Form::Field => self.field(id),
            Form::Unary if word == "!" || word == "-" => {
                let kid = self.text_of(kids[0]).to_string();
                self.replace("an operand alone", id, &kid);
            }
            Form::Binary => self.binary(id, &word, &kids),
            Form::Assign if word == "+=" => self.sign("an operator exchanged", id, "-="),
            Form::Assign if word == "-=" => self.sign("an operator exchanged", id, "+="),
            Form::Call => self.call(id, &kids[1..]),
            Form::Method => self.call(id, &kids),
            Form::If | Form::While => self.condition(id, kids[0]),
            Form::Match => self.arms(&kids[1..]),
            Form::Block => self.statements(id, &kids),
            Form::Struct => self.fields(id, &word, &kids),
            _ => {}
        }
    }

    fn number(&mut self, id: usize, word: &str) {
        let digits: String = word.chars().filter(|c| *c != '_').collect();
        let suffix = digits.find(['u', 'i']).map_or("", |at| &digits[at..]);
        let bare = &digits[..digits.len() - suffix.len()];
        let value = match bare.strip_prefix("0x") {
            Some(hex) => u128::from_str_radix(hex, 16),
            None => bare.parse(),
        };
        let Ok(value) = value else { return };
        let written = |v: u128| {
            if bare.starts_with("0x") {
                format!("{v:#x}{suffix}")
            } else {
                format!("{v}{suffix}")
            }
        };
        self.replace("a constant one off", id, &written(value + 1));
        if value > 0 {
            self.replace("a constant one off", id, &written(value - 1));
        }
    }

    // Another variable of the same type in its place, or another constant of the same module.
    fn variable(&mut self, id: usize) {
        let node = &self.tree.nodes[id];
        let Some(ty) = node.ty.clone() else { return };
        let mut others: BTreeSet<String> = BTreeSet::new();
        if node.scope.iter().any(|(n, _)| *n == node.word) {
            others.extend(
                node.scope
                    .iter()
                    .filter(|(_, t)| t.as_ref() == Some(&ty))
                    .map(|(n, _)| n.clone()),
            );
        } else if let Some(variants) = self.all.enums.get(&ty) {
            let prefix = &node.word[..node.word.len() - last(&node.word).len()];
            others.extend(variants.iter().map(|n| format!("{prefix}{n}")));
        } else if let Some((_, module)) = self.all.constants.get(last(&node.word)) {
            let like = self
                .all
                .constants
                .iter()
                .filter(|(_, (t, m))| *t == ty && m == module);
            let prefix = &node.word[..node.word.len() - last(&node.word).len()];
            others.extend(like.map(|(n, _)| format!("{prefix}{n}")));
        }
        for other in others {
            self.replace("another of the same type", id, &other);
        }
    }

    fn field(&mut self, id: usize) {
        let node = &self.tree.nodes[id];
        let holder = node.kids[0];
        let Some(fields) = self.tree.nodes[holder]
            .ty
            .as_ref()
            .and_then(|t| self.all.structs.get(bare(t)))
        else {
            return;
        };
        let base = self.text_of(holder).to_string();
        let like: Vec<_> = fields
            .iter()
            .filter(|(_, t)| Some(t) == node.ty.as_ref())
            .map(|f| f.0.clone())
            .collect();
        for name in like {
            self.replace("another of the same type", id, &format!("{base}.{name}"));
        }
    }

    fn binary(&mut self, id: usize, word: &str, kids: &[usize]) {
        let kind = if is_comparison(word) {
            "a comparison exchanged"
        } else {
            "an operator exchanged"
        };
        for new in exchanged(word) {
            self.sign(kind, id, new);
        }
        if !matches!(
            word,
            "+" | "*" | "&" | "|" | "^" | "==" | "!=" | "&&" | "||"
        ) {
            self.swap(kids[0], kids[1]);
        }
        if !is_comparison(word) {
            for kid in kids {
                let alone = self.text_of(*kid).to_string();
                self.replace("an operand alone", id, &alone);
            }
        }
    }

    fn call(&mut self, id: usize, args: &[usize]) {
        for (i, a) in args.iter().enumerate() {
            for b in &args[i + 1..] {
                if self.are_alike(*a, *b) {
                    self.swap(*a, *b);
                }
            }
            let is_like = self.tree.nodes[id].ty.is_some()
                && self.tree.nodes[id].ty == self.tree.nodes[*a].ty;
            if is_like {
                let alone = self.text_of(*a).to_string();
                self.replace("an argument in place of the call", id, &alone);
            }
        }
    }

    fn are_alike(&self, a: usize, b: usize) -> bool {
        let (x, y) = (&self.tree.nodes[a], &self.tree.nodes[b]);
        match (&x.ty, &y.ty) {
            (Some(s), Some(t)) => s == t,
            (None, None) => x.form == Form::Number && y.form == Form::Number,
            _ => false,
        }
    }

    fn condition(&mut self, id: usize, condition: usize) {
        self.replace("a branch dropped", condition, "false");
        if self.tree.nodes[id].form == Form::If {
            self.replace("a branch dropped", condition, "true");
        }
    }

    fn arms(&mut self, arms: &[usize]) {
        for pair in arms.windows(2) {
            let (one, other) = (
                self.text_of(pair[0]).to_string(),
                self.text_of(pair[1]).to_string(),
            );
            self.replace("a branch dropped", pair[0], &other);
            self.replace("a branch dropped", pair[1], &one);
        }
    }

    // A statement that changes something is left out.
    fn statements(&mut self, id: usize, kids: &[usize]) {
        let has_value = self.tree.nodes[id].has_value;
        for (i, kid) in kids.iter().enumerate() {
            let node = &self.tree.nodes[*kid];
            let is_value = has_value && i + 1 == kids.len();
            if !is_value && matches!(node.form, Form::Assign | Form::Call | Form::Method) {
                let end = self.text[node.end..]
                    .find(';')
                    .map_or(node.end, |at| node.end + at + 1);
                self.found
                    .push(("a statement dropped", node.start, end, String::new()));
            }
        }
    }

    fn fields(&mut self, id: usize, word: &str, kids: &[usize]) {
        let Some(fields) = self.all.structs.get(last(word)).cloned() else {
            return;
        };
        let scope = self.tree.nodes[id].scope.clone();
        for kid in kids {
            let label = &self.tree.nodes[*kid].label;
            if let Some((_, ty)) = fields.iter().find(|(n, _)| n == label) {
                self.idle(*kid, ty, &scope);
            }
        }
    }

    // What the function answers, at its end and at each return.
    fn answers(&mut self) {
        let result = self.f.result.clone();
        let params: Vec<_> = self
            .f
            .params
            .iter()
            .map(|(n, t)| (n.clone(), Some(t.clone())))
            .collect();
        let is_return = |n: &Node| n.form == Form::Return && !n.kids.is_empty();
        let mut at: Vec<usize> = self
            .tree
            .nodes
            .iter()
            .filter(|n| is_return(n))
            .map(|n| n.kids[0])
            .collect();
        let body = &self.tree.nodes[self.tree.body];
        at.extend(body.kids.last().filter(|_| body.has_value));
        for id in at {
            self.idle(id, &result, &params);
            let whole = self.text_of(id).to_string();
            match result.as_str() {
                "bool" => self.replace("a result one off", id, &format!("!({whole})")),
                ty if is_whole(ty) => {
                    self.replace("a result one off", id, &format!("({whole}) + 1"))
                }
                _ => {}
            }
        }
    }

    // A value that does without the work: a constant, or something of the same type that is at hand.
    fn idle(&mut self, id: usize, ty: &str, scope: &[(String, Option<String>)]) {
        let constants: &[&str] = match ty {
            "bool" => &["true", "false"],
            ty if is_whole(ty) => &["0", "1"],
            ty if bare(ty) == "Option" => &["None"],
            _ => &[],
        };
        for value in constants {
            self.replace("a result that ignores the work", id, value);
        }
        for (name, _) in scope.iter().filter(|(_, t)| t.as_deref() == Some(ty)) {
            self.replace("a result that ignores the work", id, name);
        }
    }
}

fn last(path: &str) -> &str {
    path.rsplit("::").next().unwrap_or(path)
}

fn is_comparison(sign: &str) -> bool {
    matches!(sign, "==" | "!=" | "<" | ">" | "<=" | ">=")
}

fn exchanged(sign: &str) -> &'static [&'static str] {
    match sign {
        "<" => &["<=", ">="],
        "<=" => &["<", ">"],
        ">" => &[">=", "<="],
        ">=" => &[">", "<"],
        "==" => &["!="],
        "!=" => &["=="],
        "+" => &["-"],
        "-" => &["+"],
        "*" => &["+"],
        "/" => &["%"],
        "%" => &["/"],
        "<<" => &[">>"],
        ">>" => &["<<"],
        "&" => &["|"],
        "|" => &["&"],
        "^" => &["&"],
        "&&" => &["||"],
        "||" => &["&&"],
        _ => &[],
    }
}
