// A function's body as a tree of expressions, each with its place in the text, its type where that is known, and the variables that it may name.

use crate::sources::{closing, past_generics, Function, Sources};
use crate::tokens::{Kind, Token};
use crate::types;

#[derive(Clone, Copy, PartialEq, Debug)]
pub enum Form {
    Number,
    Truth,
    Text,
    Path,
    Call,
    Method,
    Field,
    Index,
    Unary,
    Binary,
    Cast,
    Assign,
    Struct,
    Block,
    Let,
    If,
    While,
    Match,
    Return,
    Other,
}

pub struct Node {
    pub form: Form,
    pub start: usize,
    pub end: usize,
    // the operator, the name of a field, a method or a struct, or the path
    pub word: String,
    // where the operator stands
    pub sign: (usize, usize),
    pub kids: Vec<usize>,
    pub ty: Option<String>,
    // what a replacement must begin with: a field's name where the field is written short
    pub before: String,
    // of a struct's value: the field's name
    pub label: String,
    pub scope: Vec<(String, Option<String>)>,
    // of a block: whether its last kid is its value
    pub has_value: bool,
}

pub struct Tree {
    pub nodes: Vec<Node>,
    pub body: usize,
}

pub struct Parser<'a> {
    pub all: &'a Sources,
    pub nodes: Vec<Node>,
    tokens: &'a [Token],
    at: usize,
    end: usize,
    scope: Vec<(String, Option<String>)>,
}

type Parsed = Result<usize, String>;

pub fn tree(all: &Sources, f: &Function) -> Result<Tree, String> {
    let scope = f
        .params
        .iter()
        .map(|(n, t)| (n.clone(), Some(t.clone())))
        .collect();
    let tokens = &all.files[f.file].tokens;
    let mut parser = Parser {
        all,
        nodes: Vec::new(),
        tokens,
        at: f.body.0,
        end: f.body.1 + 1,
        scope,
    };
    let body = parser.block()?;
    Ok(Tree {
        nodes: parser.nodes,
        body,
    })
}

impl Parser<'_> {
    fn text(&self) -> &str {
        self.ahead(0)
    }

    fn ahead(&self, n: usize) -> &str {
        if self.at + n < self.end {
            &self.tokens[self.at + n].text
        } else {
            ""
        }
    }

    fn kind(&self) -> Kind {
        self.tokens[self.at.min(self.end - 1)].kind
    }

    fn start(&self) -> usize {
        self.tokens[self.at.min(self.end - 1)].start
    }

    fn last_end(&self) -> usize {
        self.tokens[self.at - 1].end
    }

    fn takes(&mut self, text: &str) -> bool {
        let is_here = self.text() == text;
        if is_here {
            self.at += 1;
        }
        is_here
    }

    fn needs(&mut self, text: &str) -> Result<(), String> {
        if self.takes(text) {
            return Ok(());
        }
        Err(format!(
            "expected '{text}', found '{}' at byte {}",
            self.text(),
            self.start()
        ))
    }

    fn add(&mut self, form: Form, start: usize, word: &str, kids: Vec<usize>) -> usize {
        let node = Node {
            form,
            start,
            end: self.last_end(),
            word: word.to_string(),
            sign: (0, 0),
            kids,
            ty: None,
            before: String::new(),
            label: String::new(),
            scope: self.scope.clone(),
            has_value: false,
        };
        self.nodes.push(node);
        let id = self.nodes.len() - 1;
        self.nodes[id].ty = types::of(self, id);
        id
    }

    fn block(&mut self) -> Parsed {
        let start = self.start();
        let outer = self.scope.len();
        self.needs("{")?;
        let mut kids = Vec::new();
        let mut has_value = false;
        while self.text() != "}" {
            if self.takes(";") {
                continue;
            }
            let (kid, is_value) = self.statement()?;
            kids.push(kid);
            has_value = is_value;
        }
        self.needs("}")?;
        self.scope.truncate(outer);
        let id = self.add(Form::Block, start, "", kids);
        self.nodes[id].has_value = has_value;
        self.nodes[id].ty = types::of(self, id);
        Ok(id)
    }

    // A statement, and whether it is the block's value. The node of a statement ends with its semicolon.
    fn statement(&mut self) -> Result<(usize, bool), String> {
        if self.text() == "let" {
            return Ok((self.binding()?, false));
        }
        let id = match self.text() {
            "if" | "match" | "while" | "loop" | "for" | "{" => self.postfix(true)?,
            _ => self.expression(true)?,
        };
        if self.takes(";") {
            return Ok((id, false));
        }
        Ok((id, self.text() == "}"))
    }

    fn binding(&mut self) -> Parsed {
        let start = self.start();
        self.needs("let")?;
        self.takes("mut");
        let name = self.passed(&[":", "="]);
        let is_pattern = !name.chars().all(|c| c.is_alphanumeric() || c == '_');
        let mut ty = None;
        if self.takes(":") {
            ty = Some(self.passed(&["="]));
        }
        self.needs("=")?;
        let mut kids = vec![self.expression(true)?];
        if self.takes("else") {
            kids.push(self.block()?);
        }
        self.needs(";")?;
        let ty = ty.or_else(|| self.nodes[kids[0]].ty.clone());
        let id = self.add(Form::Let, start, &name, kids);
        // a pattern names nothing that is known
        if !is_pattern {
            self.scope.push((name, ty));
        }
        Ok(id)
    }

    // The text of a type or a pattern.
    fn passed(&mut self, ends: &[&str]) -> String {
        let mut text = String::new();
        let mut depth = 0;
        while self.at < self.end && (depth > 0 || !ends.contains(&self.text())) {
            match self.text() {
                "[" | "(" | "{" => depth += 1,
                "]" | ")" | "}" => depth -= 1,
                _ => {}
            }
            text.push_str(self.text());
            self.at += 1;
        }
        text
    }

    // With structs false, a brace after a path opens a block.
    fn expression(&mut self, structs: bool) -> Parsed {
        let start = self.start();
        if self.text() == "return" || self.text() == "break" {
            let word = self.text().to_string();
            self.at += 1;
            let mut kids = Vec::new();
            if !matches!(self.text(), ";" | "}" | ",") {
                kids.push(self.expression(structs)?);
            }
            let form = if word == "return" {
                Form::Return
            } else {
                Form::Other
            };
            return Ok(self.add(form, start, &word, kids));
        }
        let left = self.binary(0, structs)?;
        let sign = self.text().to_string();
        if !matches!(
            sign.as_str(),
            "=" | "+=" | "-=" | "*=" | "/=" | "%=" | "<<=" | ">>=" | "&=" | "|=" | "^="
        ) {
            return Ok(left);
        }
        let at = (self.start(), self.start() + sign.len());
        self.at += 1;
        let right = self.expression(structs)?;
        let id = self.add(Form::Assign, start, &sign, vec![left, right]);
        self.nodes[id].sign = at;
        Ok(id)
    }

    fn binary(&mut self, least: u32, structs: bool) -> Parsed {
        let start = self.start();
        let mut left = self.cast(structs)?;
        loop {
            let sign = self.text().to_string();
            let level = level_of(&sign);
            if level == 0 || level <= least {
                return Ok(left);
            }
            let at = (self.start(), self.start() + sign.len());
            self.at += 1;
            let is_open = sign == ".." && matches!(self.text(), "]" | "{" | ")" | "," | ";");
            let mut kids = vec![left];
            if !is_open {
                kids.push(self.binary(level, structs)?);
            }
            let form = if sign.starts_with("..") {
                Form::Other
            } else {
                Form::Binary
            };
            left = self.add(form, start, &sign, kids);
            self.nodes[left].sign = at;
        }
    }

    fn cast(&mut self, structs: bool) -> Parsed {
        let start = self.start();
        let mut id = self.unary(structs)?;
        while self.takes("as") {
            let mut ty = self.text().to_string();
            self.at += 1;
            while self.takes("::") {
                ty = format!("{ty}::{}", self.text());
                self.at += 1;
            }
            id = self.add(Form::Cast, start, &ty, vec![id]);
        }
        Ok(id)
    }

    fn unary(&mut self, structs: bool) -> Parsed {
        let start = self.start();
        let sign = self.text().to_string();
        if !matches!(sign.as_str(), "!" | "-" | "*" | "&" | "&&" | ".." | "..=") {
            return self.postfix(structs);
        }
        let at = (start, start + sign.len());
        self.at += 1;
        self.takes("mut");
        let is_range = sign.starts_with("..");
        if is_range && matches!(self.text(), "]" | ")" | "}" | ",") {
            return Ok(self.add(Form::Other, start, &sign, Vec::new()));
        }
        let kid = if is_range {
            self.binary(2, structs)?
        } else {
            self.unary(structs)?
        };
        let form = if is_range { Form::Other } else { Form::Unary };
        let id = self.add(form, start, &sign, vec![kid]);
        self.nodes[id].sign = at;
        Ok(id)
    }

    fn postfix(&mut self, structs: bool) -> Parsed {
        let start = self.start();
        // a block that is a statement is not called, nor an index taken of it
        let is_block = matches!(self.text(), "if" | "match" | "while" | "loop" | "for" | "{");
        let mut id = self.primary(structs)?;
        loop {
            if is_block && matches!(self.text(), "(" | "[") {
                return Ok(id);
            }
            if self.takes("?") {
                id = self.add(Form::Other, start, "?", vec![id]);
            } else if self.takes("(") {
                let mut kids = vec![id];
                self.list(")", &mut kids)?;
                id = self.add(Form::Call, start, "", kids);
            } else if self.takes("[") {
                let index = self.expression(true)?;
                self.needs("]")?;
                id = self.add(Form::Index, start, "", vec![id, index]);
            } else if self.text() == "." {
                self.at += 1;
                let word = self.text().to_string();
                self.at += 1;
                if self.text() == "::" {
                    self.at = past_generics(self.tokens, self.at + 1);
                }
                let mut kids = vec![id];
                let is_call = self.takes("(");
                if is_call {
                    self.list(")", &mut kids)?;
                }
                id = self.add(
                    if is_call { Form::Method } else { Form::Field },
                    start,
                    &word,
                    kids,
                );
            } else {
                return Ok(id);
            }
        }
    }

    fn list(&mut self, end: &str, kids: &mut Vec<usize>) -> Result<(), String> {
        while !self.takes(end) {
            kids.push(self.expression(true)?);
            if self.text() != end && !self.takes(",") {
                self.needs(";")?;
            }
        }
        Ok(())
    }

    fn primary(&mut self, structs: bool) -> Parsed {
        let start = self.start();
        match self.text() {
            "if" => return self.branch(),
            "while" | "loop" | "for" => return self.repeated(),
            "match" => return self.choice(),
            "{" => return self.block(),
            "move" | "|" | "||" => return self.closure(),
            _ => {}
        }
        let word = self.text().to_string();
        if self.takes("(") || self.takes("[") {
            let mut kids = Vec::new();
            self.list(if word == "(" { ")" } else { "]" }, &mut kids)?;
            return Ok(self.add(Form::Other, start, &word, kids));
        }
        let form = match self.kind() {
            Kind::Number => Form::Number,
            Kind::Text => Form::Text,
            Kind::Name if word == "true" || word == "false" => Form::Truth,
            Kind::Name if word == "continue" => Form::Other,
            Kind::Name => return self.path(structs),
            Kind::Sign => return Err(format!("'{word}' is not understood, at byte {start}")),
        };
        self.at += 1;
        Ok(self.add(form, start, &word, Vec::new()))
    }

    fn path(&mut self, structs: bool) -> Parsed {
        let start = self.start();
        let mut word = self.text().to_string();
        self.at += 1;
        while self.takes("::") {
            if self.text() == "<" {
                self.at = past_generics(self.tokens, self.at);
                continue;
            }
            word = format!("{word}::{}", self.text());
            self.at += 1;
        }
        // what stands in a macro's brackets is no expression that is known
        if self.text() == "!" && matches!(self.ahead(1), "(" | "[" | "{") {
            self.at = closing(self.tokens, self.at + 1) + 1;
            return Ok(self.add(Form::Other, start, &word, Vec::new()));
        }
        let is_type = word
            .rsplit("::")
            .next()
            .is_some_and(|w| w.starts_with(char::is_uppercase));
        if !structs || !is_type || self.text() != "{" {
            return Ok(self.add(Form::Path, start, &word, Vec::new()));
        }
        self.at += 1;
        let mut kids = Vec::new();
        while !self.takes("}") {
            kids.push(self.field()?);
            self.takes(",");
        }
        Ok(self.add(Form::Struct, start, &word, kids))
    }

    // A closure, whose parameters are of no known type.
    fn closure(&mut self) -> Parsed {
        let start = self.start();
        let outer = self.scope.len();
        self.takes("move");
        if !self.takes("||") {
            self.needs("|")?;
            while !self.takes("|") {
                if self.kind() == Kind::Name {
                    let name = self.text().to_string();
                    self.scope.push((name, None));
                }
                self.at += 1;
            }
        }
        if self.takes("->") {
            self.passed(&["{"]);
        }
        while matches!(self.text(), "requires" | "ensures") {
            self.at += 1;
        }
        let kid = self.expression(true)?;
        self.scope.truncate(outer);
        Ok(self.add(Form::Other, start, "|", vec![kid]))
    }

    fn field(&mut self) -> Parsed {
        let name = self.text().to_string();
        let is_whole = self.ahead(1) == ":";
        if is_whole {
            self.at += 2;
        }
        let id = self.expression(true)?;
        if !is_whole {
            self.nodes[id].before = format!("{name}: ");
        }
        self.nodes[id].label = name;
        Ok(id)
    }

    fn branch(&mut self) -> Parsed {
        let start = self.start();
        self.needs("if")?;
        let is_let = self.passes_let()?;
        let mut kids = vec![self.expression(false)?, self.block()?];
        if self.takes("else") {
            kids.push(if self.text() == "if" {
                self.branch()?
            } else {
                self.block()?
            });
        }
        let form = if is_let { Form::Other } else { Form::If };
        Ok(self.add(form, start, "if", kids))
    }

    // Whether a condition is a pattern, and past that.
    fn passes_let(&mut self) -> Result<bool, String> {
        let is_let = self.takes("let");
        if is_let {
            self.passed(&["="]);
            self.needs("=")?;
        }
        Ok(is_let)
    }

    fn repeated(&mut self) -> Parsed {
        let start = self.start();
        let word = self.text().to_string();
        self.at += 1;
        let mut kids = Vec::new();
        let outer = self.scope.len();
        let mut is_let = false;
        if word == "for" {
            let name = self.passed(&["in"]);
            self.needs("in")?;
            kids.push(self.expression(false)?);
            self.scope.push((name, None));
        } else if word == "while" {
            is_let = self.passes_let()?;
            kids.push(self.expression(false)?);
        }
        kids.push(self.block()?);
        self.scope.truncate(outer);
        Ok(self.add(
            if word == "while" && !is_let {
                Form::While
            } else {
                Form::Other
            },
            start,
            &word,
            kids,
        ))
    }

    // The kids are what is matched and the arms' values; a pattern is passed over.
    fn choice(&mut self) -> Parsed {
        let start = self.start();
        self.needs("match")?;
        let mut kids = vec![self.expression(false)?];
        let end = closing(self.tokens, self.at);
        self.needs("{")?;
        while self.at < end {
            while self.at < end && self.text() != "=>" {
                self.at += 1;
            }
            self.needs("=>")?;
            kids.push(self.expression(true)?);
            self.takes(",");
        }
        self.needs("}")?;
        Ok(self.add(Form::Match, start, "", kids))
    }
}

fn level_of(sign: &str) -> u32 {
    match sign {
        ".." | "..=" => 1,
        "||" => 2,
        "&&" => 3,
        "==" | "!=" | "<" | ">" | "<=" | ">=" => 4,
        "|" => 5,
        "^" => 6,
        "&" => 7,
        "<<" | ">>" => 8,
        "+" | "-" => 9,
        "*" | "/" | "%" => 10,
        _ => 0,
    }
}
