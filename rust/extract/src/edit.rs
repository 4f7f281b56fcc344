//! A text that one rule goes through: each token is handed on, left out, or something is put.
use std::borrow::Cow;

use crate::tokens::{Kind, Origin, Token, tokens};

/// What extraction doesn't understand, and where it stands.
#[derive(Clone, Debug, PartialEq, Eq)]
pub struct Unknown {
    pub line: usize,
    pub what: String,
}

/// A text before and behind one rule.
pub struct Edit<'a> {
    rule: &'static str,
    given: Vec<Token<'a>>,
    at: usize,
    made: Vec<Token<'a>>,
    left: Vec<Token<'a>>,
}

impl<'a> Edit<'a> {
    pub fn new(rule: &'static str, given: Vec<Token<'a>>) -> Edit<'a> {
        Edit { rule, given, at: 0, made: Vec::new(), left: Vec::new() }
    }

    /// The text as it was made, and what of it was left out.
    pub fn into_parts(self) -> (Vec<Token<'a>>, Vec<Token<'a>>) {
        (self.made, self.left)
    }

    /// Where the rule is: the index of the next token, of the text before.
    pub fn at(&self) -> usize {
        self.at
    }

    /// How many tokens the text before has.
    pub fn len(&self) -> usize {
        self.given.len()
    }

    pub fn is_empty(&self) -> bool {
        self.given.is_empty()
    }

    pub fn is_at_end(&self) -> bool {
        self.at == self.given.len()
    }

    /// Whether the next token is white space.
    pub fn is_space(&self) -> bool {
        self.given[self.at].kind == Kind::Space
    }

    /// A token of the text before; behind its end a text without a character.
    pub fn text(&self, at: usize) -> &str {
        self.given.get(at).map_or("", |token| &*token.text)
    }

    pub fn kind(&self, at: usize) -> Option<Kind> {
        self.given.get(at).map(|token| token.kind)
    }

    /// The first significant token from an index on.
    pub fn next(&self, mut at: usize) -> usize {
        while self.given.get(at).is_some_and(|token| !token.is_significant()) {
            at += 1;
        }
        at
    }

    /// The significant token behind one.
    pub fn after(&self, at: usize) -> usize {
        self.next(at + 1)
    }

    /// The index of the last significant token in front of one.
    pub fn last(&self, at: usize) -> Option<usize> {
        self.given[..at].iter().rposition(Token::is_significant)
    }

    /// The last significant token in front of one.
    pub fn before(&self, at: usize) -> &str {
        self.last(at).map_or("", |last| self.text(last))
    }

    /// Whether an earlier rule has put a token.
    pub fn is_put(&self, at: usize) -> bool {
        self.given.get(at).is_some_and(|token| matches!(token.origin, Origin::Put(_)))
    }

    /// The significant tokens from one on are these.
    pub fn reads(&self, mut at: usize, words: &[&str]) -> bool {
        at = self.next(at);
        words.iter().all(|word| {
            let is_same = self.text(at) == *word;
            at = self.after(at);
            is_same
        })
    }

    /// The innermost bracket that is open in front of a token.
    pub fn opening(&self, at: usize) -> Option<usize> {
        let mut depth = 0_i32;
        (0..at).rev().find(|it| {
            depth += match self.text(*it) {
                "(" | "[" | "{" => -1,
                ")" | "]" | "}" => 1,
                _ => 0,
            };
            depth < 0
        })
    }

    /// Behind the bracket that closes the one at an index; `<` is one where it opens.
    pub fn close(&self, open: usize) -> Result<usize, Unknown> {
        let is_angle = self.text(open) == "<";
        let mut depth = 0_i32;
        for at in open..self.given.len() {
            if self.given[at].kind == Kind::Sign {
                depth += match self.text(at) {
                    "(" | "[" | "{" => 1,
                    ")" | "]" | "}" => -1,
                    "<" if is_angle => 1,
                    ">" if is_angle => -1,
                    _ => 0,
                };
            }
            if depth == 0 {
                return Ok(at + 1);
            }
        }
        Err(self.unknown(open, "a bracket that is not closed"))
    }

    /// From an index on, the first of these signs that stands in no bracket.
    pub fn find(&self, at: usize, signs: &[&str]) -> Result<usize, Unknown> {
        let mut here = self.next(at);
        while !signs.contains(&self.text(here)) {
            if here >= self.given.len() {
                return Err(self.unknown(at, &format!("no {} follows", signs.join(" or "))));
            }
            here = match self.text(here) {
                "(" | "[" | "{" => self.next(self.close(here)?),
                _ => self.after(here),
            };
        }
        Ok(here)
    }

    /// The significant tokens between two indices.
    pub fn words(&self, from: usize, to: usize) -> Vec<&str> {
        let part = self.given[from..to].iter();
        part.filter(|token| token.is_significant()).map(|token| &*token.text).collect()
    }

    /// The text between two indices, with a space for each stretch of white space.
    pub fn joined(&self, from: usize, to: usize) -> String {
        let part = self.given[from..to].iter().filter(|token| token.kind != Kind::Comment);
        let texts: Vec<&str> =
            part.map(|t| if t.kind == Kind::Space { " " } else { &*t.text }).collect();
        texts.concat().trim().to_string()
    }

    pub fn unknown(&self, at: usize, what: &str) -> Unknown {
        let token = self.given.get(at).or(self.given.last());
        Unknown { line: token.map_or(1, |token| token.line), what: what.to_string() }
    }

    /// Hands on the next token.
    pub fn keep(&mut self) {
        self.keep_to(self.at + 1);
    }

    /// Hands on all tokens up to an index.
    pub fn keep_to(&mut self, to: usize) {
        self.made.extend_from_slice(&self.given[self.at..to]);
        self.at = to;
    }

    /// Leaves out all tokens up to an index.
    pub fn leave_to(&mut self, to: usize) {
        self.left.extend_from_slice(&self.given[self.at..to]);
        self.at = to;
    }

    /// Takes back what was handed on last, as long as it is such.
    pub fn take_back(&mut self, is_such: impl Fn(&Token<'a>) -> bool) {
        while self.made.last().is_some_and(&is_such) {
            self.left.extend(self.made.pop());
        }
    }

    /// Takes back white space.
    pub fn trim(&mut self) {
        self.take_back(|token| token.kind == Kind::Space);
    }

    /// Takes back white space and comments of documentation.
    pub fn trim_documentation(&mut self) {
        self.take_back(|token| token.kind == Kind::Space || token.text.starts_with("///"));
    }

    /// Puts a text.
    pub fn put(&mut self, text: &str) {
        let line = self.given.get(self.at).or(self.given.last()).map_or(1, |token| token.line);
        let (rule, put) = (self.rule, tokens(text));
        self.made.extend(put.into_iter().map(|token| Token {
            text: Cow::Owned(token.text.into_owned()),
            line,
            origin: Origin::Put(rule),
            ..token
        }));
    }
}
