//! Writes the proved sources of `crates/` as plain Rust.
//!
//! A source is read as tokens, and goes through a list of rules. A rule leaves tokens out (a
//! contract says nothing to rustc), or puts some where Rust spells something otherwise; each token
//! that is put or left out belongs to one. So what rustc compiles is the text that was proved, over
//! the library `rattle_std`, which stands for Rattle's own. What no rule understands is an error
//! with its file and line.
#![forbid(unsafe_code)]

pub mod crates;
pub mod edit;
pub mod package;
pub mod published;
pub mod rules;
pub mod tokens;

use crate::edit::{Edit, Unknown};
use crate::rules::{Place, RULES};
use crate::tokens::{Token, tokens};

/// A source behind all rules.
pub struct Extracted<'a> {
    /// What it has become.
    pub tokens: Vec<Token<'a>>,
    /// What each rule has left out, by the rules' names.
    pub left: Vec<(&'static str, Vec<Token<'a>>)>,
}

impl Extracted<'_> {
    /// The text that rustc compiles.
    pub fn text(&self) -> String {
        self.tokens.iter().map(|token| &*token.text).collect()
    }
}

/// A source of the crate that a place tells of, as plain Rust.
///
/// # Errors
/// What a rule doesn't understand, by its line.
pub fn extract<'a>(source: &'a str, place: &Place) -> Result<Extracted<'a>, Unknown> {
    let (mut text, mut left) = (tokens(source), Vec::new());
    for rule in RULES {
        let mut edit = Edit::new(rule.name, text);
        if let Some(begin) = rule.begin {
            begin(&mut edit);
        }
        while !edit.is_at_end() {
            if edit.is_space() || !(rule.apply)(&mut edit, place)? {
                edit.keep();
            }
        }
        let (made, gone) = edit.into_parts();
        left.push((rule.name, gone));
        text = made;
    }
    Ok(Extracted { tokens: text, left })
}
