//! The tokens of a source, Rattle's or Rust's, each with where it comes from.
use std::borrow::Cow;

/// What a token is.
#[derive(Clone, Copy, Debug, PartialEq, Eq)]
pub enum Kind {
    /// A comment, `///` and `//!` too.
    Comment,
    /// A literal: a text, a character or a number.
    Literal,
    /// A lifetime, with its quote.
    Lifetime,
    /// A word: a name or a keyword.
    Word,
    /// White space.
    Space,
    /// `::`, `->`, `=>`, or one other character.
    Sign,
}

/// Where a token comes from.
#[derive(Clone, Copy, Debug, PartialEq, Eq)]
pub enum Origin {
    /// It is the source's token of this index.
    Source(usize),
    /// The rule of this name has put it.
    Put(&'static str),
}

/// A token, and the line of the source that it stands in or is put into.
#[derive(Clone, Debug)]
pub struct Token<'a> {
    pub kind: Kind,
    pub text: Cow<'a, str>,
    pub line: usize,
    pub origin: Origin,
}

impl Token<'_> {
    /// Whether it says something to a compiler.
    pub fn is_significant(&self) -> bool {
        !matches!(self.kind, Kind::Space | Kind::Comment)
    }
}

/// The tokens of a source, which it is again when they are joined.
pub fn tokens(text: &str) -> Vec<Token<'_>> {
    let (mut found, mut rest, mut line) = (Vec::new(), text, 1);
    while !rest.is_empty() {
        let (kind, length) = first(rest);
        let (token, behind) = rest.split_at(length);
        let origin = Origin::Source(found.len());
        found.push(Token { kind, text: Cow::Borrowed(token), line, origin });
        line += token.matches('\n').count();
        rest = behind;
    }
    found
}

/// The kind and the length in bytes of the first token of a text that isn't empty.
fn first(text: &str) -> (Kind, usize) {
    let start = text.chars().next().unwrap_or(' ');
    if text.starts_with("//") {
        return (Kind::Comment, text.find('\n').unwrap_or(text.len()));
    }
    if text.starts_with("/*") {
        return (Kind::Comment, comment(text));
    }
    if let Some(length) = quoted(text) {
        return (Kind::Literal, length);
    }
    if start.is_whitespace() {
        return (Kind::Space, run(text, char::is_whitespace));
    }
    if start.is_alphanumeric() || start == '_' {
        let kind = if start.is_ascii_digit() { Kind::Literal } else { Kind::Word };
        return (kind, run(text, is_of_word));
    }
    if start == '\'' && text[1..].starts_with(|c: char| c.is_alphabetic() || c == '_') {
        return (Kind::Lifetime, 1 + run(&text[1..], is_of_word));
    }
    let pair = ["::", "->", "=>"].into_iter().find(|pair| text.starts_with(pair));
    (Kind::Sign, pair.map_or(start.len_utf8(), str::len))
}

/// The length of a comment between `/*` and `*/`, in which others may stand.
fn comment(text: &str) -> usize {
    let (mut depth, mut at) = (1, 2);
    while depth > 0 {
        let Some(sign) = text[at..].find(['/', '*']) else {
            return text.len();
        };
        at += sign;
        let (step, length) = match &text.as_bytes()[at..] {
            [b'/', b'*', ..] => (1, 2),
            [b'*', b'/', ..] => (-1, 2),
            _ => (0, 1),
        };
        (depth, at) = (depth + step, at + length);
    }
    at
}

fn is_of_word(c: char) -> bool {
    c.is_alphanumeric() || c == '_'
}

/// How many bytes of a text are such characters, from its start.
fn run(text: &str, is_such: fn(char) -> bool) -> usize {
    text.find(|c| !is_such(c)).unwrap_or(text.len())
}

/// The length of the quoted literal that a text begins with, if it begins with one.
fn quoted(text: &str) -> Option<usize> {
    let prefix = run(text, |c| matches!(c, 'b' | 'c' | 'r'));
    let (before, quote) = text.split_at(prefix.min(2));
    match before {
        "r" | "br" | "cr" => raw(quote).map(|length| before.len() + length),
        "" | "b" | "c" if quote.starts_with('"') => Some(before.len() + escaped(quote, '"')?),
        "" | "b" if quote.starts_with('\'') => Some(before.len() + character(quote)?),
        _ => None,
    }
}

/// The length of `#".."#`, with as many signs on both sides.
fn raw(text: &str) -> Option<usize> {
    let signs = run(text, |c| c == '#');
    let inner = text[signs..].strip_prefix('"')?;
    let end = format!("\"{}", &text[..signs]);
    Some(signs + 1 + inner.find(&end)? + end.len())
}

/// The length of what stands between two such quotes, and of these.
fn escaped(text: &str, quote: char) -> Option<usize> {
    let mut is_escape = false;
    for (at, c) in text.char_indices().skip(1) {
        if c == quote && !is_escape {
            return Some(at + 1);
        }
        is_escape = c == '\\' && !is_escape;
    }
    None
}

/// The length of a character between quotes; a lifetime is none.
fn character(text: &str) -> Option<usize> {
    let mut inner = text[1..].chars();
    let c = inner.next()?;
    match c {
        '\\' => escaped(text, '\''),
        '\'' | '\n' => None,
        _ => inner.as_str().starts_with('\'').then_some(2 + c.len_utf8()),
    }
}
