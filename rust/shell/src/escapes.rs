//! The words that stand for bytes.
use crate::prelude::*;
use nifazombi::rattle_std::ucd_derived::is_default_ignorable_code_point;

impl Answer<'_> {
    /// Adds bytes as a word that stands for them.
    pub fn escaped(&mut self, bytes: &[u8]) -> Result<(), Memory> {
        let [first, rest @ ..] = bytes else {
            return self.put(b"\"\"");
        };
        // At a line's beginning a stored session reads another mark in these bytes.
        if self.begins_line() && matches!(first, b'#' | b'>') {
            self.coded(*first)?;
            return self.spelled(rest);
        }
        self.spelled(bytes)
    }

    /// Adds what bytes are written as: as characters, if they are a text.
    fn spelled(&mut self, bytes: &[u8]) -> Result<(), Memory> {
        match str::from_utf8(bytes) {
            Ok(text) => text.chars().try_for_each(|it| self.character(it)),
            Err(_) => bytes.iter().try_for_each(|it| self.escape(*it)),
        }
    }

    /// Adds what a character is written as: itself, where a reader sees it.
    fn character(&mut self, character: char) -> Result<(), Memory> {
        if character.is_ascii() {
            return self.escape(character as u8);
        }
        let mut room = [0; 4];
        let bytes = character.encode_utf8(&mut room).as_bytes();
        if is_hidden(character) {
            bytes.iter().try_for_each(|it| self.coded(*it))
        } else {
            self.put(bytes)
        }
    }

    /// Adds what a byte is written as: itself, where a word of a session may have it.
    fn escape(&mut self, byte: u8) -> Result<(), Memory> {
        match byte {
            b' ' => self.put(b"\\s"),
            b'\\' | b'"' => self.put(&[b'\\', byte]),
            0x21..=0x7e => self.put(&[byte]),
            _ => self.coded(byte),
        }
    }

    /// Adds a byte by its two digits.
    fn coded(&mut self, byte: u8) -> Result<(), Memory> {
        let digit = |half: u8| b"0123456789abcdef"[usize::from(half)];
        self.put(&[b'\\', b'x', digit(byte >> 4), digit(byte % 16)])
    }
}

/// Whether a character shows as nothing or as a space, or turns the text around it.
pub fn is_hidden(character: char) -> bool {
    character.is_control()
        || character.is_whitespace()
        || is_default_ignorable_code_point(character)
        || matches!(character, '\u{fff9}'..='\u{fffb}')
}
