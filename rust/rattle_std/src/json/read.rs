//! The tokens of a JSON text.
use crate::alloc::Global;
use crate::json::{Error, Number};
use crate::string::String;
use crate::vec::Vec;

/// A text, and how far it is read.
pub(crate) struct Reader<'a> {
    text: &'a [u8],
    at: usize,
}

impl<'a> Reader<'a> {
    /// The text, of which nothing is read yet.
    pub(crate) fn new(text: &'a str) -> Reader<'a> {
        Reader { text: text.as_bytes(), at: 0 }
    }
    /// The next byte, which isn't taken.
    pub(crate) fn peek(&self) -> Option<u8> {
        self.text.get(self.at).copied()
    }
    /// Takes the next byte.
    pub(crate) fn next(&mut self) -> Result<u8, Error> {
        let byte = self.peek().ok_or(Error::Eof)?;
        self.at += 1;
        Ok(byte)
    }
    /// Takes white space, and gives the byte behind it, which isn't taken.
    pub(crate) fn peek_token(&mut self) -> Option<u8> {
        while let Some(b' ' | b'\t' | b'\n' | b'\r') = self.peek() {
            self.at += 1;
        }
        self.peek()
    }
    /// Takes what has to come next.
    pub(crate) fn expect(&mut self, expected: &[u8]) -> Result<(), Error> {
        for byte in expected {
            if self.next()? != *byte {
                return Err(Error::Syntax);
            }
        }
        Ok(())
    }
    /// Takes the text's end.
    pub(crate) fn end(&mut self) -> Result<(), Error> {
        match self.peek_token() {
            None => Ok(()),
            Some(_) => Err(Error::Syntax),
        }
    }
    /// Takes the comma before an item that comes behind so many, or the end of them, and gives
    /// whether there is an item.
    pub(crate) fn goes_on(&mut self, count: usize, end: u8) -> Result<bool, Error> {
        self.peek_token();
        if self.take_one_of(&[end]) {
            return Ok(false);
        }
        if count > 0 {
            self.expect(b",")?;
            if self.peek_token() == Some(end) {
                return Err(Error::Syntax);
            }
        }
        Ok(true)
    }
    /// Takes a member's name, and the colon behind it.
    pub(crate) fn key(&mut self) -> Result<String, Error> {
        self.peek_token();
        let key = self.string()?;
        self.peek_token();
        self.expect(b":")?;
        Ok(key)
    }
    /// Takes a member's name that is a number as JSON has it, without an escape, and the colon.
    pub(crate) fn number_key(&mut self) -> Result<Number, Error> {
        self.peek_token();
        let from = self.at + 1;
        self.key()?;
        let mut name = Reader { text: &self.text[from..], at: 0 };
        let number = name.number().map_err(|_| Error::Data)?;
        if name.peek() == Some(b'"') { Ok(number) } else { Err(Error::Data) }
    }
    /// Takes a number.
    pub(crate) fn number(&mut self) -> Result<Number, Error> {
        let from = self.at;
        self.take_one_of(b"-");
        let first = self.peek();
        if self.digits()? > 1 && first == Some(b'0') {
            return Err(Error::Syntax);
        }
        let mut is_float = false;
        if self.take_one_of(b".") {
            is_float = true;
            self.digits()?;
        }
        if self.take_one_of(b"eE") {
            is_float = true;
            self.take_one_of(b"+-");
            self.digits()?;
        }
        let text = str::from_utf8(&self.text[from..self.at]).map_err(|_| Error::Syntax)?;
        number_of(text, is_float)
    }
    /// Takes the next byte if it is one of these.
    fn take_one_of(&mut self, bytes: &[u8]) -> bool {
        let is_taken = self.peek().is_some_and(|byte| bytes.contains(&byte));
        self.at += usize::from(is_taken);
        is_taken
    }
    /// Takes digits, one at least, and gives how many.
    fn digits(&mut self) -> Result<usize, Error> {
        let from = self.at;
        while self.take_one_of(b"0123456789") {}
        match (self.at - from, self.peek()) {
            (0, None) => Err(Error::Eof),
            (0, Some(_)) => Err(Error::Syntax),
            (count, _) => Ok(count),
        }
    }
    /// Takes a text between quotes.
    pub(crate) fn string(&mut self) -> Result<String, Error> {
        self.expect(b"\"")?;
        let mut out = Vec::new(Global);
        loop {
            let from = self.at;
            while self.peek().is_some_and(|byte| !matches!(byte, b'"' | b'\\' | 0..32)) {
                self.at += 1;
            }
            out.extend_from_slice(&self.text[from..self.at])?;
            match self.next()? {
                b'"' => return String::from_utf8(out).map_err(|_| Error::Syntax),
                b'\\' => self.escape(&mut out)?,
                _ => return Err(Error::Syntax),
            }
        }
    }
    /// Takes what stands behind a backslash.
    fn escape(&mut self, out: &mut Vec<u8>) -> Result<(), Error> {
        let byte = match self.next()? {
            b'u' => return self.character(out),
            b'b' => 8,
            b'f' => 12,
            b'n' => b'\n',
            b'r' => b'\r',
            b't' => b'\t',
            byte @ (b'"' | b'\\' | b'/') => byte,
            _ => return Err(Error::Syntax),
        };
        Ok(out.extend_from_slice(&[byte])?)
    }
    /// Takes a character by its code units: two, if the first is half of a pair.
    fn character(&mut self, out: &mut Vec<u8>) -> Result<(), Error> {
        let mut code = self.code_unit()?;
        if let 0xd800..0xdc00 = code {
            self.expect(b"\\u")?;
            let low @ 0xdc00..0xe000 = self.code_unit()? else {
                return Err(Error::Syntax);
            };
            code = 0x10000 + (code - 0xd800) * 1024 + (low - 0xdc00);
        }
        let character = char::from_u32(code).ok_or(Error::Syntax)?;
        Ok(out.extend_from_slice(character.encode_utf8(&mut [0; 4]).as_bytes())?)
    }
    /// Takes four hexadecimal digits.
    fn code_unit(&mut self) -> Result<u32, Error> {
        let mut code = 0;
        for _ in 0..4 {
            let digit = char::from(self.next()?).to_digit(16);
            code = code * 16 + digit.ok_or(Error::Syntax)?;
        }
        Ok(code)
    }
}

/// The number of a text. A whole one that no integer fits is a float, and so is minus zero.
fn number_of(text: &str, is_float: bool) -> Result<Number, Error> {
    if !is_float && let Ok(number) = text.parse() {
        return Ok(Number::Whole(number));
    }
    if !is_float && let Some(number) = text.parse().ok().filter(|number| *number != 0) {
        return Ok(Number::Below(number));
    }
    let number = text.parse().ok().filter(|number: &f64| number.is_finite());
    number.map(Number::Float).ok_or(Error::Syntax)
}
