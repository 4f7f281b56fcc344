//! The words of a line, and what each of them writes.
use crate::prelude::*;
use nifazombi::radix_keys::{Address, Bits, Network, PartsError};

/// A call's name, and the words behind it, each parted from the next by one space.
#[derive(Clone, Copy, Default)]
pub struct Words<'a> {
    pub name: &'a str,
    /// The text from the next word on.
    pub text: &'a str,
    /// How many words are left.
    pub left: usize,
}

impl<'a> Words<'a> {
    /// The call that a text names, and the words behind it.
    pub fn of(text: &'a str) -> Words<'a> {
        let (name, rest) = text.split_once(' ').unwrap_or((text, ""));
        Words { name, text: rest, left: text.bytes().filter(|byte| *byte == b' ').count() }
    }
}

impl<'a> Iterator for Words<'a> {
    type Item = &'a str;

    fn next(&mut self) -> Option<&'a str> {
        self.left = self.left.checked_sub(1)?;
        let (word, rest) = self.text.split_once(' ').unwrap_or((self.text, ""));
        self.text = rest;
        Some(word)
    }
}

/// The value of a hexadecimal digit.
pub fn digit(byte: u8) -> Option<u8> {
    char::from(byte).to_digit(16).map(|digit| digit as u8)
}

/// The first byte that the word stands for, and what comes after it. None where it stands for none,
/// as at a quote.
fn first_byte(word: &[u8]) -> Option<(u8, &[u8])> {
    match word {
        [b'\\', b's', after @ ..] => Some((b' ', after)),
        [b'\\', byte @ (b'\\' | b'"'), after @ ..] => Some((*byte, after)),
        [b'\\', b'x', high, low, after @ ..] => Some((digit(*high)? * 16 + digit(*low)?, after)),
        [b'\\' | b'"', ..] | [] => None,
        [byte, after @ ..] => Some((*byte, after)),
    }
}

/// What a word of a line may write.
pub trait Read: Sized {
    /// What the word writes, if it writes such a thing.
    fn read(word: &str) -> Result<Option<Self>, Memory>;
}

/// The bytes that a word stands for: its own, but for `\s`, a space, `\\`, `\"` and `\xNN`, and for
/// `""`, which stands for none.
impl Read for Vec<u8> {
    fn read(word: &str) -> Result<Option<Vec<u8>>, Memory> {
        let mut bytes = Vec::new(Global);
        let mut rest = if word == "\"\"" { b"" } else { word.as_bytes() };
        while !rest.is_empty() {
            let Some((byte, after)) = first_byte(rest) else {
                return Ok(None);
            };
            bytes.push(byte)?;
            rest = after;
        }
        Ok((!word.is_empty()).then_some(bytes))
    }
}

impl Read for String {
    fn read(word: &str) -> Result<Option<String>, Memory> {
        Ok(Vec::read(word)?.and_then(|bytes| String::from_utf8(bytes).ok()))
    }
}

impl Read for bool {
    fn read(word: &str) -> Result<Option<bool>, Memory> {
        Ok(word.parse().ok())
    }
}

impl Read for char {
    fn read(word: &str) -> Result<Option<char>, Memory> {
        Ok(String::read(word)?.and_then(|text| text.parse().ok()))
    }
}

/// Numbers, with a comma between two.
impl Read for Vec<u16> {
    fn read(word: &str) -> Result<Option<Vec<u16>>, Memory> {
        let mut numbers = Vec::new(Global);
        for text in word.split(',') {
            match text.parse() {
                Ok(number) => numbers.push(number)?,
                Err(_) => return Ok(None),
            }
        }
        Ok(Some(numbers))
    }
}

/// A hexadecimal digit for each nibble, and two quotes for the empty list.
impl Read for Nibblet {
    fn read(word: &str) -> Result<Option<Nibblet>, Memory> {
        if word == "\"\"" {
            return Ok(Some(Nibblet::new(Global)));
        }
        let list = Nibblet::from_hex(Global, word)?;
        Ok(list.filter(|list| !list.is_empty()))
    }
}

/// A part stands behind a slash, and has none itself.
impl Read for Parts {
    fn read(word: &str) -> Result<Option<Parts>, Memory> {
        let Some(text) = String::read(word)? else {
            return Ok(None);
        };
        let Some(names) = text.strip_prefix('/') else {
            return Ok(text.is_empty().then(|| Parts::new(Global)));
        };
        match Parts::split(Global, names, b'/') {
            Ok(parts) => Ok(Some(parts)),
            Err(PartsError::Zero) => Ok(None),
            Err(PartsError::Memory) => Err(Memory),
        }
    }
}

/// The most bits that a word writes.
const MOST_BITS: usize = 128;

impl Read for Bits {
    fn read(word: &str) -> Result<Option<Bits>, Memory> {
        let word = if word == "\"\"" { Some("") } else { Some(word).filter(|it| !it.is_empty()) };
        let Some(digits) = word.filter(|it| it.len() <= MOST_BITS) else {
            return Ok(None);
        };
        let mut number = 0u128;
        for (place, byte) in digits.bytes().enumerate() {
            match byte {
                b'1' => number |= 1 << (MOST_BITS - 1 - place),
                b'0' => {}
                _ => return Ok(None),
            }
        }
        Ok(Some(Bits::first_of_u128(Global, number, digits.len())?))
    }
}

impl<A: Address> Read for Network<A> {
    fn read(word: &str) -> Result<Option<Network<A>>, Memory> {
        Ok(String::read(word)?.and_then(|text| text.parse().ok()))
    }
}
