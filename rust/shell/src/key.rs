//! Keys of all types in one: each is the list that its type encodes it as, and how it is written.
use crate::kind::Width;
use crate::prelude::*;
use crate::words::Read;
use nifazombi::radix_keys::{Address, AsNibbles, Bits, Network, NibbleSlice};
use nifazombi::rattle_std::alloc::AllocError;
use nifazombi::rattle_std::macros::derived_clone;
use std::fmt;
use std::net::{Ipv4Addr, Ipv6Addr};

/// A key: its encoding, and what it is written as. Keys with one encoding are one key, as those of
/// one type are.
pub struct Key {
    list: Nibblet,
    value: Value,
}

/// What a key is written as: a value of its type, or the list of nibbles that it is.
pub enum Value {
    List,
    Text(String),
    Bytes(Vec<u8>),
    Bool(bool),
    Char(char),
    Bits(Bits),
    Ipv4(Network<Ipv4Addr>),
    Ipv6(Network<Ipv6Addr>),
    Parts(Parts),
    Unsigned(u128),
    Signed(i128),
}

derived_clone! { Value {
    List, Text(String), Bytes(Vec<u8>), Bool(bool), Char(char), Bits(Bits),
    Ipv4(Network<Ipv4Addr>), Ipv6(Network<Ipv6Addr>), Parts(Parts), Unsigned(u128), Signed(i128),
} }

/// The list of an integer, if it is one of the width: the words are the types of the widths.
macro_rules! list_of {
    ($number:ident, $width:ident: $($variant:ident $int:ty),+) => {
        match $width {
            $(Width::$variant => match <$int>::try_from($number) {
                Ok(number) => number.encode(Global)?,
                Err(_) => return Ok(None),
            },)+
        }
    };
}

/// The network that a word writes, or that of the address alone that it writes.
fn network_of<A: Address>(word: &str) -> Option<Network<A>> {
    word.parse().ok().or_else(|| A::parse(word).map(Network::host))
}

/// What a word writes, if it writes a value of the type, or an integer of another width.
fn value_of(kind: Kind, word: &str) -> Result<Option<Value>, Memory> {
    Ok(match kind {
        Kind::Nibbles => None,
        Kind::Text => String::read(word)?.map(Value::Text),
        Kind::Bytes => Vec::read(word)?.map(Value::Bytes),
        Kind::Bool => bool::read(word)?.map(Value::Bool),
        Kind::Char => char::read(word)?.map(Value::Char),
        Kind::Bits => Bits::read(word)?.map(Value::Bits),
        Kind::Parts => Parts::read(word)?.map(Value::Parts),
        Kind::Ipv4 => network_of(word).map(Value::Ipv4),
        Kind::Ipv6 => network_of(word).map(Value::Ipv6),
        Kind::Unsigned(_) => word.parse().ok().map(Value::Unsigned),
        Kind::Signed(_) => word.parse().ok().map(Value::Signed),
    })
}

/// The key of the type that the value is, unless it is an integer of another width.
fn key_of(kind: Kind, value: Value) -> Result<Option<Key>, Memory> {
    let list = match (&value, kind) {
        (Value::Unsigned(number), Kind::Unsigned(width)) => {
            let number = *number;
            list_of!(number, width: Bits8 u8, Bits16 u16, Bits32 u32, Bits64 u64, Bits128 u128,
                Size usize)
        }
        (Value::Signed(number), Kind::Signed(width)) => {
            let number = *number;
            list_of!(number, width: Bits8 i8, Bits16 i16, Bits32 i32, Bits64 i64, Bits128 i128,
                Size isize)
        }
        (Value::Text(text), _) => text.encode(Global)?,
        (Value::Bytes(bytes), _) => bytes.encode(Global)?,
        (Value::Bool(truth), _) => truth.encode(Global)?,
        (Value::Char(character), _) => character.encode(Global)?,
        (Value::Bits(bits), _) => bits.encode(Global)?,
        (Value::Parts(parts), _) => parts.encode(Global)?,
        (Value::Ipv4(network), _) => network.encode(Global)?,
        (Value::Ipv6(network), _) => network.encode(Global)?,
        _ => return Ok(None),
    };
    Ok(Some(Key { list, value }))
}

impl Key {
    /// The key that a word writes, if it writes one of the type.
    pub fn read(kind: Kind, word: &str) -> Result<Option<Key>, Memory> {
        match value_of(kind, word)? {
            Some(value) => key_of(kind, value),
            None if kind == Kind::Nibbles => Ok(Nibblet::read(word)?.map(Key::of_list)),
            None => Ok(None),
        }
    }

    /// What a word looks up: behind `\=` a list of nibbles, and else a key.
    pub fn read_query(kind: Kind, word: &str) -> Result<Option<Key>, Memory> {
        match word.strip_prefix("\\=") {
            Some("") => Ok(Some(Key::of_list(Nibblet::new(Global)))),
            Some(digits) => Ok(Nibblet::read(digits)?.map(Key::of_list)),
            None => Key::read(kind, word),
        }
    }

    /// The key that the bytes of a line of a file are: a text or bytes as they stand, and else what
    /// they write, if they write a key of the type.
    pub fn of_line(kind: Kind, line: &[u8]) -> Result<Option<Key>, Memory> {
        match (kind, str::from_utf8(line)) {
            (Kind::Bytes, _) => key_of(kind, Value::Bytes(Vec::from_slice(Global, line)?)),
            (Kind::Text, Ok(text)) => key_of(kind, Value::Text(String::from_str(Global, text)?)),
            (_, Ok(text)) => Key::read(kind, text),
            _ => Ok(None),
        }
    }

    /// A list of nibbles, which stands for itself.
    fn of_list(list: Nibblet) -> Key {
        Key { list, value: Value::List }
    }

    /// What the key is written as.
    pub fn value(&self) -> &Value {
        &self.value
    }

    /// Whether the other key is a prefix of this one, or equals it.
    pub fn begins_with(&self, other: &Key) -> bool {
        other.list.agreement(&self.list, 0) == other.list.len()
    }

    /// Adds what writes the key, as part of a word.
    pub fn write(&self, answer: &mut Answer<'_>) -> Result<(), Memory> {
        match &self.value {
            Value::List => answer.list(&self.list),
            Value::Text(text) => answer.escaped(text.as_bytes()),
            Value::Bytes(bytes) => answer.escaped(bytes),
            Value::Bool(truth) => answer.shown(truth),
            Value::Char(character) => answer.escaped(character.encode_utf8(&mut [0; 4]).as_bytes()),
            Value::Bits(bits) => answer.list(bits.as_list()),
            Value::Parts(parts) => answer.parts(parts),
            Value::Ipv4(network) => answer.shown(network),
            Value::Ipv6(network) => answer.shown(network),
            Value::Unsigned(number) => answer.shown(number),
            Value::Signed(number) => answer.shown(number),
        }
    }
}

impl Clone for Key {
    fn clone(&self) -> Result<Key, AllocError> {
        Ok(Key { list: Clone::clone(&self.list)?, value: self.value.clone()? })
    }
}

impl PartialEq for Key {
    fn eq(&self, other: &Key) -> bool {
        self.list == other.list
    }
}

impl Eq for Key {}

impl TrieKey for Key {
    fn encode(&self, _alloc: Global) -> Result<Nibblet, Memory> {
        self.list.clone()
    }
}

impl AsNibbles for Key {
    /// The list, where a key of the type lends its own.
    fn as_nibbles(&self) -> Option<NibbleSlice<'_>> {
        match &self.value {
            Value::Bool(_) | Value::Char(_) | Value::Unsigned(_) | Value::Signed(_) => None,
            Value::Ipv4(_) | Value::Ipv6(_) => None,
            _ => Some(self.list.as_slice()),
        }
    }
}

impl fmt::Debug for Key {
    fn fmt(&self, f: &mut fmt::Formatter<'_>) -> fmt::Result {
        match &self.value {
            Value::List => fmt::Display::fmt(&self.list, f),
            Value::Text(text) => text.fmt(f),
            Value::Bytes(bytes) => bytes.fmt(f),
            Value::Bool(truth) => truth.fmt(f),
            Value::Char(character) => character.fmt(f),
            Value::Bits(bits) => bits.fmt(f),
            Value::Parts(parts) => parts.fmt(f),
            Value::Ipv4(network) => network.fmt(f),
            Value::Ipv6(network) => network.fmt(f),
            Value::Unsigned(number) => number.fmt(f),
            Value::Signed(number) => number.fmt(f),
        }
    }
}
