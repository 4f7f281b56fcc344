//! JSON values, and other values as JSON.
use crate::alloc::{AllocError, Global};
use crate::clone::Clone;
use crate::itoa::Buffer;
use crate::json::Writer;
use crate::json::read::Reader;
use crate::serde::{Deserialize, Deserializer, Format, Serialize, Serializer};
use crate::string::String;
use crate::vec::Vec;
use std::mem;

pub use crate::json::Error as Category;
pub use crate::json::{Error, Number};

/// How deep a text may nest, which is read by recursion.
const DEEPEST: usize = 127;

/// A JSON value.
#[derive(Debug, PartialEq)]
pub enum Value {
    Null,
    Bool(bool),
    Number(Number),
    String(String),
    Array(Vec<Value>),
    Object(Map<String, Value>),
}

/// Values by their names, in the order of these.
#[derive(Debug, PartialEq)]
pub struct Map<K, V>(Vec<(K, V)>);

impl<K: Ord, V> Map<K, V> {
    /// The empty map, which takes no memory.
    pub fn new(alloc: Global) -> Map<K, V> {
        Map(Vec::new(alloc))
    }
    /// The count of members.
    pub fn len(&self) -> usize {
        self.0.len()
    }
    /// The members, in the order of their names.
    pub fn iter(&self) -> impl DoubleEndedIterator<Item = (&K, &V)> {
        self.0.iter().map(|row| (&row.0, &row.1))
    }
    /// Gives the name this value, and returns the one that it had, or an error of memory.
    pub fn insert(&mut self, key: K, value: V) -> Result<Option<V>, AllocError> {
        match self.0.binary_search_by(|row| row.0.cmp(&key)) {
            Ok(at) => Ok(Some(mem::replace(&mut self.0[at].1, value))),
            Err(at) => {
                self.0.insert(at, (key, value))?;
                Ok(None)
            }
        }
    }
}

/// Gives a copy of the name this value in the map, or fails, and leaves the map as it was.
pub fn put(
    members: &mut Map<String, Value>,
    alloc: Global,
    key: &str,
    value: Value,
) -> Result<(), AllocError> {
    members.insert(String::from_str(alloc, key)?, value)?;
    Ok(())
}

impl Clone for Value {
    fn clone(&self) -> Result<Value, AllocError> {
        Ok(match self {
            Value::Null => Value::Null,
            Value::Bool(truth) => Value::Bool(*truth),
            Value::Number(number) => Value::Number(*number),
            Value::String(text) => Value::String(text.clone()?),
            Value::Array(items) => Value::Array(items.clone()?),
            Value::Object(members) => Value::Object(Map(members.0.clone()?)),
        })
    }
}

impl From<u64> for Value {
    fn from(number: u64) -> Value {
        Value::Number(Number::Whole(number))
    }
}

impl Value {
    /// The value of a text, or an error where it is no JSON, nests too deep, or memory is refused.
    pub fn from_str(_alloc: Global, text: &str) -> Result<Value, Error> {
        let mut reader = Reader::new(text);
        let value = read(&mut reader, DEEPEST)?;
        reader.end()?;
        Ok(value)
    }
    /// The value as a text without a space, or an error of memory.
    pub fn to_string(&self, alloc: Global) -> Result<String, AllocError> {
        let mut out = Writer::new(Vec::new(alloc));
        self.write(&mut out)?;
        String::from_utf8(out.into_inner()).map_err(|_| AllocError)
    }
    /// The members, if it is an object.
    pub fn as_object(&self) -> Option<&Map<String, Value>> {
        match self {
            Value::Object(members) => Some(members),
            _ => None,
        }
    }
    fn write(&self, out: &mut Writer) -> Result<(), AllocError> {
        match self {
            Value::Null => out.word("null"),
            Value::Bool(truth) => out.word(if *truth { "true" } else { "false" }),
            Value::Number(Number::Whole(number)) => out.word(Buffer::new().format(*number)),
            Value::Number(Number::Below(number)) => out.word(Buffer::new().format(*number)),
            Value::Number(Number::Float(number)) => out.word(&float_text(*number)?),
            Value::String(text) => out.string(text),
            Value::Array(items) => {
                out.begin_list()?;
                for item in items {
                    item.write(out)?;
                }
                out.end(b']')
            }
            Value::Object(members) => {
                out.begin_object()?;
                for (key, value) in members.iter() {
                    out.key(key)?;
                    value.write(out)?;
                }
                out.end(b'}')
            }
        }
    }
}

/// The digits of a float, as Rattle's `serde_json` writes them: Rust's own text has no `+`, and has
/// a power of ten from 0.0001 downward already.
fn float_text(number: f64) -> Result<String, AllocError> {
    let text = crate::macros::format!(in Global; "{number:?}")?;
    match text.split_once('e') {
        Some((_, "-5")) => crate::macros::format!(in Global; "{number}"),
        Some((digits, power)) if !power.starts_with('-') => {
            crate::macros::format!(in Global; "{digits}e+{power}")
        }
        _ => Ok(text),
    }
}

/// Takes a value that nests no deeper than `depth`.
fn read(reader: &mut Reader<'_>, depth: usize) -> Result<Value, Error> {
    match reader.peek_token().ok_or(Error::Eof)? {
        b'n' => reader.expect(b"null").map(|()| Value::Null),
        b't' => reader.expect(b"true").map(|()| Value::Bool(true)),
        b'f' => reader.expect(b"false").map(|()| Value::Bool(false)),
        b'"' => reader.string().map(Value::String),
        b'-' | b'0'..=b'9' => reader.number().map(Value::Number),
        b'[' | b'{' if depth == 0 => Err(Error::Syntax),
        b'[' => read_items(reader, depth - 1).map(Value::Array),
        b'{' => read_members(reader, depth - 1).map(Value::Object),
        _ => Err(Error::Syntax),
    }
}

fn read_items(reader: &mut Reader<'_>, depth: usize) -> Result<Vec<Value>, Error> {
    let mut items = Vec::new(Global);
    reader.expect(b"[")?;
    while reader.goes_on(items.len(), b']')? {
        items.push(read(reader, depth)?).map_err(AllocError::from)?;
    }
    Ok(items)
}

/// Of members of one name the last stays.
fn read_members(reader: &mut Reader<'_>, depth: usize) -> Result<Map<String, Value>, Error> {
    let mut members = Map::new(Global);
    reader.expect(b"{")?;
    while reader.goes_on(members.len(), b'}')? {
        let key = reader.key()?;
        members.insert(key, read(reader, depth)?)?;
    }
    Ok(members)
}

/// The value as a JSON text, or an error of memory.
pub fn to_string<T: Serialize>(alloc: Global, value: &T) -> Result<String, Error> {
    let mut out = Out { writer: Writer::new(Vec::new(alloc)), is_key: false };
    value.serialize(&mut out)?;
    String::from_utf8(out.writer.into_inner()).map_err(|_| Error::Data)
}

/// The value of a JSON text, or an error where it is none, or none of the type, or memory is
/// refused.
pub fn from_str<'de, T: Deserialize<'de>>(alloc: Global, text: &'de str) -> Result<T, Error> {
    let mut from = Deserializer::<Json>::new(text);
    let value = T::deserialize(alloc, &mut from)?;
    from.reader.end()?;
    Ok(value)
}

/// The format.
struct Json;

impl Format for Json {
    type Error = Error;
}

/// What writes the value, and whether a key comes next.
struct Out {
    writer: Writer,
    is_key: bool,
}

impl Serializer for Out {
    type Error = AllocError;
    fn begin_map(&mut self, _count: Option<usize>) -> Result<(), AllocError> {
        self.writer.begin_object()
    }
    fn begin_key(&mut self) -> Result<(), AllocError> {
        self.is_key = true;
        Ok(())
    }
    fn end_key(&mut self) -> Result<(), AllocError> {
        self.is_key = false;
        Ok(())
    }
    fn end_map(&mut self) -> Result<(), AllocError> {
        self.writer.end_object()
    }
    fn str(&mut self, text: &str) -> Result<(), AllocError> {
        if self.is_key { self.writer.key(text) } else { self.writer.string(text) }
    }
    fn u64(&mut self, number: u64) -> Result<(), AllocError> {
        if self.is_key {
            self.writer.key(Buffer::new().format(number))
        } else {
            self.writer.u64(number)
        }
    }
}
