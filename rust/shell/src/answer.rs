//! What a line is answered, as it grows, and the words that are left of the line.
use crate::own::own;
use crate::prelude::*;
use crate::words::{Read, Words};
use nifazombi::flat_texts::{ImageError, TableError};
use nifazombi::frozen_trie::{FileError, FileWhy, PushWhy, SortedWhy};
use nifazombi::radix_keys::{BytesError, PartsError, Refused};
use nifazombi::radix_trie::{
    BuildError, FindError, GraftWhy, InsertError, InsertWhy, JsonError, MergeError, OpenError,
    SubTrieError, TrieError, TryInsertWhy,
};
use nifazombi::rattle_std::alloc::{AllocError, AllocFailed};
use nifazombi::rattle_std::itoa::Buffer;
use programs::line_sessions::Refusal;
use programs::whole_files::FileFault;
use std::cmp::Ordering;
use std::fmt;
use std::io;
use std::str::FromStr;

/// What is answered where memory fails for a call.
const OUT_OF_MEMORY: &[u8] = b"out of memory\n";
/// What is answered where a call has another count of words.
pub const OTHER_COUNT: &str = "another count of words";
/// How many bytes have room before a call is made, so that its answer doesn't fail behind it.
const ROOM: usize = 512;

/// Why a call has no answer of its own: memory failed for it, or what is answered in its place.
#[derive(Clone, Copy)]
pub enum Stop {
    Memory,
    Said(&'static str),
    /// The same, with a number behind it.
    SaidAt(&'static str, usize),
    /// That a call has another count of words, with its form.
    OtherCount(&'static str),
    /// That there is no file, and why.
    NoFile(&'static str),
    /// Why a file holds no pairs, at which of them, and at which byte.
    AtPair(&'static str, u64, u64),
}

pub type Outcome = Result<(), Stop>;

impl From<Memory> for Stop {
    fn from(_: Memory) -> Stop {
        Stop::Memory
    }
}

impl<T> From<AllocFailed<T>> for Stop {
    fn from(_: AllocFailed<T>) -> Stop {
        Stop::Memory
    }
}

/// The errors of tries, and the word for each.
pub const ERRORS: &[(&str, TrieError)] = &[
    ("memory", TrieError::Memory),
    ("full", TrieError::Full),
    ("outside", TrieError::Outside),
    ("occupied", TrieError::Occupied),
    ("overlapping", TrieError::Overlapping),
    ("absent", TrieError::Absent),
    ("closed", TrieError::Closed),
    ("kind", TrieError::Kind),
    ("float", TrieError::Float),
    ("odd", TrieError::Odd),
    ("zero", TrieError::Zero),
];

impl From<TrieError> for Stop {
    fn from(error: TrieError) -> Stop {
        match ERRORS.iter().find(|(_, it)| *it == error) {
            Some((word, _)) if error != TrieError::Memory => Stop::Said(word),
            _ => Stop::Memory,
        }
    }
}

macro_rules! stops {
    ($($error:ty),+ $(,)?) => {
        $(impl From<$error> for Stop {
            fn from(error: $error) -> Stop {
                TrieError::from(error).into()
            }
        })+
    };
}

stops! {
    AllocError, BuildError, BytesError, FindError, GraftWhy, InsertError<Key, u64>, InsertWhy,
    JsonError, MergeError<Key, u64>, OpenError, PartsError, Refused<Memory, Key>,
    Refused<TryInsertWhy, (Key, u64)>, SubTrieError,
}

impl From<PushWhy> for Stop {
    fn from(why: PushWhy) -> Stop {
        match why {
            PushWhy::Memory => Stop::Memory,
            PushWhy::Full => Stop::Said("full"),
            PushWhy::OutOfOrder => Stop::Said("unsorted"),
        }
    }
}

impl From<ImageError> for Stop {
    fn from(error: ImageError) -> Stop {
        match error {
            ImageError::Short => Stop::Said("short"),
            ImageError::Mark => Stop::Said("mark"),
            ImageError::Version => Stop::Said("version"),
            ImageError::Part(place) => Stop::SaidAt("part", place),
            ImageError::Row(place) => Stop::SaidAt("pair", place),
            ImageError::Span(place) => Stop::SaidAt("span", place),
            ImageError::Cell(place) => Stop::SaidAt("count", place),
        }
    }
}

impl From<TableError> for Stop {
    fn from(error: TableError) -> Stop {
        match error {
            TableError::Image(error) => error.into(),
            TableError::Memory => Stop::Memory,
        }
    }
}

impl From<SortedWhy> for Stop {
    fn from(why: SortedWhy) -> Stop {
        match why {
            SortedWhy::Memory => Stop::Memory,
            SortedWhy::Full => Stop::Said("full"),
            SortedWhy::OutOfOrder(place) => Stop::SaidAt("unsorted", place),
        }
    }
}

impl From<FileFault> for Stop {
    fn from(fault: FileFault) -> Stop {
        match fault {
            FileFault::Memory => Stop::Memory,
            _ => Stop::NoFile(fault.text()),
        }
    }
}

impl From<io::Error> for Stop {
    fn from(error: io::Error) -> Stop {
        FileFault::from(error).into()
    }
}

impl From<FileError> for Stop {
    fn from(error: FileError) -> Stop {
        let why = match error.why {
            FileWhy::Memory => return Stop::Memory,
            FileWhy::Read => return FileFault::Failed.into(),
            FileWhy::Magic => "magic",
            FileWhy::Version => "version",
            FileWhy::Short => "short",
            FileWhy::Key => "key",
            FileWhy::Value => "value",
            FileWhy::OutOfOrder => "unsorted",
            FileWhy::Long => "long",
            FileWhy::Full => "full",
        };
        Stop::AtPair(why, error.pair, error.place)
    }
}

/// The answer to a line, behind those that wait, and the words that are left of the line.
pub struct Answer<'a> {
    /// The type of the keys.
    pub kind: Kind,
    /// The call that is answered, and the words that haven't been read.
    pub words: Words<'a>,
    /// Whether a line of it tells why a call isn't made, or that it fails.
    pub is_refusal: bool,
    /// Whether it is written in colours what has some.
    pub is_coloured: bool,
    bytes: &'a mut Vec<u8>,
    /// Where the label begins that is being written: a quote in it stands behind a backslash.
    label: Option<usize>,
}

impl<'a> Answer<'a> {
    /// No answer yet, behind those that wait.
    pub fn new(kind: Kind, words: Words<'a>, bytes: &'a mut Vec<u8>) -> Answer<'a> {
        Answer { kind, words, is_refusal: false, is_coloured: false, bytes, label: None }
    }

    /// Has a call with other words answered where this answer goes on.
    pub fn inner(
        &mut self,
        words: Words<'_>,
        does: impl FnOnce(&mut Answer<'_>) -> Outcome,
    ) -> Outcome {
        let mut inner = Answer::new(self.kind, words, self.bytes);
        inner.is_coloured = self.is_coloured;
        let outcome = does(&mut inner);
        inner.told(outcome)?;
        self.is_refusal |= inner.is_refusal;
        Ok(())
    }

    /// The name that the next word is.
    pub fn next_name(&mut self) -> Result<&'a str, Stop> {
        let name = self.next_word();
        if name.is_empty() { Err(Stop::Said("no name")) } else { Ok(name) }
    }

    /// The next word, or none.
    pub fn next_word(&mut self) -> &'a str {
        self.words.next().unwrap_or("")
    }

    /// What the next word writes, if it writes such a thing.
    pub fn next_read<T: Read>(&mut self) -> Result<Option<T>, Memory> {
        match self.words.next() {
            Some(word) => own(|| T::read(word)),
            None => Ok(None),
        }
    }

    /// The same, where a key is asked for.
    pub fn next<T: Read>(&mut self) -> Result<T, Stop> {
        self.next_read()?.ok_or(Stop::Said(NO_KEY))
    }

    /// The list that the next word writes.
    pub fn next_list(&mut self) -> Result<Nibblet, Stop> {
        self.next_read()?.ok_or(Stop::Said(NO_LIST))
    }

    /// The key that the next word writes.
    pub fn next_key(&mut self) -> Result<Key, Stop> {
        self.next_key_of(self.kind)
    }

    /// The same of another type.
    pub fn next_key_of(&mut self, kind: Kind) -> Result<Key, Stop> {
        let word = self.next_word();
        own(|| Key::read(kind, word))?.ok_or(Stop::Said(NO_KEY))
    }

    /// What the next word looks up: a key or a list.
    pub fn next_query(&mut self) -> Result<Key, Stop> {
        let word = self.next_word();
        self.query_of(word)
    }

    /// The pair that the next words write.
    pub fn next_pair(&mut self) -> Result<(Key, u64), Stop> {
        Ok((self.next_key()?, self.next_number()?))
    }

    /// What the next word looks up, and the number of the one behind it.
    pub fn next_target(&mut self) -> Result<(Key, u64), Stop> {
        Ok((self.next_query()?, self.next_number()?))
    }

    /// What a word looks up.
    pub fn query_of(&self, word: &str) -> Result<Key, Stop> {
        own(|| Key::read_query(self.kind, word))?.ok_or(Stop::Said(NO_KEY))
    }

    /// The number of some type that the next word writes.
    pub fn next_parsed<T: FromStr>(&mut self) -> Result<T, Stop> {
        self.next_word().parse().map_err(|_| Stop::Said(NO_NUMBER))
    }

    /// The number that the next word writes.
    pub fn next_number(&mut self) -> Result<u64, Stop> {
        self.next_parsed()
    }

    /// Adds bytes. There is always room behind them to say that memory failed.
    pub fn put(&mut self, bytes: &[u8]) -> Result<(), Memory> {
        if self.label.is_some() {
            return bytes.iter().try_for_each(|byte| self.put_quoted(*byte));
        }
        self.bytes.reserve(bytes.len() + OUT_OF_MEMORY.len())?;
        Ok(self.bytes.extend_from_slice(bytes)?)
    }

    /// Adds a byte of a label.
    fn put_quoted(&mut self, byte: u8) -> Result<(), Memory> {
        let slash = matches!(byte, b'\\' | b'"').then_some(b'\\');
        self.bytes.reserve(2 + OUT_OF_MEMORY.len())?;
        for byte in slash.into_iter().chain([byte]) {
            self.bytes.push(byte)?;
        }
        Ok(())
    }

    /// Adds a label between quotes, with a backslash before each backslash and each quote in it.
    pub fn label(&mut self, write: impl FnOnce(&mut Self) -> Outcome) -> Outcome {
        self.put(b"\"")?;
        self.label = Some(self.bytes.len());
        let outcome = write(self);
        self.label = None;
        outcome?;
        Ok(self.put(b"\"")?)
    }

    /// Begins a word: a space parts it from the one before.
    pub fn begin_word(&mut self) -> Result<(), Memory> {
        let is_first = self.label == Some(self.bytes.len()) || self.begins_line();
        if is_first || self.bytes.last() == Some(&b' ') { Ok(()) } else { self.put(b" ") }
    }

    /// Whether what is written next begins a line.
    pub fn begins_line(&self) -> bool {
        matches!(self.bytes.last(), None | Some(b'\n'))
    }

    /// Adds a word.
    pub fn word(&mut self, text: &str) -> Result<(), Memory> {
        self.begin_word()?;
        self.put(text.as_bytes())
    }

    /// Ends the line.
    pub fn end(&mut self) -> Outcome {
        Ok(self.put(b"\n")?)
    }

    /// Adds a line of its own.
    pub fn line(&mut self, text: &str) -> Outcome {
        self.word(text)?;
        self.end()
    }

    /// Adds what is answered in place of a call's own answer, unless memory failed for it.
    pub fn told(&mut self, outcome: Outcome) -> Result<(), Memory> {
        let Err(stop) = outcome else {
            return Ok(());
        };
        self.is_refusal = true;
        self.refuse(stop).map_err(|_| Memory)
    }

    /// Adds the line that says why.
    fn refuse(&mut self, stop: Stop) -> Outcome {
        self.begin_word()?;
        match stop {
            Stop::Memory => return Err(stop),
            Stop::Said(why) => self.put(why.as_bytes())?,
            Stop::SaidAt(why, number) => self.shown(&format_args!("{why} {number}"))?,
            Stop::OtherCount(form) => self.shown(&format_args!("{OTHER_COUNT}: {form}"))?,
            Stop::NoFile(why) => self.shown(&format_args!("no file: {why}"))?,
            Stop::AtPair(why, pair, place) => {
                self.shown(&format_args!("{why} at pair {pair}, byte {place}"))?
            }
        }
        self.end()
    }

    /// Makes room for what is written so, and takes it back: behind a change it is written anew,
    /// where no memory may fail.
    pub fn rehearse(&mut self, write: impl FnOnce(&mut Self) -> Outcome) -> Outcome {
        let length = self.bytes.len();
        let outcome = own(|| write(self));
        self.bytes.truncate(length);
        outcome
    }

    /// Takes back what was written from a place on, and gives it to a function before.
    pub fn take_back<T>(&mut self, from: usize, take: impl FnOnce(&[u8]) -> T) -> T {
        let taken = take(self.bytes.get(from..).unwrap_or(&[]));
        self.bytes.truncate(from);
        taken
    }

    /// How many bytes are written, with the answers before.
    pub fn len(&self) -> usize {
        self.bytes.len()
    }

    /// Adds a key as a word.
    pub fn key(&mut self, key: &Key) -> Result<(), Memory> {
        self.begin_word()?;
        key.write(self)
    }

    /// Adds what is shown of a value, as part of a word.
    pub fn shown<T: fmt::Display>(&mut self, value: &T) -> Result<(), Memory> {
        fmt::Write::write_fmt(self, format_args!("{value}")).map_err(|_| Memory)
    }

    /// Adds a line: what is shown of a value.
    pub fn shown_line<T: fmt::Display>(&mut self, value: &T) -> Outcome {
        self.shown(value)?;
        self.end()
    }

    /// Adds a list of nibbles as a word, a hexadecimal digit for each.
    pub fn list(&mut self, list: &Nibblet) -> Result<(), Memory> {
        self.begin_word()?;
        if list.is_empty() { self.put(b"\"\"") } else { self.shown(list) }
    }

    /// The same, in cyan where the answer is in colours.
    pub fn coloured_list(&mut self, list: &Nibblet) -> Result<(), Memory> {
        self.begin_word()?;
        if !self.is_coloured {
            return self.list(list);
        }
        self.put(b"\x1b[36m")?;
        if list.is_empty() { self.put(b"\"\"") } else { self.shown(list) }?;
        self.put(b"\x1b[0m")
    }

    /// Adds a line: a list of nibbles.
    pub fn list_line(&mut self, list: &Nibblet) -> Outcome {
        self.list(list)?;
        self.end()
    }

    /// Adds a list of parts as part of a word, each part behind a slash.
    pub fn parts(&mut self, parts: &Parts) -> Result<(), Memory> {
        if parts.is_empty() {
            return self.put(b"\"\"");
        }
        for part in parts.iter() {
            self.put(b"/")?;
            if !part.is_empty() {
                self.escaped(part)?;
            }
        }
        Ok(())
    }

    /// Adds a number as a word.
    pub fn number(&mut self, number: u128) -> Result<(), Memory> {
        self.word(Buffer::new().format(number))
    }

    /// Adds a value as a word, or that there is none.
    pub fn value(&mut self, value: Option<u64>) -> Result<(), Memory> {
        match value {
            Some(number) => self.number(number.into()),
            None => self.word(NONE),
        }
    }

    /// Adds a line: the value, or that there is none.
    pub fn value_line(&mut self, value: Option<u64>) -> Outcome {
        self.value(value)?;
        self.end()
    }

    /// Adds a line: a count.
    pub fn count_line(&mut self, count: usize) -> Outcome {
        self.number(count as u128)?;
        self.end()
    }

    /// Adds a line: true or false.
    pub fn truth_line(&mut self, is_true: bool) -> Outcome {
        self.line(if is_true { "true" } else { "false" })
    }

    /// Adds a line: how one value compares with another.
    pub fn order_line(&mut self, order: Ordering) -> Outcome {
        self.line(match order {
            Ordering::Less => "less",
            Ordering::Equal => "equal",
            Ordering::Greater => "greater",
        })
    }
}

impl fmt::Write for Answer<'_> {
    fn write_str(&mut self, text: &str) -> fmt::Result {
        self.put(text.as_bytes()).map_err(|_| fmt::Error)
    }
}

/// Has a line answered behind the answers that wait. Where memory fails for it, that is the answer,
/// unless there is none to say so either.
pub fn answer_behind(
    answers: &mut Vec<u8>,
    write: impl FnOnce(&mut Vec<u8>) -> Result<(), Memory>,
) -> Result<(), Refusal> {
    let length = answers.len();
    if answers.reserve(ROOM).is_ok() && write(answers).is_ok() {
        return Ok(());
    }
    answers.truncate(length);
    answers.extend_from_slice(OUT_OF_MEMORY).map_err(|_| Refusal::Memory)
}
