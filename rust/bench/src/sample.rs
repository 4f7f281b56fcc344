//! The keys of a run, and what is asked about each of them.

use crate::random::Random;
use nifazombi::radix_trie::AsNibbles;
use std::fmt::Write;

/// A stored key and its value, and what is asked about the key.
#[derive(Clone, Copy)]
pub struct Query<K, L, B> {
    /// The key itself.
    pub key: K,
    /// A number of its own.
    pub value: u64,
    /// A key that isn't stored.
    pub absent: K,
    /// A key that goes on from the stored one, and of whose prefixes no longer one is stored.
    pub longer: L,
    /// The beginning of the key.
    pub beginning: B,
    /// The first key that can begin so.
    pub first: K,
}

/// What is asked about the key of a text: all of these are parts of it.
pub type TextQuery<'a> = Query<&'a [u8], &'a [u8], &'a [u8]>;

/// What is asked about an address, from which a port goes on, and which begins with its network.
pub type AddressQuery = Query<u32, u64, u16>;

/// The beginning of keys of a type.
pub trait Beginning<K>: AsNibbles {
    /// Whether the key begins so.
    fn begins(&self, key: &K) -> bool;
}

impl<'a> Beginning<&'a [u8]> for &'a [u8] {
    fn begins(&self, key: &&'a [u8]) -> bool {
        key.starts_with(self)
    }
}

impl Beginning<u32> for u16 {
    fn begins(&self, key: &u32) -> bool {
        key >> 16 == u32::from(*self)
    }
}

/// A text: the bytes of a key, and one letter more.
pub struct Text {
    whole: String,
    value: u64,
    beginning: usize,
}

/// Of two letters each.
const SYLLABLES: &str = "anbecodeerfigahoinjokalominoorpequrestth";

const FOLDERS: &str = "usr share lib python3 site-packages include src main test doc";

/// So many texts: words, paths or numbers.
pub fn texts(kind: &str, count: u32) -> Vec<Text> {
    let mut random = Random::new();
    let text = |value| {
        let mut whole = String::new();
        let beginning = add(&mut whole, kind, &mut random, count.into());
        Text { whole: whole + "x", value, beginning }
    };
    (1..=count.into()).map(text).collect()
}

/// Adds a text, and returns how long its beginning is.
fn add(text: &mut String, kind: &str, random: &mut Random, count: u64) -> usize {
    match kind {
        // Two to six syllables, of which the first two are the beginning.
        "words" => {
            for _ in 0..random.within(2, 6) {
                let place = 2 * random.within(0, SYLLABLES.len() as u64 / 2 - 1) as usize;
                *text += &SYLLABLES[place..place + 2];
            }
            4
        }
        // Three to eight folders, which are the beginning, and a file with a number.
        "paths" => {
            for _ in 0..random.within(3, 8) {
                text.push('/');
                *text += FOLDERS.split(' ').nth(random.within(0, 9) as usize).unwrap();
            }
            let folders = text.len();
            write!(text, "/{}.txt", random.within(0, count)).unwrap();
            folders
        }
        // A number up to ten times the count, which begins with all but two digits.
        _ => {
            write!(text, "{}", random.within(0, 10 * count)).unwrap();
            text.len().saturating_sub(2)
        }
    }
}

impl Text {
    /// A given key, which stood on a line: its first four bytes are its beginning, and no key has
    /// the end of a line.
    pub fn given(key: &str, number: usize) -> Text {
        let whole = format!("{key}\n");
        Text { whole, value: number as u64 + 1, beginning: key.len().min(4) }
    }

    /// What is asked about the text's key.
    pub fn query(&self) -> TextQuery<'_> {
        let whole = self.whole.as_bytes();
        let (key, beginning) = (&whole[..whole.len() - 1], &whole[..self.beginning]);
        Query { key, value: self.value, absent: whole, longer: whole, beginning, first: beginning }
    }
}

/// Each key and how many bytes of it are its beginning, for a program that times other stores.
pub fn list(queries: &[TextQuery]) -> String {
    queries.iter().fold(String::new(), |mut lines, query| {
        let key = String::from_utf8_lossy(query.key);
        writeln!(lines, "{key} {}", query.beginning.len()).unwrap();
        lines
    })
}

/// What is asked about so many addresses, which are even.
pub fn addresses(count: u32) -> Vec<AddressQuery> {
    let mut random = Random::new();
    let query = |value| {
        let key = random.next() as u32 & !1;
        let (absent, longer) = (key | 1, u64::from(key) << 32);
        let (beginning, first) = ((key >> 16) as u16, key & 0xffff_0000);
        Query { key, value, absent, longer, beginning, first }
    };
    (1..=count.into()).map(query).collect()
}
