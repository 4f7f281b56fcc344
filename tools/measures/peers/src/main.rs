//! Times std's `HashMap` and the Rust crate `radix_trie` on the keys of standard input, for `tools/measures/bench --plot`.
//!
//! A line is a key, a space and how many bytes of it are its beginning, as rust/bench lists them. With no argument
//! each line that is written is a call, a store and the nanoseconds of one call. With `keys`, `hash_map` or `crate` that
//! store is held, and the line is how many pairs there are and the peak of memory in bytes.

use radix_trie::{Trie, TrieCommon};
use std::collections::HashMap;
use std::hint::black_box;
use std::time::Instant;
use std::{env, fs, io};

/// Of so many keys, each is asked for what is below its beginning.
const BEGINNINGS: usize = 10_000;

/// How many pairs below a beginning are asked for at most.
const SHOWN: usize = 10;

/// How many pairs are held at least, in as many stores as it takes.
const HELD: usize = 1_000_000;

/// A key with one letter more, and how many bytes of it are the beginning.
struct Text {
    longer: String,
    beginning: usize,
}

impl Text {
    fn key(&self) -> &str {
        &self.longer[..self.longer.len() - 1]
    }

    fn beginning(&self) -> &str {
        &self.longer[..self.beginning]
    }
}

fn texts() -> Vec<Text> {
    let parted = |line: String| {
        let (key, beginning) = line.rsplit_once(' ').expect("a key and a number");
        let beginning = beginning.parse().expect("a number");
        Text { longer: format!("{key}x"), beginning }
    };
    io::stdin().lines().map(|line| parted(line.expect("a line"))).collect()
}

/// The indices below `count` in an order that is the same in each run.
fn shuffled(count: usize) -> Vec<usize> {
    let mut order: Vec<usize> = (0..count).collect();
    let mut state = 7u64;
    for last in (1..count).rev() {
        state ^= state << 13;
        state ^= state >> 7;
        state ^= state << 17;
        order.swap(last, (state % (last as u64 + 1)) as usize);
    }
    order
}

/// Prints how long so many calls took, a call, and gives what they return.
fn timed(call: &str, store: &str, count: usize, calls: impl FnOnce() -> u64) -> u64 {
    let start = Instant::now();
    let sum = calls();
    println!("{call} {store} {}", start.elapsed().as_nanos() / count.max(1) as u128);
    black_box(sum)
}

fn sum_of(values: impl Iterator<Item = u64>) -> u64 {
    values.fold(0, u64::wrapping_add)
}

fn times_of_map(texts: &[Text], order: &[&Text]) -> [u64; 2] {
    let name = "hash_map";
    let mut map: HashMap<&str, u64> = HashMap::new();
    timed("insert", name, texts.len(), || {
        sum_of(texts.iter().zip(1..).map(|(text, number)| map.insert(text.key(), number).unwrap_or(0)))
    });
    let get = timed("get", name, order.len(), || sum_of(order.iter().map(|text| map[text.key()])));
    // A lookup for each length, the longest first.
    let longest = |text: &Text| {
        let lengths = (0..=text.longer.len()).rev();
        lengths.filter_map(|length| map.get(text.longer.get(..length)?)).next().copied().unwrap_or(0)
    };
    let prefix = timed("prefix", name, order.len(), || sum_of(order.iter().map(|text| longest(text))));
    timed("walk", name, map.len(), || sum_of(map.values().copied()));
    [get, prefix]
}

fn times_of_crate(texts: &[Text], order: &[&Text]) -> [u64; 2] {
    let name = "crate";
    let mut trie: Trie<&str, u64> = Trie::new();
    timed("insert", name, texts.len(), || {
        sum_of(texts.iter().zip(1..).map(|(text, number)| trie.insert(text.key(), number).unwrap_or(0)))
    });
    let value = |text: &Text| trie.get(text.key()).copied().unwrap_or(0);
    let get = timed("get", name, order.len(), || sum_of(order.iter().map(|text| value(text))));
    let longest = |text: &Text| trie.get_ancestor_value(text.longer.as_str()).copied().unwrap_or(0);
    let prefix = timed("prefix", name, order.len(), || sum_of(order.iter().map(|text| longest(text))));
    let few = &order[..order.len().min(BEGINNINGS)];
    let first = |text: &Text| match trie.get_raw_descendant(text.beginning()) {
        Some(view) => sum_of(view.values().take(SHOWN).copied()),
        None => 0,
    };
    timed("below", name, few.len(), || sum_of(few.iter().map(|text| first(text))));
    timed("walk", name, trie.len(), || sum_of(trie.values().copied()));
    [get, prefix]
}

/// The peak of the process's memory in bytes.
fn peak() -> u64 {
    let status = fs::read_to_string("/proc/self/status").expect("the system tells of the process");
    let line = status.lines().find_map(|line| line.strip_prefix("VmHWM:")).expect("a peak");
    line.trim().trim_end_matches(" kB").parse::<u64>().expect("a number") * 1024
}

/// Holds as many stores as together have a million pairs, and gives how many pairs they have.
fn held(store: &str, texts: &[Text]) -> usize {
    let stores = (HELD / texts.len().max(1)).max(1);
    let maps: Vec<HashMap<&str, u64>> = match store {
        "hash_map" => (0..stores).map(|_| texts.iter().map(|text| (text.key(), 1)).collect()).collect(),
        _ => Vec::new(),
    };
    let tries: Vec<Trie<&str, u64>> = match store {
        "crate" => (0..stores).map(|_| texts.iter().map(|text| (text.key(), 1)).collect()).collect(),
        _ => Vec::new(),
    };
    maps.iter().map(HashMap::len).chain(tries.iter().map(|trie| trie.len())).sum()
}

fn main() {
    let texts = texts();
    if let Some(store) = env::args().nth(1) {
        let pairs = held(&store, &texts);
        println!("{pairs} {}", peak());
        return;
    }
    let order: Vec<&Text> = shuffled(texts.len()).into_iter().map(|index| &texts[index]).collect();
    let of_map = times_of_map(&texts, &order);
    assert_eq!(of_map, times_of_crate(&texts, &order), "the answers differ");
}
