//! Stores that are held in memory, so that what a pair takes can be seen from outside.

use crate::sample::{Query, TextQuery};
use crate::stores::{Key, texts_of};
use nifazombi::frozen_trie::FrozenTrie;
use nifazombi::radix_trie::Trie;
use nifazombi::rattle_std::alloc::Global;
use nifazombi::rattle_std::vec::Vec as List;
use std::collections::BTreeMap;
use std::hint::black_box;

/// How many pairs are held at least, in as many stores as it takes, so that the program's own
/// memory counts for little.
const HELD: usize = 1_000_000;

/// Holds so many stores of so many pairs each, and tells how many pairs they have.
fn all<S>(count: usize, store: impl Fn() -> S, len: impl Fn(&S) -> usize) -> usize {
    let stores = HELD.checked_div(count).unwrap_or(0).max(1);
    let held: Vec<S> = black_box((0..stores).map(|_| store()).collect());
    held.iter().map(len).sum()
}

fn map_of<K: Key, L, B>(queries: &[Query<K, L, B>]) -> BTreeMap<K, u64> {
    let mut map = BTreeMap::new();
    map.extend(queries.iter().map(|it| (it.key, it.value)));
    map
}

fn trie_of<K: Key, L, B>(queries: &[Query<K, L, B>]) -> Trie<K, u64> {
    let mut trie = Trie::new(Global);
    for query in queries {
        trie.insert(query.key, query.value).unwrap();
    }
    trie
}

/// The frozen trie of pairs in order, so that no trie counts.
fn frozen_of<K: Key, L, B>(queries: &[Query<K, L, B>]) -> FrozenTrie<K, u64> {
    let map = map_of(queries);
    let mut pairs = List::with_capacity(Global, map.len()).unwrap();
    for pair in map {
        pairs.push_reserved(pair);
    }
    FrozenTrie::from_sorted(Global, pairs).ok().unwrap()
}

/// Holds what is named, and tells how many pairs it has.
pub fn pairs<K: Key, L, B>(store: &str, queries: &[Query<K, L, B>]) -> Result<usize, String> {
    let count = queries.len();
    match store {
        "keys" => Ok(0),
        "trie" => Ok(all(count, || trie_of(queries), Trie::len)),
        "frozen" => Ok(all(count, || frozen_of(queries), FrozenTrie::len)),
        "map" => Ok(all(count, || map_of(queries), BTreeMap::len)),
        _ => Err(format!("nothing to hold: {store}")),
    }
}

/// The same of maps for reading whose keys are bytes.
pub fn texts(queries: &[TextQuery]) -> usize {
    all(queries.len(), || texts_of(map_of(queries).into_iter()), |texts| texts.len())
}
