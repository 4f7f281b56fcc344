//! The rows of a sample: each call of a trie, of its frozen forms and of a map of the same keys.

use crate::random::Random;
use crate::report::Report;
use crate::sample::{Beginning, Query, TextQuery};
use nifazombi::frozen_trie::{FrozenTexts, freeze};
use nifazombi::radix_trie::{AsNibbles, Trie, TrieCommon};
use nifazombi::rattle_std::alloc::Global;
use nifazombi::rattle_std::clone::Clone as TryClone;
use nifazombi::rattle_std::vec::Vec as List;
use nifazombi::{Texts, texts_image};
use std::collections::BTreeMap;
use std::error::Error;

/// How many prefixes are asked for what is below them, at most.
const BEGINNINGS: usize = 10_000;

/// How many pairs below a prefix are asked for at most.
const SHOWN: usize = 10;

/// What a key has to be for these runs.
pub trait Key: AsNibbles + TryClone + Ord + Copy {}
impl<K: AsNibbles + TryClone + Ord + Copy> Key for K {}

/// A value that was found, and 0 where none was.
fn value(found: Option<&u64>) -> u64 {
    found.copied().unwrap_or(0)
}

fn sum<'a>(values: impl Iterator<Item = &'a u64>) -> u64 {
    values.fold(0, |sum, value| sum.wrapping_add(*value))
}

/// The first queries, which are asked for what is below their beginnings.
fn first<T>(queries: &[T]) -> &[T] {
    &queries[..queries.len().min(BEGINNINGS)]
}

/// The rows of all calls, those of another store before those of the frozen trie. After the
/// insertions the keys are asked about in another order.
pub fn answer<K: Key, L: AsNibbles, B: Beginning<K>>(
    report: &mut Report,
    queries: &mut [Query<K, L, B>],
    other: impl FnOnce(&mut Report, &Trie<K, u64>, &[Query<K, L, B>]),
) {
    let (mut trie, mut map) = (Trie::new(Global), BTreeMap::new());
    report.each("insert trie", queries, |it| trie.insert(it.key, it.value).unwrap().unwrap_or(0));
    report.each("insert map", queries, |it| map.insert(it.key, it.value).unwrap_or(0));
    Random::new().shuffle(queries);
    let copy = answer_trie(report, trie, queries);
    other(report, &copy, queries);
    answer_frozen(report, copy, queries);
    answer_map(report, map, queries);
}

/// The rows of a trie, and a copy of it, since it is empty then.
fn answer_trie<K: Key, L: AsNibbles, B: Beginning<K>>(
    report: &mut Report,
    mut trie: Trie<K, u64>,
    queries: &[Query<K, L, B>],
) -> Trie<K, u64> {
    report.each("get trie", queries, |it| value(trie.get(&it.key).unwrap()));
    report.each("absent trie", queries, |it| value(trie.get(&it.absent).unwrap()));
    report.each("prefix trie", queries, |it| value(trie.get_ancestor_value(&it.longer).unwrap()));
    report.each("below trie", first(queries), |it| {
        sum(trie.first_below(&it.beginning, SHOWN).unwrap().iter().map(|pair| pair.1))
    });
    let count = |it: &Query<K, L, B>| trie.count_below(&it.beginning).unwrap() as u64;
    report.each("count trie", first(queries), count);
    report.once("walk trie", trie.len(), || ((), sum(TrieCommon::values(&trie).unwrap())));
    let copy = report.once("clone trie", trie.len(), || (trie.clone().unwrap(), 0));
    assert!(copy == trie);
    report.each("remove trie", queries, |it| trie.remove(&it.key).unwrap().unwrap_or(0));
    copy
}

fn answer_frozen<K: Key, L: AsNibbles, B: Beginning<K>>(
    report: &mut Report,
    trie: Trie<K, u64>,
    queries: &[Query<K, L, B>],
) {
    let frozen = report.once("freeze frozen", trie.len(), || (freeze(trie).ok().unwrap(), 0));
    report.each("get frozen", queries, |it| value(frozen.get(&it.key).unwrap()));
    report.each("absent frozen", queries, |it| value(frozen.get(&it.absent).unwrap()));
    report.each("prefix frozen", queries, |it| {
        value(frozen.longest_match(&it.longer).unwrap().map(|pair| pair.1))
    });
    report.each("below frozen", first(queries), |it| {
        let pairs = frozen.below(&it.beginning).unwrap();
        sum(pairs.iter().take(SHOWN).map(|pair| &pair.1))
    });
    let count = |it: &Query<K, L, B>| frozen.count_below(&it.beginning).unwrap() as u64;
    report.each("count frozen", first(queries), count);
    let walk = || ((), sum(frozen.pairs().iter().map(|pair| &pair.1)));
    report.once("walk frozen", frozen.len(), walk);
}

/// The rows of a map, which has no call for a longest prefix.
fn answer_map<K: Key, L, B: Beginning<K>>(
    report: &mut Report,
    mut map: BTreeMap<K, u64>,
    queries: &[Query<K, L, B>],
) {
    report.each("get map", queries, |it| value(map.get(&it.key)));
    report.each("absent map", queries, |it| value(map.get(&it.absent)));
    report.each("below map", first(queries), |it| {
        let pairs = map.range(it.first..).take(SHOWN);
        sum(pairs.take_while(|pair| it.beginning.begins(pair.0)).map(|pair| pair.1))
    });
    report.each("count map", first(queries), |it| {
        map.range(it.first..).take_while(|pair| it.beginning.begins(pair.0)).count() as u64
    });
    report.once("walk map", map.len(), || ((), sum(map.values())));
    let copy = report.once("clone map", map.len(), || (map.clone(), 0));
    assert!(copy == map);
    report.each("remove map", queries, |it| map.remove(&it.key).unwrap_or(0));
}

/// The rows of a map for reading whose keys are bytes. It is that which its file is read back as,
/// so that the lookups show that it has its table too.
pub fn answer_texts<'k>(
    report: &mut Report,
    trie: &Trie<&'k [u8], u64>,
    queries: &[TextQuery<'k>],
) {
    let made = report.once("freeze texts", trie.len(), || {
        (texts_of(TrieCommon::iter(trie).unwrap().map(|(key, value)| (*key, *value))), 0)
    });
    let mut file = List::new(Global);
    made.write(&mut file).unwrap();
    let texts = FrozenTexts::read(Global, &mut &*file).ok().unwrap();
    report.each("get texts", queries, |it| value(texts.get(it.key)));
    report.each("absent texts", queries, |it| value(texts.get(it.absent)));
    let prefix = |it: &TextQuery| value(texts.longest_match(it.longer).map(|pair| pair.1));
    report.each("prefix texts", queries, prefix);
    let below = |it: &TextQuery| sum(texts.below(it.beginning).take(SHOWN).map(|pair| pair.1));
    report.each("below texts", first(queries), below);
    report.each("count texts", first(queries), |it| texts.count_below(it.beginning) as u64);
    report.once("walk texts", texts.len(), || ((), sum(texts.iter().map(|pair| pair.1))));
    answer_image(report, &texts, queries);
}

/// The rows of its image.
fn answer_image(report: &mut Report, texts: &FrozenTexts<u64>, queries: &[TextQuery]) {
    let pairs: Vec<_> = texts.iter().map(|(key, value)| (key, *value)).collect();
    let image = texts_image(&pairs, &[]).unwrap();
    let image = Texts::new(&image).unwrap();
    report.each("get image", queries, |it| value(image.get(it.key).as_ref()));
    report.each("absent image", queries, |it| value(image.get(it.absent).as_ref()));
    report.each("prefix image", queries, |it| image.nearest(it.longer).map_or(0, |pair| pair.1));
    let below = |it: &TextQuery| image.below(it.beginning).take(SHOWN).map(|pair| pair.1).sum();
    report.each("below image", first(queries), below);
}

/// The map for reading of pairs in order.
pub fn texts_of<'k>(pairs: impl Iterator<Item = (&'k [u8], u64)>) -> FrozenTexts<u64> {
    let mut texts = FrozenTexts::new(Global);
    for (key, value) in pairs {
        texts.push(key, value).unwrap();
    }
    texts.finish().unwrap();
    texts
}

/// The rows of the numbers below `count`: of the first ones that begin with a byte of zeros, by the
/// call that makes a page of them and by a walk.
pub fn answer_pages(report: &mut Report, count: u32) -> Result<(), Box<dyn Error>> {
    let (mut trie, prefixes) = (Trie::new(Global), [0u8; 100]);
    for number in 0..count {
        trie.insert(number, u64::from(number))?;
    }
    let page = report.each("first_below page", &prefixes, |prefix| {
        sum(trie.first_below(prefix, SHOWN).unwrap().iter().map(|pair| pair.1))
    });
    let walk = report.each("walk walk", &prefixes, |prefix| {
        let Some(view) = trie.get_raw_descendant(prefix).unwrap() else { return 0 };
        sum(TrieCommon::values(&view).unwrap().take(SHOWN))
    });
    assert_eq!(page, walk);
    Ok(())
}
