//! Maps of more pairs than the least for each table of a frozen form, beside `BTreeMap`.
use nifazombi::frozen_trie::{FrozenTexts, FrozenTrie, freeze};
use nifazombi::radix_trie::{Trie, TrieCommon};
use nifazombi::rattle_std::alloc::Global;
use std::collections::BTreeMap;

/// A frozen form has an index of hashes from 65,536 pairs on.
const COUNT: usize = 70_000;

/// Numbers that look random, the same in each run.
struct Drawn(u64);

impl Drawn {
    fn below(&mut self, end: usize) -> usize {
        self.0 ^= self.0 << 13;
        self.0 ^= self.0 >> 7;
        self.0 ^= self.0 << 17;
        (self.0 % end as u64) as usize
    }
}

/// Paths of which many begin alike, and some are prefixes of others.
fn paths() -> BTreeMap<String, u64> {
    let (mut drawn, mut made) = (Drawn(88_172_645_463_325_252), BTreeMap::new());
    let names = ["usr", "share", "lib", "site-packages", "a", "ab", "include", "test"];
    while made.len() < COUNT {
        let depth = 1 + drawn.below(6);
        let mut path: String = (0..depth).map(|_| format!("/{}", names[drawn.below(8)])).collect();
        path += &format!("/{}", drawn.below(40_000));
        made.insert(path, made.len() as u64);
    }
    made
}

/// What is asked: each tenth key, longer ones, shorter ones, and others.
fn asked(paths: &BTreeMap<String, u64>) -> Vec<String> {
    let some = paths.keys().step_by(10);
    let near = |key: &String| [key.clone(), format!("{key}/x"), key[..key.len() - 1].to_string()];
    some.flat_map(near).chain(["".to_string(), "/".to_string(), "zzz".to_string()]).collect()
}

fn longest<'a>(paths: &'a BTreeMap<String, u64>, key: &str) -> Option<(&'a String, &'a u64)> {
    (0..=key.len()).rev().find_map(|end| paths.get_key_value(&key[..end]))
}

fn below<'a>(paths: &'a BTreeMap<String, u64>, key: &str) -> Vec<(&'a str, u64)> {
    let from = paths.range(key.to_string()..);
    from.take_while(|(it, _)| it.starts_with(key)).map(|(it, value)| (&**it, *value)).collect()
}

#[test]
fn get_and_longest_match_of_a_large_frozen_trie() {
    let paths = paths();
    let mut trie: Trie<&str, u64> = Trie::new(Global);
    for (key, value) in &paths {
        assert_eq!(trie.insert(key, *value).unwrap(), None);
    }
    assert_eq!(trie.len(), COUNT);
    let asked = asked(&paths);
    for key in &asked {
        let found = trie.get_ancestor_value(&key.as_str()).unwrap();
        assert_eq!(found, longest(&paths, key).map(|(_, value)| value), "{key}");
    }
    let frozen: FrozenTrie<&str, u64> = freeze(trie).unwrap();
    for key in &asked {
        let query = key.as_str();
        assert_eq!(frozen.get(&query).unwrap(), paths.get(key), "{key}");
        let found = frozen.longest_match(&query).unwrap().map(|(it, value)| (*it, *value));
        assert_eq!(found, longest(&paths, key).map(|(it, value)| (&**it, *value)), "{key}");
    }
    for key in asked.iter().step_by(100) {
        assert_eq!(frozen.below(&key.as_str()).unwrap(), below(&paths, key), "{key}");
        let rank = frozen.rank(&key.as_str()).unwrap();
        assert_eq!(rank, paths.range(..key.clone()).count(), "{key}");
    }
}

#[test]
fn get_and_longest_match_of_large_frozen_texts() {
    let paths = paths();
    let mut texts: FrozenTexts<u64> = FrozenTexts::new(Global);
    for (key, value) in &paths {
        assert!(texts.push(key.as_bytes(), *value).is_ok());
    }
    texts.finish().unwrap();
    for key in &asked(&paths) {
        assert_eq!(texts.get(key.as_bytes()), paths.get(key), "{key}");
        let found = texts.longest_match(key.as_bytes());
        assert_eq!(found, longest(&paths, key).map(|(it, value)| (it.as_bytes(), value)), "{key}");
    }
    assert_eq!(texts.nth(COUNT - 1), texts.last_key_value());
}

#[test]
fn iter_of_a_large_trie_is_in_order() {
    let paths = paths();
    let mut trie: Trie<&str, u64> = Trie::new(Global);
    for (key, value) in paths.iter().rev() {
        trie.insert(key, *value).unwrap();
    }
    let walk = (&trie).iter().unwrap().map(|(key, value)| (*key, *value));
    assert!(walk.eq(paths.iter().map(|(key, value)| (&**key, *value))));
    for key in paths.keys().step_by(2) {
        assert_eq!(trie.remove(&key.as_str()).unwrap(), paths.get(key).copied());
    }
    assert_eq!(trie.len(), COUNT / 2);
}
