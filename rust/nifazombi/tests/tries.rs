//! First steps with tries, sets of keys, walks and lists of nibbles.
use nifazombi::radix_keys::{AsNibbles, NibbleSlice};
use nifazombi::radix_trie::{Trie, TrieCommon};
use nifazombi::rattle_std::alloc::Global;
use nifazombi::trie_set::TrieSet;

#[test]
fn insert_replaces_and_remove_takes_away() {
    let mut trie = Trie::new(Global);
    assert_eq!(trie.insert("haskell", 18u64).unwrap(), None);
    assert_eq!(trie.insert("haskell", 36).unwrap(), Some(18));
    assert_eq!(trie.get(&"haskell").unwrap(), Some(&36));
    assert_eq!(trie.remove(&"haskell").unwrap(), Some(36));
    let mut numbers = Trie::new(Global);
    assert_eq!((numbers.insert(7u32, 1u64).unwrap(), numbers.len()), (None, 1));
}

#[test]
fn longest_match_pop_last_and_remove_of_a_set() {
    let mut set = TrieSet::new(Global);
    assert!(set.insert("tea").unwrap() && set.insert("ten").unwrap());
    assert_eq!(set.longest_match(&"teams").unwrap(), Some(&"tea"));
    assert!(set.remove(&"tea").unwrap());
    assert_eq!(set.pop_last().unwrap(), Some("ten"));
    assert!(set.is_empty());
}

#[test]
fn range_stays_at_its_end() {
    let words = Trie::from_iter(Global, [("tea", 1), ("ten", 2)].into_iter()).ok().unwrap();
    let mut walk = words.range("te".."team").unwrap();
    assert_eq!(walk.next().unwrap(), Some((&"tea", &1)));
    assert_eq!([walk.next().unwrap(), walk.next().unwrap()], [None; 2]);
}

#[test]
fn iter_keys_and_values_give_each_pair_once() {
    let trie = Trie::from_iter(Global, [(300u16, 2u8), (7, 1)].into_iter()).ok().unwrap();
    assert_eq!((&trie).iter().unwrap().count(), 2);
    assert!(TrieCommon::keys(&trie).unwrap().eq(&[7, 300]));
    assert!(TrieCommon::values(&trie).unwrap().eq(&[1, 2]));
}

#[test]
fn take_pop_first_and_clear_of_the_set_of_a_trie() {
    let keys = ["tea", "ten", "inn", "to"].map(|key| (key, ()));
    let trie = Trie::from_iter(Global, keys.into_iter()).ok().unwrap();
    let mut set = TrieSet::from_trie(Global, trie);
    assert_eq!(set.as_trie().len(), 4);
    assert_eq!([set.take(&"ten").unwrap(), set.take(&"ten").unwrap()], [Some("ten"), None]);
    assert_eq!(set.pop_first().unwrap(), Some("inn"));
    set.clear();
    assert!(set.is_empty() && set.into_trie().is_empty());
}

#[test]
fn starts_with_and_get_of_the_nibbles_of_bytes() {
    let (short, long) = (NibbleSlice::from_bytes(b"a"), "ab".as_nibbles().unwrap());
    assert_eq!((long.len(), long.is_empty(), long.get(0), long.get(3)), (4, false, 6, 2));
    assert_eq!(long.as_packed(), (&b"ab"[..], false));
    assert!(long.starts_with(&short) && !short.starts_with(&long));
}
