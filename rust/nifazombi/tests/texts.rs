//! Maps of byte strings: by hand, and beside a `BTreeMap`.
mod common;

use common::{Random, assert_both_ends, assert_kept, flipped, image_of_many_parts};
use nifazombi::{ImageError, Texts, WriteError, texts_image};
use std::collections::BTreeMap;

const PAIRS: [(&[u8], u64); 3] = [(b"", 7), (b"a", 8), (b"ab", 9)];

#[test]
fn get_and_all_other_calls_by_hand() {
    let image = texts_image(&PAIRS, b"").unwrap();
    let texts = Texts::new(&image).unwrap();
    let [none, a, ab] = PAIRS;
    assert_eq!((texts.len(), texts.is_empty()), (3, false));
    let found = ["", "a", "ab", "abc", "b"].map(|key| texts.get(key));
    assert_eq!(found, [Some(7), Some(8), Some(9), None, None]);
    let nearest = ["", "ac", "abc", "b"].map(|key| texts.nearest(key));
    assert_eq!(nearest, [none, a, ab, none].map(Some));
    let ranks = ["", "A", "aa", "b"].map(|key| texts.rank(key));
    assert_eq!(ranks, [0, 1, 2, 3]);
    assert!(texts.contains_key(b"ab") && !texts.contains_key(vec![0]));
    assert!(texts.prefixes("abc").eq([ab, a, none]));
    assert_both_ends(texts.into_iter(), &PAIRS);
    assert!(texts.into_iter().eq(&texts));
    assert_both_ends(texts.below("a"), &[a, ab]);
    assert_both_ends(texts.between("", "ab"), &[none, a]);
    assert_both_ends(texts.between("ab", "a"), &[]);
    assert_eq!((texts.nth(2), texts.nth(3)), (Some(ab), None));
    assert_eq!(format!("{texts:?}"), r#"{"": 7, "a": 8, "ab": 9}"#);
}

#[test]
fn payload_is_kept_from_the_check_on() {
    let image = image_of_many_parts(b"NZTEXT.1", &[4]);
    let (texts, unchecked) = (Texts::new(&image).unwrap(), Texts::unchecked(&image));
    assert_kept(|| texts.payload().is_empty(), || unchecked.payload().is_empty());
}

#[test]
fn new_refuses_what_is_no_image() {
    use ImageError::*;
    let image = texts_image(&PAIRS, b"").unwrap();
    let faults: Vec<_> =
        (0..8 * image.len()).map(|bit| Texts::new(&flipped(&image, bit)).err()).collect();
    assert!(faults[..56].iter().all(|it| *it == Some(Mark)));
    assert!(faults[56..64].iter().all(|it| *it == Some(Version)));
    for fault in [Short, Part(0), Row(0), Row(1), Row(2)] {
        assert!(faults[64..].contains(&Some(fault)), "{fault:?}");
    }
    for end in 0..image.len() {
        assert!(Texts::new(&image[..end]).is_err(), "{end}");
    }
}

/// A key of few different bytes, so that keys are prefixes of others and have equal first ones.
fn random_key(random: &mut Random) -> Vec<u8> {
    let len = random.below(14);
    (0..len).map(|_| [b'a', b'a', b'a', 0, 0xff][random.below(5)]).collect()
}

fn random_map(random: &mut Random, count: usize) -> BTreeMap<Vec<u8>, u64> {
    (0..count).map(|_| (random_key(random), random.next())).collect()
}

/// A map's pairs, in the order of their keys.
fn pairs(map: &BTreeMap<Vec<u8>, u64>) -> Vec<(&[u8], u64)> {
    map.iter().map(|(key, value)| (&key[..], *value)).collect()
}

/// The pairs whose keys are such ones.
fn such<'a>(pairs: &[(&'a [u8], u64)], is_such: impl Fn(&[u8]) -> bool) -> Vec<(&'a [u8], u64)> {
    let mut pairs = pairs.to_vec();
    pairs.retain(|(key, _)| is_such(key));
    pairs
}

fn compare_searches(texts: Texts, pairs: &[(&[u8], u64)], key: &[u8], other: &[u8]) {
    let own = such(pairs, |it| it == key).first().map(|pair| pair.1);
    assert_eq!((texts.get(key), texts.contains_key(key)), (own, own.is_some()));
    let mut prefixes = such(pairs, |it| key.starts_with(it));
    prefixes.reverse();
    assert_eq!(texts.nearest(key), prefixes.first().copied());
    assert!(texts.prefixes(key).eq(prefixes));
    assert_both_ends(texts.below(key), &such(pairs, |it| it.starts_with(key)));
    assert_both_ends(texts.between(key, other), &such(pairs, |it| key <= it && it < other));
    let rank = such(pairs, |it| it < key).len();
    assert_eq!(texts.rank(key), rank);
    assert_eq!(texts.nth(rank), pairs.get(rank).copied());
}

fn compare_with_a_map(count: usize) {
    let mut random = Random::new(count as u64);
    let map = random_map(&mut random, count);
    let pairs = pairs(&map);
    let image = texts_image(&pairs, b"").unwrap();
    let texts = Texts::new(&image).unwrap();
    assert_eq!(texts.len(), pairs.len());
    assert_both_ends(texts.iter(), &pairs);
    for _ in 0..500 {
        compare_searches(texts, &pairs, &random_key(&mut random), &random_key(&mut random));
    }
    for pair in &pairs {
        compare_searches(texts, &pairs, pair.0, b"b");
    }
}

#[test]
fn get_and_all_other_calls_beside_a_map() {
    for count in [0, 1, 7, 60, 400] {
        compare_with_a_map(count);
    }
}

#[test]
fn get_and_rank_of_so_many_keys_that_they_are_counted() {
    let keys: Vec<_> = (0..70_000).map(|number| (format!("{number:05}"), number)).collect();
    let image = texts_image(&keys, b"").unwrap();
    let texts = Texts::new(&image).unwrap();
    for (key, number) in &keys {
        assert_eq!((texts.get(key), texts.rank(key)), (Some(*number), *number as usize));
    }
    assert_eq!(texts.nearest("12345x"), Some((&b"12345"[..], 12_345)));
    assert_eq!(texts.below("69").len(), 1_000);
    assert_eq!((texts.get("7"), texts.rank("7"), texts.rank("6")), (None, 70_000, 60_000));
}

/// Calls everything on bytes that may be no image. The answers may be any.
fn call_all(bytes: &[u8], random: &mut Random) {
    let texts = Texts::unchecked(bytes);
    let is_image = Texts::new(bytes).is_ok();
    for _ in 0..4 {
        let (key, other) = (random_key(random), random_key(random));
        assert_eq!(texts.get(&key).is_some(), texts.contains_key(&key));
        assert_eq!(texts.nearest(&key), texts.prefixes(&key).next());
        assert!(texts.prefixes(&key).count() <= texts.len());
        assert!(texts.rank(&key) <= texts.len());
        for pairs in [texts.below(&key), texts.between(&key, &other)] {
            assert_eq!(pairs.len(), pairs.rev().count());
        }
    }
    assert_eq!(texts.iter().count(), texts.len());
    assert!(!is_image || texts.iter().is_sorted_by_key(|(key, _)| key));
    assert!(texts.payload().len() <= bytes.len());
}

#[test]
fn unchecked_takes_any_bytes() {
    let mut random = Random::new(2);
    let map = random_map(&mut random, 6);
    let small = texts_image(&pairs(&map), b"").unwrap();
    for bit in 0..8 * small.len() {
        call_all(&flipped(&small, bit), &mut random);
    }
    for end in 0..small.len() {
        call_all(&small[..end], &mut random);
    }
    for _ in 0..300 {
        let mut bytes: Vec<u8> = (0..random.below(400)).map(|_| random.next() as u8).collect();
        let kept = random.below(113).min(bytes.len());
        bytes[..kept].copy_from_slice(&small[..kept]);
        call_all(&bytes, &mut random);
    }
}

#[test]
fn texts_image_refuses_keys_out_of_order() {
    use WriteError::*;
    let refused = |pairs: &[(&str, u64)]| texts_image(pairs, b"").err();
    assert_eq!(refused(&[]), None);
    assert_eq!(refused(&[("", 1), ("a", u64::MAX), ("ab", 0)]), None);
    assert_eq!(refused(&[("ab", 1), ("a", 2)]), Some(OutOfOrder(1)));
    assert_eq!(refused(&[("", 1), ("b", 1), ("b", 2)]), Some(OutOfOrder(2)));
}

#[test]
fn insert_takes_texts_of_rusts_library() {
    use nifazombi::radix_trie::prelude::*;
    use nifazombi::rattle_std::alloc::Global;
    let mut words: Trie<String, u64> = Trie::new(Global);
    words.insert("tea".to_string(), 1).expect("memory");
    assert_eq!(words.get(&"tea").expect("memory"), Some(&1));
    let frozen = nifazombi::frozen_trie::freeze(words.clone().expect("memory")).expect("memory");
    let found = frozen.longest_match(&"teapot".to_string()).expect("memory");
    assert_eq!(found, Some((&"tea".to_string(), &1)));
}
