//! The same rows over each map, before and after it is frozen.
mod common;

use common::list;
use nifazombi::frozen_routes::FrozenRoutes;
use nifazombi::frozen_trie::{FrozenTexts, FrozenTrie, PushWhy, SortedWhy, frozen_copy};
use nifazombi::prefix_maps::{PrefixMap, RangeMap, first_below, lookup};
use nifazombi::radix_keys::{AsNibbles, Ipv4Network, Nibblet, TrieKey};
use nifazombi::radix_trie::Trie;
use nifazombi::rattle_std::alloc::Global;
use nifazombi::rattle_std::string::String as Text;
use std::fmt::Debug;
use std::iter::from_fn;
use std::net::Ipv4Addr;
use std::ops::Bound::{self, Excluded, Included, Unbounded};
use std::str::FromStr;

/// A query; what is stored there, at the prefixes of it, and below it, by the values.
type Row<'r, Q> = (Q, Option<usize>, &'r [usize], &'r [usize]);

/// The keys in order, each stored with its index.
const TEXTS: [&str; 5] = ["a", "ab", "abc", "b", "ba"];
const TEXT_ROWS: [Row<&str>; 8] = [
    ("", None, &[], &[0, 1, 2, 3, 4]),
    ("a", Some(0), &[0], &[0, 1, 2]),
    ("ab", Some(1), &[0, 1], &[1, 2]),
    ("abc", Some(2), &[0, 1, 2], &[2]),
    ("abcd", None, &[0, 1, 2], &[]),
    ("ac", None, &[0], &[]),
    ("b", Some(3), &[3], &[3, 4]),
    ("c", None, &[], &[]),
];

/// The same of networks, which are asked by addresses and by networks.
const NETWORKS: [&str; 5] =
    ["0.0.0.0/0", "10.0.0.0/8", "10.1.0.0/16", "10.1.2.3/32", "192.0.2.0/24"];
const ADDRESS_ROWS: [Row<&str>; 4] = [
    ("10.1.2.3", Some(3), &[0, 1, 2, 3], &[3]),
    ("10.1.2.4", None, &[0, 1, 2], &[]),
    ("11.0.0.0", None, &[0], &[]),
    ("192.0.2.255", None, &[0, 4], &[]),
];
const NETWORK_ROWS: [Row<&str>; 4] = [
    ("10.0.0.0/8", Some(1), &[0, 1], &[1, 2, 3]),
    ("10.1.0.0/17", None, &[0, 1, 2], &[3]),
    ("0.0.0.0/1", None, &[0], &[1, 2, 3]),
    ("192.0.2.0/24", Some(4), &[0, 4], &[4]),
];

/// Two bounds, and the values within them.
type Span = ((Bound<&'static str>, Bound<&'static str>), &'static [usize]);
const SPANS: [Span; 16] = [
    ((Unbounded, Unbounded), &[0, 1, 2, 3, 4]),
    ((Unbounded, Included("b")), &[0, 1, 2, 3]),
    ((Unbounded, Excluded("b")), &[0, 1, 2]),
    ((Included("ab"), Unbounded), &[1, 2, 3, 4]),
    ((Included("ab"), Included("b")), &[1, 2, 3]),
    ((Included("ab"), Excluded("b")), &[1, 2]),
    ((Excluded("ab"), Unbounded), &[2, 3, 4]),
    ((Excluded("ab"), Included("b")), &[2, 3]),
    ((Excluded("ab"), Excluded("b")), &[2]),
    // Bounds at which no pair stands, one key alone, and bounds that leave none.
    ((Included("aa"), Unbounded), &[1, 2, 3, 4]),
    ((Excluded("aa"), Included("az")), &[1, 2]),
    ((Included("abc"), Included("abc")), &[2]),
    ((Excluded("ab"), Excluded("ab")), &[]),
    ((Unbounded, Excluded("a")), &[]),
    ((Included("b"), Included("ab")), &[]),
    ((Included("b"), Excluded("ab")), &[]),
];

/// The values that a walk gives. At its end it gives None twice.
fn given<'a, Q, M: PrefixMap<'a, Q, Value = usize>>(mut walk: M::Walk) -> Vec<usize> {
    let found = from_fn(|| M::next(&mut walk).unwrap().map(|(_, value)| *value)).collect();
    assert!(M::next(&mut walk).unwrap().is_none());
    found
}

/// The rows with queries of another type.
fn asked<'r, Q>(rows: &[Row<'r, &str>], query: impl Fn(&str) -> Q) -> Vec<Row<'r, Q>> {
    rows.iter().map(|(key, value, above, below)| (query(key), *value, *above, *below)).collect()
}

/// Asserts that a map of five pairs answers each query by its row.
fn assert_rows<'a, Q: Debug, M>(map: M, rows: &[Row<Q>])
where
    M: PrefixMap<'a, Q, Value = usize>,
{
    assert_eq!((map.len(), map.is_empty()), (5, false));
    assert_eq!(map.first_key_value().map(|pair| *pair.1), Some(0));
    assert_eq!(map.last_key_value().map(|pair| *pair.1), Some(4));
    assert_eq!(given::<Q, M>(map.iter()), [0, 1, 2, 3, 4]);
    for (key, value, above, below) in rows {
        assert_eq!(map.get(key).unwrap(), value.as_ref(), "{key:?}");
        assert_eq!(map.get_key_value(key).unwrap().map(|pair| pair.1), value.as_ref(), "{key:?}");
        assert_eq!(map.contains_key(key).unwrap(), value.is_some(), "{key:?}");
        assert_eq!(lookup(map, key).unwrap(), above.last(), "{key:?}");
        let longest = map.longest_match(key).unwrap().map(|pair| pair.1);
        assert_eq!(longest, above.last(), "{key:?}");
        assert_eq!(map.count_below(key).unwrap(), below.len(), "{key:?}");
        let page = first_below(Global, map, key, 2).unwrap();
        assert_eq!(page.len(), below.len().min(2), "{key:?}");
        assert_eq!(given::<Q, M>(map.below(key).unwrap()), *below, "{key:?}");
        assert_eq!(given::<Q, M>(map.common_prefixes(key).unwrap()), *above, "{key:?}");
    }
}

/// The frozen trie of the texts, and the same of their bytes.
fn frozen_forms() -> (FrozenTrie<&'static str, usize>, FrozenTexts<usize>) {
    let (mut trie, mut texts) = (FrozenTrie::new(Global), FrozenTexts::new(Global));
    for (value, key) in TEXTS.into_iter().enumerate() {
        trie.push(key, value).unwrap();
        texts.push(key.as_bytes(), value).unwrap();
    }
    (trie, texts)
}

/// A trie of keys, stored one after the other, each with its index.
fn trie_of<K: TrieKey>(keys: impl IntoIterator<Item = K>) -> Trie<K, usize> {
    let mut trie = Trie::new(Global);
    for (value, key) in keys.into_iter().enumerate() {
        assert!(trie.insert(key, value).is_ok());
    }
    trie
}

#[test]
fn get_and_all_other_calls_of_each_map_of_texts() {
    let (trie, (frozen, texts)) = (trie_of(TEXTS), frozen_forms());
    let copy = frozen_copy(&trie).unwrap();
    assert_rows(&trie, &TEXT_ROWS);
    assert_rows(&frozen, &TEXT_ROWS);
    assert_rows(&copy, &TEXT_ROWS);
    assert_rows(&texts, &TEXT_ROWS);
    let lists = asked(&TEXT_ROWS, |key| key.encode(Global).unwrap());
    assert_rows::<Nibblet, _>(&frozen, &lists);
}

#[test]
fn get_and_all_other_calls_of_each_map_of_networks() {
    fn parsed<T: FromStr<Err: Debug>>(text: &str) -> T {
        text.parse().unwrap()
    }
    let networks = NETWORKS.map(parsed::<Ipv4Network>);
    let (trie, mut routes) = (trie_of(networks), FrozenRoutes::new(Global));
    for (value, network) in networks.into_iter().enumerate() {
        routes.push(network, value).unwrap();
    }
    assert_rows(&routes, &asked(&ADDRESS_ROWS, parsed::<Ipv4Addr>));
    let rows = asked(&NETWORK_ROWS, parsed::<Ipv4Network>);
    assert_rows(&routes, &rows);
    assert_rows(&trie, &rows);
    assert_rows(&frozen_copy(&trie).unwrap(), &rows);
}

#[test]
fn range_and_range_back_of_each_map() {
    fn assert_spans<'a, M: RangeMap<'a, &'static str, Value = usize>>(map: M) {
        for (bounds, values) in SPANS {
            assert_eq!(given::<&str, M>(map.range(bounds).unwrap()), values, "{bounds:?}");
            let mut back = given::<&str, M>(map.range_back(bounds).unwrap());
            back.reverse();
            assert_eq!(back, values, "{bounds:?}");
        }
    }
    let (trie, (frozen, texts)) = (trie_of(TEXTS), frozen_forms());
    assert_spans(&trie);
    assert_spans(&frozen_copy(&trie).unwrap());
    assert_spans(&frozen);
    assert_spans(&texts);
}

#[test]
fn common_prefixes_from_the_longest_and_rank_of_frozen_forms() {
    // The prefixes of a query, and how many keys come before it.
    const ROWS: [(&str, &[usize], usize); 5] =
        [("", &[], 0), ("ab", &[0, 1], 1), ("abcd", &[0, 1, 2], 3), ("ac", &[0], 3), ("c", &[], 5)];
    fn assert_found<Q: AsNibbles>(
        trie: &FrozenTrie<&'static str, usize>,
        key: &Q,
        above: &[usize],
        place: usize,
    ) {
        let found = trie.common_prefixes(key).unwrap();
        assert_eq!(found.len(), above.len());
        assert!(found.rev().map(|pair| pair.1).eq(above.iter().rev()));
        assert_eq!(trie.rank(key).unwrap(), place);
    }
    let (trie, texts) = frozen_forms();
    for (query, above, place) in ROWS {
        assert_found(&trie, &query, above, place);
        assert_found(&trie, &query.encode(Global).unwrap(), above, place);
        let found = texts.common_prefixes(query.as_bytes());
        assert_eq!((found.len(), texts.rank(query.as_bytes())), (above.len(), place));
        assert!(found.rev().map(|pair| pair.1).eq(above.iter().rev()));
    }
}

#[test]
fn range_of_frozen_forms_between_other_keys() {
    let (trie, texts) = frozen_forms();
    // It begins between two bytes.
    let list = Nibblet::from_hex(Global, "616").unwrap().unwrap();
    assert_eq!(trie.range(list..).unwrap().len(), 4);
    assert!(texts.range(..&b"ab"[..]).eq([(&b"a"[..], &0)]));
}

#[test]
fn push_and_from_sorted_refuse_keys_out_of_order() {
    let (mut trie, mut texts) = frozen_forms();
    for key in ["", "ba", "b"] {
        let refused = trie.push(key, 5).err().unwrap();
        assert_eq!((refused.why, refused.back), (PushWhy::OutOfOrder, (key, 5)));
        let refused = texts.push(key.as_bytes(), 5).err().unwrap();
        assert_eq!((refused.why, refused.back), (PushWhy::OutOfOrder, 5));
    }
    assert_eq!((trie.len(), texts.len()), (5, 5));
    let text = |key| Text::from_str(Global, key).unwrap();
    for keys in [["a", "ab", "a"], ["b", "c", "c"]] {
        let refused = FrozenTrie::from_sorted(Global, list(keys.map(|it| (it, 0)))).err().unwrap();
        assert_eq!((refused.why, refused.back.len()), (SortedWhy::OutOfOrder(2), 3));
        let pairs = list(keys.map(|it| (text(it), 0)));
        let refused = FrozenTexts::from_sorted(Global, pairs).err().unwrap();
        assert_eq!((refused.why, refused.back.len()), (SortedWhy::OutOfOrder(2), 3));
    }
}

#[test]
fn get_mut_writes_a_value_of_frozen_texts() {
    let (_, mut texts) = frozen_forms();
    assert_eq!(texts.get_mut(b"ac"), None);
    *texts.get_mut(b"ab").unwrap() = 7;
    assert_eq!((texts.get(b"ab"), texts.get(b"a")), (Some(&7), Some(&0)));
}
