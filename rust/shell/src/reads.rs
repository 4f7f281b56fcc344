//! Look-ups of tries, and those that tries and frozen ones have in common.
use crate::key::Value;
use crate::kind::Width;
use crate::lines::{Map, next_bounds};
use crate::prelude::*;
use nifazombi::prefix_maps::{PrefixMap, RangeMap};
use nifazombi::radix_trie::KeySigned;
use nifazombi::topic_filters;
use std::fmt::Display;

/// The calls that return no walk, by names that no trait of tries has too.
macro_rules! reads {
    ($($name:ident($($key:ident)?) -> $result:ty;)+) => {
        $(pub fn $name<'k>(map: impl Map<'k>, $($key: &Key)?) -> $result {
            PrefixMap::$name(map, $($key)?)
        })+
    };
}

reads! {
    len() -> usize;
    is_empty() -> bool;
    first_key_value() -> Option<(&'k Key, &'k u64)>;
    last_key_value() -> Option<(&'k Key, &'k u64)>;
    get(key) -> Result<Option<&'k u64>, Memory>;
    get_key_value(key) -> Result<Option<(&'k Key, &'k u64)>, Memory>;
    contains_key(key) -> Result<bool, Memory>;
    longest_match(key) -> Result<Option<(&'k Key, &'k u64)>, Memory>;
    count_below(key) -> Result<usize, Memory>;
}

/// The pairs within the bounds.
pub fn range<'k, M: Map<'k>>(map: M, answer: &mut Answer<'_>) -> Outcome {
    let walk = RangeMap::range(map, next_bounds(answer)?)?;
    answer.walk_lines::<M>(walk, u64::MAX)
}

/// The same from the last to the first.
pub fn range_back<'k, M: Map<'k>>(map: M, answer: &mut Answer<'_>) -> Outcome {
    let walk = RangeMap::range_back(map, next_bounds(answer)?)?;
    answer.walk_lines::<M>(walk, u64::MAX)
}

/// The pairs at and below a key, or the first of them.
pub fn below<'k, M: Map<'k>>(map: M, answer: &mut Answer<'_>, is_counted: bool) -> Outcome {
    let key = answer.next_query()?;
    let most = if is_counted { answer.next_number()? } else { u64::MAX };
    answer.walk_lines::<M>(PrefixMap::below(map, &key)?, most)
}

/// The pairs at prefixes of a key.
pub fn common_prefixes<'k, M: Map<'k>>(map: M, answer: &mut Answer<'_>) -> Outcome {
    let key = answer.next_query()?;
    answer.walk_lines::<M>(PrefixMap::common_prefixes(map, &key)?, u64::MAX)
}

/// The pair at the longest stored prefix of a list, and what it costs to find it.
pub fn nearest_with_cost(trie: &Table, answer: &mut Answer<'_>) -> Outcome {
    let list = answer.next_list()?;
    let (pair, cost) = trie.nearest_with_cost(&list);
    match pair {
        Some((key, value)) => {
            answer.key(key)?;
            answer.number((*value).into())?;
        }
        None => answer.word(NONE)?,
    }
    answer.counts_line([cost.nodes, cost.nibbles as u128])
}

/// The pairs of all filters that match a topic.
pub fn matching(filters: &Table, answer: &mut Answer<'_>) -> Outcome {
    if answer.kind != Kind::Parts {
        return Err(Stop::Said("no lists of parts"));
    }
    let topic: Parts = answer.next()?;
    answer.pair_lines(topic_filters::matching(Global, filters, &topic)?.into_iter())
}

/// The walk of the trie of the same keys in ascending order.
pub fn to_ascending(trie: &Table, answer: &mut Answer<'_>) -> Outcome {
    match answer.kind {
        Kind::Signed(Width::Bits8) => ascending_lines::<i8>(trie, answer),
        Kind::Signed(Width::Bits16) => ascending_lines::<i16>(trie, answer),
        Kind::Signed(Width::Bits32) => ascending_lines::<i32>(trie, answer),
        Kind::Signed(Width::Bits64) => ascending_lines::<i64>(trie, answer),
        Kind::Signed(Width::Bits128) => ascending_lines::<i128>(trie, answer),
        Kind::Signed(Width::Size) => ascending_lines::<isize>(trie, answer),
        _ => Err(Stop::Said("no signed keys")),
    }
}

/// The keys of the trie of ascending keys, each with the value that is found at it. That is made of
/// the trie of the integers themselves, whose keys can be turned.
fn ascending_lines<T: KeySigned + TryFrom<i128> + Display>(
    trie: &Table,
    answer: &mut Answer<'_>,
) -> Outcome {
    let mut integers = Trie::<T, u64>::new(Global);
    for (key, value) in TrieCommon::iter(trie)? {
        if let Value::Signed(number) = key.value()
            && let Ok(number) = T::try_from(*number)
        {
            integers.insert(number, *value).map_err(|_| Memory)?;
        }
    }
    let turned = integers.to_ascending()?;
    answer.lines(turned.keys()?, |answer, key| {
        answer.shown(&key.value())?;
        answer.value_line(turned.get(key)?.copied())
    })
}
