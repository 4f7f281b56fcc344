//! What changes of tries are made of.
use crate::own::own;
use crate::prelude::*;
use std::mem;
use std::ops::Bound;

/// What adds the number to each value but that at the other key.
pub fn adder(other: &Key, added: u64) -> impl Fn(&Key, &mut u64) {
    move |key, value| {
        if key != other {
            *value = value.wrapping_add(added);
        }
    }
}

/// Adds the pairs at and below the key.
pub fn lines_below<'a, T: TrieCommon<'a, Key, u64>>(
    of: T,
    key: &Key,
    answer: &mut Answer<'_>,
) -> Outcome {
    let mut walk = of.range::<Key, _>((Bound::Included(key), Bound::Unbounded))?;
    answer.steps(u64::MAX, || {
        let pair = walk.next()?.filter(|(found, _)| found.begins_with(key));
        Ok(pair.map(|(found, value)| (found, Some(value))))
    })
}

/// The pairs that the words write.
pub fn next_pairs(answer: &mut Answer<'_>) -> Result<Vec<(Key, u64)>, Stop> {
    let mut pairs = Vec::new(Global);
    while answer.words.left > 0 {
        let pair = answer.next_pair().map_err(|stop| match stop {
            Stop::Memory => stop,
            _ => Stop::Said("no pairs"),
        })?;
        own(|| pairs.push(pair))?;
    }
    Ok(pairs)
}

/// Stores pairs.
pub fn extend(trie: &mut Table, pairs: Vec<(Key, u64)>, answer: &mut Answer<'_>) -> Outcome {
    trie.extend(pairs.into_iter()).map_err(|error| error.why)?;
    answer.line("ok")
}

/// All pairs, in place of the trie. Where they fail the trie comes back.
pub fn into_pairs(trie: &mut Table, answer: &mut Answer<'_>) -> Outcome {
    answer.rehearse(|answer| answer.pair_lines(trie.iter()?))?;
    match mem::replace(trie, Trie::new(Global)).into_pairs() {
        Ok(pairs) => answer.listed_lines(&pairs),
        Err(same) => {
            *trie = same;
            Err(Stop::Memory)
        }
    }
}

/// Stores each line as a key, with its number as the value, but for those that are empty.
pub fn extend_by_lines(trie: &mut Table, text: &[u8], answer: &mut Answer<'_>) -> Outcome {
    let mut pairs = Vec::new(Global);
    for (number, line) in (1..).zip(text.split(|byte| *byte == b'\n')) {
        let line = line.strip_suffix(b"\r").unwrap_or(line);
        if !line.is_empty() {
            let key = Key::of_line(answer.kind, line)?;
            let key = key.ok_or(Stop::SaidAt("no key at line", number))?;
            pairs.push((key, number as u64))?;
        }
    }
    extend(trie, pairs, answer)
}
