//! Answers of several lines, and of what may be missing.
use crate::prelude::*;
use nifazombi::prefix_maps::RangeMap;
use nifazombi::radix_trie::iter::{Children, Cursor, CursorBack};
use nifazombi::trie_set::Selection;
use std::ops::Bound;

impl Answer<'_> {
    /// Adds a line: a pair, or that there is none.
    pub fn pair_line(&mut self, pair: Option<(&Key, &u64)>) -> Outcome {
        let Some((key, value)) = pair else {
            return self.line(NONE);
        };
        self.key(key)?;
        self.put(b" ")?;
        self.number((*value).into())?;
        self.end()
    }

    /// The same of a pair that was taken away.
    pub fn taken_line(&mut self, taken: Option<&(Key, u64)>) -> Outcome {
        self.pair_line(taken.map(|(key, value)| (key, value)))
    }

    /// Adds a line: a key, or that there is none.
    pub fn key_line(&mut self, key: Option<&Key>) -> Outcome {
        let Some(key) = key else {
            return self.line(NONE);
        };
        self.key(key)?;
        self.end()
    }

    /// Adds a line: a view, by its path and its value, or that there is none.
    pub fn view_line(&mut self, view: Option<&View<'_>>) -> Outcome {
        let Some(view) = view else {
            return self.line(NONE);
        };
        self.list(view.path())?;
        self.value_line(TrieCommon::value(view).copied())
    }

    /// Adds a line for each item, or one that there is none.
    pub fn lines<T>(
        &mut self,
        items: impl Iterator<Item = T>,
        mut add: impl FnMut(&mut Self, T) -> Outcome,
    ) -> Outcome {
        let mut is_none = true;
        for item in items {
            is_none = false;
            add(self, item)?;
        }
        if is_none { self.line(NONE) } else { Ok(()) }
    }

    /// Adds the pairs of a walk, or that there is none.
    pub fn pair_lines<'k>(&mut self, walk: impl Iterator<Item = (&'k Key, &'k u64)>) -> Outcome {
        self.lines(walk, |it, pair| it.pair_line(Some(pair)))
    }

    /// Adds the pairs of a list, or that there is none.
    pub fn listed_lines(&mut self, pairs: &[(Key, u64)]) -> Outcome {
        self.lines(pairs.iter(), |it, pair| it.taken_line(Some(pair)))
    }

    /// Adds the keys of a walk, or that there is none.
    pub fn key_lines<'k>(&mut self, keys: impl Iterator<Item = &'k Key>) -> Outcome {
        self.lines(keys, |it, key| it.key_line(Some(key)))
    }

    /// Adds the values of a walk, or that there is none.
    pub fn value_lines<'k>(&mut self, values: impl Iterator<Item = &'k u64>) -> Outcome {
        self.lines(values, |it, value| it.value_line(Some(*value)))
    }

    /// Adds the views of children, or that there is none.
    pub fn child_lines(&mut self, children: Children<'_, Key, u64>) -> Outcome {
        self.lines(children, |it, child| it.view_line(Some(&child)))
    }

    /// Adds what a walk gives whose steps may fail: a key each, with its value where there is one;
    /// so many at most, or that there is none.
    pub fn steps<'k>(
        &mut self,
        most: u64,
        mut step: impl FnMut() -> Result<Option<(&'k Key, Option<&'k u64>)>, Memory>,
    ) -> Outcome {
        let mut count = 0;
        while count < most
            && let Some((key, value)) = step()?
        {
            count += 1;
            match value {
                Some(_) => self.pair_line(value.map(|value| (key, value)))?,
                None => self.key_line(Some(key))?,
            }
        }
        if count == 0 { self.line(NONE) } else { Ok(()) }
    }

    /// The same of the pairs of a cursor.
    pub fn cursor_lines(&mut self, mut walk: Cursor<'_, Key, u64>) -> Outcome {
        self.steps(u64::MAX, || Ok(walk.next()?.map(|(key, value)| (key, Some(value)))))
    }

    /// The same of one that goes back.
    pub fn back_lines(&mut self, mut walk: CursorBack<'_, Key, u64>) -> Outcome {
        self.steps(u64::MAX, || Ok(walk.next()?.map(|(key, value)| (key, Some(value)))))
    }

    /// The same of the keys of sets.
    pub fn selected_lines(&mut self, mut walk: Selection<'_, Key>) -> Outcome {
        self.steps(u64::MAX, || Ok(walk.next()?.map(|key| (key, None))))
    }

    /// The same of a walk of any map, so many pairs at most.
    pub fn walk_lines<'k, M: Map<'k>>(&mut self, mut walk: M::Walk, most: u64) -> Outcome {
        self.steps(most, || Ok(M::next(&mut walk)?.map(|(key, value)| (key, Some(value)))))
    }

    /// Adds two counts, one behind the other.
    pub fn counts_line(&mut self, counts: impl IntoIterator<Item = u128>) -> Outcome {
        for count in counts {
            self.number(count)?;
        }
        self.end()
    }

    /// Writes the number of the next word where a value was found. The answer is the old one.
    pub fn written_line(&mut self, value: Option<&mut u64>, number: u64) -> Outcome {
        self.value_line(value.map(|value| std::mem::replace(value, number)))
    }
}

/// What tries and frozen ones have in common: one table of calls reads both.
pub trait Map<'k>: RangeMap<'k, Key, Key = &'k Key, Value = u64> {}
impl<'k, M: RangeMap<'k, Key, Key = &'k Key, Value = u64>> Map<'k> for M {}

/// From where a walk goes on, and up to where.
pub type Bounds = (Bound<Key>, Bound<Key>);

/// What is answered where a word writes no bound.
const NO_RANGE: Stop = Stop::Said("no range");

/// The bounds that the words left write: one behind `>`, one behind `<`, or both in this order.
pub fn next_bounds(answer: &mut Answer<'_>) -> Result<Bounds, Stop> {
    let (mut from, mut to) = (Bound::Unbounded, Bound::Unbounded);
    let mut word = answer.words.next();
    if let Some(first) = word.filter(|word| !word.starts_with('<')) {
        from = bound_of(first, '>', answer)?;
        word = answer.words.next();
    }
    if let Some(last) = word {
        if answer.words.left > 0 {
            return Err(NO_RANGE);
        }
        to = bound_of(last, '<', answer)?;
    }
    Ok((from, to))
}

/// The bound that a word writes behind the sign: the key, and with it where `=` stands before that.
fn bound_of(word: &str, sign: char, answer: &Answer<'_>) -> Result<Bound<Key>, Stop> {
    let limit = word.strip_prefix(sign).ok_or(NO_RANGE)?;
    match limit.strip_prefix('=') {
        Some(text) => Ok(Bound::Included(answer.query_of(text)?)),
        None => Ok(Bound::Excluded(answer.query_of(limit)?)),
    }
}
