//! Tries by their names.
use crate::own::own;
use crate::prelude::*;
use crate::shell::{NamedTrie, Shell};
use nifazombi::trie_set::TrieSet;
use std::mem;

/// The name of the first trie.
const FIRST: &str = "trie";

/// What is answered where no other trie has the name.
const NO_TRIE: Stop = Stop::Said("no other trie");

/// Where something of a name stands, or the name of one that is to be made, with room for it.
pub enum Slot {
    At(usize),
    New(String),
}

impl Slot {
    /// Room for something of this name.
    pub fn of_new<T>(name: &str, list: &mut Vec<T>) -> Result<Slot, Memory> {
        own(|| list.reserve(1))?;
        Ok(Slot::New(own(|| String::from_str(Global, name))?))
    }
}

impl NamedTrie {
    fn name(&self) -> &str {
        if self.name.is_empty() { FIRST } else { &self.name }
    }
}

impl Shell {
    /// The trie of this name, which may be the current one.
    pub fn named(&self, name: &str) -> Result<&Table, Stop> {
        let mut tries = self.others.iter().chain([&self.current]);
        Ok(&tries.find(|it| it.name() == name).ok_or(NO_TRIE)?.trie)
    }

    /// The other trie of this name, or room for one.
    fn slot(&mut self, name: &str) -> Result<Slot, Memory> {
        match self.others.iter().position(|other| other.name() == name) {
            Some(place) => Ok(Slot::At(place)),
            None => Slot::of_new(name, &mut self.others),
        }
    }

    /// The same, where that isn't the current one.
    fn other_slot(&mut self, name: &str) -> Result<Slot, Stop> {
        if self.current.name() == name { Err(NO_TRIE) } else { Ok(self.slot(name)?) }
    }

    /// Puts a trie there.
    fn put(&mut self, slot: Slot, trie: Table) {
        match slot {
            Slot::At(place) => self.others[place].trie = trie,
            Slot::New(name) => self.others.push_reserved(NamedTrie { name, trie }),
        }
    }

    /// Another trie becomes the current one. It is made where there is none.
    pub fn use_trie(&mut self, answer: &mut Answer<'_>) -> Outcome {
        let name = answer.next_name()?;
        if self.current.name() != name {
            let place = match self.slot(name)? {
                Slot::At(place) => place,
                slot => {
                    self.put(slot, Trie::new(Global));
                    self.others.len() - 1
                }
            };
            mem::swap(&mut self.current, &mut self.others[place]);
            self.view_paths.clear();
        }
        answer.line("ok")
    }

    /// The names, that of the current trie first.
    pub fn answer_tries(&self, answer: &mut Answer<'_>) -> Outcome {
        for it in [&self.current].into_iter().chain(&self.others) {
            answer.escaped(it.name().as_bytes())?;
            answer.end()?;
        }
        Ok(())
    }

    /// A copy of the current trie, under the name.
    pub fn clone_trie(&mut self, answer: &mut Answer<'_>) -> Outcome {
        let slot = self.other_slot(answer.next_name()?)?;
        let copy = self.current.trie.clone()?;
        self.put(slot, copy);
        answer.line("ok")
    }

    /// The part of the current trie at and below the key, taken from it, under the name.
    pub fn split_off_prefix(&mut self, answer: &mut Answer<'_>) -> Outcome {
        let (key, name) = (answer.next_query(), answer.next_name()?);
        let key = key?;
        let slot = self.other_slot(name)?;
        let part = self.current.trie.split_off_prefix(&key)?;
        self.put(slot, part);
        answer.line("ok")
    }

    /// Grafts the other trie of the name onto the current one, which leaves it empty. Where that
    /// fails it comes back.
    pub fn graft(&mut self, answer: &mut Answer<'_>) -> Outcome {
        let name = answer.next_name()?;
        let other = self.others.iter_mut().find(|it| it.name() == name).ok_or(NO_TRIE)?;
        let part = mem::replace(&mut other.trie, Trie::new(Global));
        if let Err(error) = self.current.trie.graft(part) {
            other.trie = error.back;
            return Err(error.why.into());
        }
        answer.line("ok")
    }

    /// Stores the pairs of a copy of the trie of the name in the current one.
    pub fn merge(&mut self, answer: &mut Answer<'_>) -> Outcome {
        let copy = self.named(answer.next_name()?)?.clone()?;
        self.current.trie.merge(copy)?;
        answer.line("ok")
    }

    /// The sets of the current trie's keys and of those of the trie of the name.
    pub fn key_sets(&self, answer: &mut Answer<'_>) -> Result<(TrieSet<Key>, TrieSet<Key>), Stop> {
        let other = self.named(answer.next_name()?)?;
        Ok((set_of(&self.current.trie)?, set_of(other)?))
    }
}

/// The set of copies of a trie's keys.
fn set_of(trie: &Table) -> Result<TrieSet<Key>, Memory> {
    let mut set = TrieSet::new(Global);
    for key in trie.keys()? {
        set.insert(key.clone()?).map_err(|_| Memory)?;
    }
    Ok(set)
}
