//! Frozen tries by their names, which are apart from those of tries.
use crate::edits::next_pairs;
use crate::own::own;
use crate::prelude::*;
use crate::shell::{NamedFrozen, Shell, read_call};
use crate::tries::Slot;
use nifazombi::frozen_trie::{freeze, frozen_copy};
use std::mem;

/// What is answered where no frozen trie has the name.
const NO_FROZEN: Stop = Stop::Said("no frozen trie");

impl Shell {
    /// The frozen trie of the name, or where one stood before it was thawed, or room for one.
    pub fn frozen_slot(&mut self, name: &str) -> Result<Slot, Memory> {
        match self.frozen.iter().position(|it| &*it.name == name) {
            Some(place) => Ok(Slot::At(place)),
            None => Slot::of_new(name, &mut self.frozen),
        }
    }

    /// Puts a frozen trie there.
    pub fn put_frozen(&mut self, slot: Slot, frozen: Frozen, answer: &mut Answer<'_>) -> Outcome {
        let frozen = Some(frozen);
        match slot {
            Slot::At(place) => self.frozen[place].frozen = frozen,
            Slot::New(name) => self.frozen.push_reserved(NamedFrozen { name, frozen }),
        }
        answer.line("ok")
    }

    /// The place of the frozen trie of the name.
    pub fn frozen_of(&mut self, name: &str) -> Result<&mut Option<Frozen>, Stop> {
        let found = self.frozen.iter_mut().find(|it| &*it.name == name);
        let found = found.filter(|it| it.frozen.is_some());
        Ok(&mut found.ok_or(NO_FROZEN)?.frozen)
    }

    /// Moves the pairs of the current trie into a frozen one. Where that fails the trie comes back.
    pub fn freeze(&mut self, answer: &mut Answer<'_>) -> Outcome {
        let slot = self.frozen_slot(answer.next_name()?)?;
        match freeze(mem::replace(&mut self.current.trie, Trie::new(Global))) {
            Ok(frozen) => self.put_frozen(slot, frozen, answer),
            Err(error) => {
                self.current.trie = error.back;
                Err(error.why.into())
            }
        }
    }

    /// Copies the pairs of the current trie into a frozen one.
    pub fn frozen_copy(&mut self, answer: &mut Answer<'_>) -> Outcome {
        let slot = self.frozen_slot(answer.next_name()?)?;
        let copy = frozen_copy(&self.current.trie)?;
        self.put_frozen(slot, copy, answer)
    }

    /// The frozen trie of the pairs that the next words write.
    pub fn from_sorted(&mut self, answer: &mut Answer<'_>) -> Outcome {
        let slot = self.frozen_slot(answer.next_name()?)?;
        let pairs = next_pairs(answer)?;
        let frozen = FrozenTrie::from_sorted(Global, pairs).map_err(|error| error.why)?;
        self.put_frozen(slot, frozen, answer)
    }

    /// The frozen trie of the name becomes the current trie, where that has no pair. A copy is
    /// thawed: where memory fails, neither that nor the trie of its pairs is whole.
    pub fn thaw(&mut self, answer: &mut Answer<'_>) -> Outcome {
        let name = answer.next_name()?;
        if !self.current.trie.is_empty() {
            return Err(Stop::Said("occupied"));
        }
        let frozen = self.frozen_of(name)?;
        let pairs = own(|| frozen.iter().next().map(|it| it.pairs().to_vec_by(Global)));
        let copy = FrozenTrie::from_sorted(Global, pairs.ok_or(NO_FROZEN)??);
        let trie = copy.map_err(|error| error.why)?.thaw().map_err(|_| Memory)?;
        *frozen = None;
        self.current.trie = trie;
        answer.line("ok")
    }

    /// What the frozen trie of the name answers, which the next words ask.
    pub fn ask_frozen(&mut self, answer: &mut Answer<'_>) -> Outcome {
        let name = answer.next_name()?;
        let call = read_call(answer)?;
        let frozen = self.frozen_of(name)?.as_mut().ok_or(NO_FROZEN)?;
        call.frozen.ok_or(Stop::Said(NOT_HERE))?(frozen, answer)
    }
}
