//! A shell that takes calls of tries, one a line, and writes what each answers.
#![forbid(unsafe_code)]

mod answer;
mod commands;
mod draw;
mod edits;
mod encodings;
mod escapes;
mod files;
mod frozen;
mod help;
mod json;
mod key;
mod kind;
mod lines;
mod own;
mod parts;
mod reads;
mod shell;
mod table;
mod tries;
mod views;
mod words;

pub use own::is_own;
pub use shell::Shell;

/// What each module sees. Texts and vectors are Rattle's, whose growth may fail.
mod prelude {
    pub use crate::answer::{Answer, Outcome, Stop};
    pub use crate::key::Key;
    pub use crate::kind::Kind;
    pub use nifazombi::frozen_trie::FrozenTrie;
    pub use nifazombi::radix_trie::{
        Memory, Nibblet, Parts, SubTrie, SubTrieMut, Trie, TrieCommon, TrieKey,
    };
    pub use nifazombi::rattle_std::alloc::Global;
    pub use nifazombi::rattle_std::prelude::*;

    /// A trie, its views, and a frozen one, as a session has them.
    pub type Table = Trie<Key, u64>;
    pub type View<'a> = SubTrie<'a, Key, u64>;
    pub type ViewMut<'a> = SubTrieMut<'a, Key, u64>;
    pub type Frozen = FrozenTrie<Key, u64>;

    /// What is answered where a call isn't made, or where nothing is.
    pub const NO_KEY: &str = "no key";
    pub const NO_LIST: &str = "no list";
    pub const NO_NUMBER: &str = "no number";
    pub const NO_TYPE: &str = "no type of keys";
    pub const NOT_HERE: &str = "no such call here";
    pub const NONE: &str = "none";
}
