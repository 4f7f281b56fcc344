//! Objects as tries, and the texts of errors.
use crate::answer::ERRORS;
use crate::own::own;
use crate::prelude::*;
use nifazombi::radix_trie::{from_value, to_value};
use nifazombi::rattle_std::serde_json::{Category, Value};

/// Reads the object that the words write as a trie: its counts of pairs, nodes and nibbles, and the
/// object that it is written as.
pub fn answer_json(answer: &mut Answer<'_>) -> Outcome {
    let value = own(|| Value::from_str(Global, answer.words.text)).map_err(|error| match error
        .classify()
    {
        Category::Memory => Stop::Memory,
        _ => Stop::Said("no value"),
    })?;
    let trie = from_value(Global, &value)?;
    let (nodes, nibbles) = trie.footprint();
    answer.counts_line([trie.len() as u128, nodes, nibbles])?;
    let object = to_value(Global, &trie)?;
    let text = own(|| object.to_string(Global))?;
    answer.line(&text)
}

/// The text of the error that the next word names.
pub fn answer_error(answer: &mut Answer<'_>) -> Outcome {
    let meant = answer.next_word();
    match ERRORS.iter().find(|(word, _)| *word == meant) {
        Some((_, error)) => answer.shown_line(error),
        None => answer.line(NONE),
    }
}
