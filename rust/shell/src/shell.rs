//! The shell: tries and frozen ones by their names, and the views that are open in the current one.
use crate::answer::{OTHER_COUNT, answer_behind};
use crate::own::own;
use crate::prelude::*;
use crate::table::{Call, called};
use crate::words::Words;
use programs::line_sessions::{Program, Refusal};

/// A trie and its name, where an empty one stands for the name of the first trie.
pub struct NamedTrie {
    pub name: String,
    pub trie: Table,
}

/// A name, and the frozen trie that has it, unless that was thawed.
pub struct NamedFrozen {
    pub name: String,
    pub frozen: Option<Frozen>,
}

/// Where an open view stands, and whether it is one for writing.
pub struct ViewPath {
    pub path: Nibblet,
    pub is_for_writing: bool,
}

/// The tries, and the type of their keys. A view borrows its trie, so each line in it opens it anew
/// at its path.
pub struct Shell {
    pub(crate) kind: Kind,
    pub(crate) current: NamedTrie,
    pub(crate) others: Vec<NamedTrie>,
    pub(crate) frozen: Vec<NamedFrozen>,
    pub(crate) view_paths: Vec<ViewPath>,
    is_coloured: bool,
    is_strict: bool,
}

impl Shell {
    /// A shell with one trie of texts, which holds nothing. Answers to a terminal are coloured. A
    /// strict one refuses a bad line, which ends a session.
    pub fn new(is_coloured: bool, is_strict: bool) -> Shell {
        Shell {
            kind: Kind::Text,
            current: NamedTrie { name: String::new(Global), trie: Trie::new(Global) },
            others: Vec::new(Global),
            frozen: Vec::new(Global),
            view_paths: Vec::new(Global),
            is_coloured,
            is_strict,
        }
    }

    /// Answers a line, behind the answers that wait. Where memory fails for its call that is the
    /// answer, and all is as it was, but for what `extend`, `merge`, `retain` and `retain_below`
    /// have done before.
    ///
    /// # Errors
    /// Where the line is bad and the shell strict, or there is no memory for any answer.
    pub fn answer(&mut self, line: &[u8], answers: &mut Vec<u8>) -> Result<(), Refusal> {
        if line.is_empty() || line.starts_with(b"#") {
            return Ok(());
        }
        let (why, stop) = match str::from_utf8(line).map(called) {
            Ok(Ok((call, words))) => {
                return answer_behind(answers, |answers| {
                    let mut answer = Answer::new(self.kind, words, answers);
                    answer.is_coloured = self.is_coloured;
                    let outcome = match call.shell {
                        Some(does) => does(self, &mut answer),
                        None => self.make(call, &mut answer),
                    };
                    answer.told(outcome)
                });
            }
            Ok(Err(None)) => ("no such call", Stop::Said("no such call: help lists them")),
            Ok(Err(Some(form))) => (OTHER_COUNT, Stop::OtherCount(form)),
            Err(_) => ("not UTF-8", Stop::Said("not UTF-8")),
        };
        if self.is_strict {
            return Err(Refusal::Bad(why));
        }
        answer_behind(answers, |answers| {
            Answer::new(self.kind, Words::default(), answers).told(Err(stop))
        })
    }

    /// Makes a call of the tries, or of the view that is open.
    pub fn make(&mut self, call: &Call, answer: &mut Answer<'_>) -> Outcome {
        if let Some(does) = call.tries {
            return does(self, answer);
        }
        let trie = &mut self.current.trie;
        match self.view_paths.last() {
            Some(ViewPath { path, is_for_writing: true }) => {
                call.in_write_view(own(|| trie.open_mut(path))?, answer)
            }
            Some(ViewPath { path, .. }) => {
                let view = own(|| trie.subtrie(path))?.ok_or(Stop::Said("closed"))?;
                call.view.ok_or(Stop::Said(NOT_HERE))?(&view, answer)
            }
            None => call.whole.or(call.trie).ok_or(Stop::Said(NOT_HERE))?(trie, answer),
        }
    }

    /// Begins with a trie of the type of keys that the next word names. No pair may be stored then,
    /// unless all are to be dropped.
    pub fn begin(&mut self, answer: &mut Answer<'_>, is_dropping: bool) -> Outcome {
        let kind = Kind::of(answer.next_word()).ok_or(Stop::Said(NO_TYPE))?;
        let is_empty = self.current.trie.is_empty()
            && self.others.iter().all(|other| other.trie.is_empty())
            && self.frozen.iter().all(|it| it.frozen.as_ref().is_none_or(|it| it.is_empty()));
        if !is_empty && !is_dropping {
            return Err(Stop::Said("tries hold pairs"));
        }
        *self = Shell { kind, ..Shell::new(self.is_coloured, self.is_strict) };
        answer.line("ok")
    }
}

impl Program for Shell {
    fn answer(&mut self, line: &[u8], answers: &mut Vec<u8>) -> Result<(), Refusal> {
        Shell::answer(self, line, answers)
    }
}

/// The call that a text asks for, and its words, where it stands behind another one.
pub fn inner_call(text: &str) -> Result<(&'static Call, Words<'_>), Stop> {
    called(text).map_err(|form| form.map_or(Stop::Said(NOT_HERE), Stop::OtherCount))
}

/// Goes on with the call that the words left ask for, as a line does.
pub fn read_call(answer: &mut Answer<'_>) -> Result<&'static Call, Stop> {
    let (call, words) = inner_call(answer.words.text)?;
    answer.words = words;
    Ok(call)
}
