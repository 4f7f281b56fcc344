//! Views that are opened and left, and calls in a row of one for writing.
use crate::own::own;
use crate::prelude::*;
use crate::shell::{Shell, ViewPath, inner_call};
use crate::table::Call;

impl Call {
    /// Makes the call of a view for writing, which it may take.
    pub fn in_write_view(&self, mut view: ViewMut<'_>, answer: &mut Answer<'_>) -> Outcome {
        match (self.taken, self.write) {
            (Some(does), _) => does(view, answer),
            (_, Some(does)) => does(&mut view, answer),
            _ => Err(Stop::Said(NOT_HERE)),
        }
    }
}

/// Opens a view that the library gives, or answers that there is none. There is room for it before,
/// so that nothing fails behind the answer.
macro_rules! open_view {
    ($shell:ident, $answer:ident, $is_for_writing:literal, $key:ident => $view:expr) => {{
        let $key = &$answer.next_query()?;
        own(|| $shell.view_paths.reserve(1))?;
        let Some(view) = $view else {
            return $answer.line(NONE);
        };
        let path = own(|| view.path().clone())?;
        $answer.list(&path)?;
        $answer.value_line(TrieCommon::value(&view).copied())?;
        $shell.view_paths.push_reserved(ViewPath { path, is_for_writing: $is_for_writing });
        Ok(())
    }};
}

impl Shell {
    /// Opens a view for reading.
    pub fn open(&mut self, answer: &mut Answer<'_>) -> Outcome {
        open_view!(self, answer, false, key => self.current.trie.subtrie(key)?)
    }

    /// Opens a view for writing.
    pub fn open_mut(&mut self, answer: &mut Answer<'_>) -> Outcome {
        open_view!(self, answer, true, key => Some(self.current.trie.open_mut(key)?))
    }

    /// The same by the other call.
    pub fn subtrie_mut(&mut self, answer: &mut Answer<'_>) -> Outcome {
        open_view!(self, answer, true, key => self.current.trie.subtrie_mut(key)?)
    }
}

/// The answers of calls of one view at the key that the next word writes. Where memory fails for
/// one of them, those before it are undone too.
pub fn with(
    trie: &mut Table,
    answer: &mut Answer<'_>,
    open: for<'t> fn(&'t mut Table, &Key) -> Result<Option<ViewMut<'t>>, Stop>,
) -> Outcome {
    let key = answer.next_query();
    check_calls(answer.words.text)?;
    let key = key?;
    let before = own(|| trie.clone())?;
    let outcome = match open(trie, &key) {
        Ok(Some(view)) => make_calls(view, answer),
        Ok(None) => answer.line(NONE),
        Err(stop) => Err(stop),
    };
    if let Err(Stop::Memory) = outcome {
        *trie = before;
    }
    outcome
}

/// Whether a text is calls, ` ; ` between two of them, of which the last alone may take the view.
fn check_calls(text: &str) -> Outcome {
    let mut is_taken = false;
    for text in text.split(" ; ") {
        if is_taken {
            return Err(Stop::Said(NOT_HERE));
        }
        let (call, words) = inner_call(text)?;
        is_taken = call.taken.is_some();
        if is_taken && words.left > 0 {
            inner_call(words.text)?;
        }
    }
    Ok(())
}

/// Makes the calls of the view, one after another.
fn make_calls(mut view: ViewMut<'_>, answer: &mut Answer<'_>) -> Outcome {
    for text in answer.words.text.split(" ; ") {
        let (call, words) = inner_call(text)?;
        if call.taken.is_some() {
            return answer.inner(words, |inner| call.in_write_view(view, inner));
        }
        let does = call.write.unwrap_or(|_, _| Err(Stop::Said(NOT_HERE)));
        answer.inner(words, |inner| does(&mut view, inner))?;
    }
    Ok(())
}
