//! What is told of the calls.
use crate::prelude::*;
use crate::table::{CALLS, GROUPS};

/// What is answered to a line that ends a session at a terminal, elsewhere.
pub const NO_TERMINAL: &str = "not at a terminal: the end of the input ends the session";

/// What the list of groups ends with.
const MORE: &str =
    "help GROUP lists a group's calls, help CALL explains one, and help all lists all of them.";

/// The groups, each with what it is for.
pub fn answer_groups(answer: &mut Answer<'_>) -> Outcome {
    for (name, about) in GROUPS {
        help_line(answer, name, about)?;
    }
    answer.line(MORE)
}

/// What is told of the call or the group that the next word names, or of all calls.
pub fn answer_help(answer: &mut Answer<'_>) -> Outcome {
    let meant = answer.next_word();
    let is_meant = |name: &str| name == meant || meant == "all";
    let calls = CALLS.iter().filter(|call| is_meant(call.name) || call.group == meant);
    let lines = calls.flat_map(|call| call.help.iter().map(|text| (call.form, text)));
    answer.lines(lines, |answer, (form, text)| help_line(answer, form, text))
}

/// A line that tells of something.
fn help_line(answer: &mut Answer<'_>, name: &str, text: &str) -> Outcome {
    answer.put(name.as_bytes())?;
    answer.put(b": ")?;
    answer.put(text.as_bytes())?;
    answer.end()
}

/// The names of the calls that begin with a word, each once: the rows of a call stand together.
pub fn answer_complete(answer: &mut Answer<'_>) -> Outcome {
    let (beginning, mut last) = (answer.next_word(), "");
    let names = CALLS
        .iter()
        .map(|call| call.name)
        .filter(|name| name.starts_with(beginning) && std::mem::replace(&mut last, name) != *name);
    answer.lines(names, |answer, name| answer.line(name))
}
