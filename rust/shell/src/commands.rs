//! Lists of commands, and their replies.
use crate::own::own;
use crate::prelude::*;
use nifazombi::radix_trie::{Command, Reply, ViewCommand, run};

type Commands = Vec<Command<Key, u64>>;

/// What is answered where the words write no commands.
const NO_COMMANDS: Stop = Stop::Said("no commands");

/// Runs the commands that the words write. Where one of them fails, the trie becomes again what it
/// was before, but where each is to be run once.
pub fn run_commands(trie: &mut Table, answer: &mut Answer<'_>, is_once: bool) -> Outcome {
    let commands = own(|| commands_of(answer)).map_err(|stop| match stop {
        Stop::Memory => stop,
        _ => NO_COMMANDS,
    })?;
    let before = own(|| trie.clone())?;
    let replies = run(trie, commands)?;
    match add_replies(answer, &replies) {
        Ok(is_whole) if is_whole || is_once => Ok(()),
        _ => {
            *trie = before;
            Err(Stop::Memory)
        }
    }
}

/// The commands that the words write.
fn commands_of(answer: &mut Answer<'_>) -> Result<Commands, Stop> {
    let mut commands = Vec::new(Global);
    let mut inner: Option<(Key, Vec<ViewCommand<Key, u64>>)> = None;
    while let Some(name) = answer.words.next() {
        match (name, &mut inner) {
            ("within", None) => inner = Some((answer.next_key()?, Vec::new(Global))),
            ("ancestor", None) => commands.push(Command::Ancestor(answer.next_key()?))?,
            ("end", Some(_)) => {
                let (key, list) = inner.take().ok_or(NO_COMMANDS)?;
                commands.push(Command::Within(key, list))?;
            }
            (_, Some((_, list))) => list.push(view_command(name, answer)?)?,
            (_, None) => commands.push(of_trie(view_command(name, answer)?))?,
        }
    }
    if inner.is_some() { Err(NO_COMMANDS) } else { Ok(commands) }
}

/// The command of this name that tries and views have, whose key and value are the next words.
fn view_command(name: &str, answer: &mut Answer<'_>) -> Result<ViewCommand<Key, u64>, Stop> {
    Ok(match name {
        "len" => ViewCommand::Len,
        "insert" => ViewCommand::Insert(answer.next_key()?, answer.next_number()?),
        "remove" => ViewCommand::Remove(answer.next_key()?),
        "remove_prefix" => ViewCommand::RemovePrefix(answer.next_key()?),
        "get" => ViewCommand::Get(answer.next_key()?),
        _ => return Err(NO_COMMANDS),
    })
}

/// The same command of a trie.
fn of_trie(command: ViewCommand<Key, u64>) -> Command<Key, u64> {
    match command {
        ViewCommand::Insert(key, value) => Command::Insert(key, value),
        ViewCommand::Remove(key) => Command::Remove(key),
        ViewCommand::RemovePrefix(key) => Command::RemovePrefix(key),
        ViewCommand::Get(key) => Command::Get(key),
        ViewCommand::Len => Command::Len,
    }
}

/// Adds the lines of replies, or that there is none. False: a command failed.
fn add_replies(answer: &mut Answer<'_>, replies: &[Reply<u64>]) -> Result<bool, Stop> {
    let mut is_whole = true;
    answer.lines(replies.iter(), |answer, reply| {
        is_whole = add_reply(answer, reply)? && is_whole;
        if let Reply::Replies(list) = reply {
            for inner in list {
                is_whole = add_reply(answer, inner)? && is_whole;
            }
            answer.line("end")?;
        }
        Ok(())
    })?;
    Ok(is_whole)
}

/// Adds the line of a reply, without the replies in it. False: its command failed.
fn add_reply(answer: &mut Answer<'_>, reply: &Reply<u64>) -> Result<bool, Stop> {
    match reply {
        Reply::Old(value) => {
            answer.word("old")?;
            answer.value_line(*value)?;
        }
        Reply::Found(value) => {
            answer.word("found")?;
            answer.value_line(*value)?;
        }
        Reply::Gone(values) => {
            answer.word("gone")?;
            answer.counts_line(values.iter().map(|value| u128::from(*value)))?;
        }
        Reply::Number(count) => answer.count_line(*count)?,
        Reply::Closed => answer.line("closed")?,
        Reply::Outside => answer.line("outside")?,
        Reply::Replies(_) => answer.line("replies")?,
        Reply::Refused => answer.line("refused")?,
    }
    Ok(!matches!(reply, Reply::Refused))
}
