//! Reads calls of tries on standard input, one a line, and writes what each answers on standard
//! output.
use nifazombi::rattle_std::alloc::Global;
use nifazombi::rattle_std::env::FillError;
use nifazombi::rattle_std::io::{self, IsTerminal, Read};
use nifazombi::rattle_std::rt::{Env, HostRuntime, host};
use programs::line_sessions::{Notices, Prompting, WatchedReader, WatchedWriter, run};
use shell::Shell;
use std::process::ExitCode;

/// What is told at a terminal.
const NOTICES: Notices = Notices {
    greeting: "trie_shell: help lists the calls, quit ends\n",
    cut: "not read: the terminal cuts a line of 4,095 bytes and more; `load FILE CALL` takes longer ones\n",
};

fn main() -> ExitCode {
    let page = include_str!("../../../docs/SHELL.md");
    programs::start("trie_shell", page, &["--strict"], answer_all)
}

/// Answers what standard input gives, with no word or with the one that it takes.
fn answer_all() -> ExitCode {
    let rt = host();
    let is_strict = std::env::args_os().len() > 1;
    if rt.stdin().is_terminal() {
        answer(&rt, is_strict, Prompting::new(rt.reader(), rt.stderr(), NOTICES))
    } else {
        answer(&rt, is_strict, rt.reader())
    }
}

/// Answers what the reader gives.
fn answer<R: Read>(rt: &HostRuntime, is_strict: bool, reader: R) -> ExitCode {
    let is_coloured = rt.stdout().is_terminal() && allows_colours(rt);
    let mut reader = WatchedReader::new(reader);
    let mut writer = WatchedWriter::new(io::writer(rt));
    let mut errors = WatchedWriter::new(rt.stderr());
    let shell = Shell::new(is_coloured, is_strict);
    run(Global, shell, &mut reader, &mut writer, &mut errors)
}

/// Whether colours may be written to a terminal: not to one whose `TERM` is `dumb`, and not where
/// `NO_COLOR` is set and isn't empty.
fn allows_colours(rt: &HostRuntime) -> bool {
    let mut value = [0; 4];
    let is_dumb = rt.var("TERM", &mut value).is_ok_and(|count| value.get(..count) == Some(b"dumb"));
    !is_dumb && matches!(rt.var("NO_COLOR", &mut value), Err(FillError::NotPresent) | Ok(0))
}
