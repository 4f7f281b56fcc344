//! The proved programs, and how they are started.
#![forbid(unsafe_code)]

use std::ffi::OsString;
use std::io::Write;
use std::process::ExitCode;

include!(concat!(env!("OUT_DIR"), "/modules.rs"));

/// Runs a program, or where `--help` or `--version` is its one word, writes its page or version.
/// Words that it doesn't take end it with status 5.
pub fn start(name: &str, page: &str, words: &[&str], run: fn() -> ExitCode) -> ExitCode {
    let given: Vec<OsString> = std::env::args_os().skip(1).collect();
    let text = match given.as_slice() {
        [] => return run(),
        [word] if words.iter().any(|known| word == known) => return run(),
        [word] if word == "--help" => page.to_string(),
        [word] if word == "--version" => format!("{name} {}\n", env!("CARGO_PKG_VERSION")),
        _ => {
            let known = [&["--help", "--version"], words].concat().join(", ");
            eprintln!("{name}: it takes lines on standard input, and no other word than {known}");
            return ExitCode::from(5);
        }
    };
    let mut output = std::io::stdout();
    match output.write_all(text.as_bytes()).and_then(|()| output.flush()) {
        Ok(()) => ExitCode::SUCCESS,
        Err(_) => ExitCode::FAILURE,
    }
}
