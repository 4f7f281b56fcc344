//! The standard streams, seen from outside: this program runs itself as another, and looks at what
//! that reads and writes.
use rattle_std::alloc::Global;
use rattle_std::io::{self, Read as _, Write as _};
use rattle_std::macros;
use rattle_std::rt::host;
use rattle_std::vec::Vec as List;
use std::process::{Command, ExitCode, Output, Stdio, exit};

fn main() -> ExitCode {
    match std::env::args().nth(1).as_deref() {
        Some("echoes") => echoes(),
        Some("fails") => fails(),
        _ => {
            the_runtime_reads_and_writes_the_standard_streams();
            standard_output_is_one_write_for_each_call();
            #[cfg(target_os = "linux")]
            a_write_that_fails_is_an_error_and_keeps_nothing();
            ExitCode::SUCCESS
        }
    }
}

/// Runs this program in another role.
fn run(role: &str) -> Command {
    let mut command = Command::new(std::env::current_exe().unwrap());
    command.arg(role).stdin(Stdio::piped()).stdout(Stdio::piped()).stderr(Stdio::piped());
    command
}

/// What the program in that role writes and returns, where it reads these bytes.
fn output(role: &str, input: &[u8]) -> Output {
    let mut inner = run(role).spawn().unwrap();
    inner.stdin.take().unwrap().write_all(input).unwrap();
    inner.wait_with_output().unwrap()
}

/// A value that fails to be displayed.
struct Hidden;

impl std::fmt::Display for Hidden {
    fn fmt(&self, _: &mut std::fmt::Formatter<'_>) -> std::fmt::Result {
        Err(std::fmt::Error)
    }
}

fn echoes() -> ExitCode {
    let rt = host();
    let (mut reader, mut writer, mut list) = (rt.reader(), io::writer(&rt), List::new(Global));
    reader.read_to_end(&mut list).unwrap();
    writer.write_all(list.as_slice()).unwrap();
    macros::println!(rt; "a {}", "line").unwrap();
    macros::println!(rt; "{}{}", "long ".repeat(500), "x").unwrap();
    assert!(macros::println!(rt; "{}", Hidden).is_err(), "a value that isn't displayed");
    writer.write_all(b"no line").unwrap();
    rt.stderr().write_all(b"of an error: ").unwrap();
    macros::eprintln!(rt; "a {}", "line").unwrap();
    // No buffer is left to be written by Rust's library.
    exit(7)
}

fn the_runtime_reads_and_writes_the_standard_streams() {
    let output = output("echoes", b"some bytes\xff\n");
    let long = "long ".repeat(500);
    let wanted = [b"some bytes\xff\na line\n", long.as_bytes(), b"x\nno line"].concat();
    assert_eq!(output.stdout, wanted);
    assert_eq!(output.stderr, b"of an error: a line\n");
    assert_eq!(output.status.code(), Some(7));
}

/// Through a pipe that is read as it fills, what is written at once comes at once.
fn standard_output_is_one_write_for_each_call() {
    let mut inner = run("echoes").stderr(Stdio::null()).spawn().unwrap();
    let mut out = inner.stdout.take().unwrap();
    let mut part = [0; 64];
    inner.stdin.take().unwrap().write_all(b"no line's end").unwrap();
    let count = std::io::Read::read(&mut out, &mut part).unwrap();
    assert!(part[..count].starts_with(b"no line's end"), "it isn't kept for a line");
    drop(out);
    inner.wait().unwrap();
}

fn fails() -> ExitCode {
    let rt = host();
    let mut writer = io::writer(&rt);
    let are_errors = writer.write(b"never written").is_err()
        && macros::println!(rt; "nor this {}", 1).is_err()
        && writer.flush().is_ok();
    ExitCode::from(if are_errors { 7 } else { 8 })
}

/// Rust's own writer would keep what a failed write left over, and write it at the end.
#[cfg(target_os = "linux")]
fn a_write_that_fails_is_an_error_and_keeps_nothing() {
    let full = std::fs::OpenOptions::new().write(true).open("/dev/full").unwrap();
    let status = run("fails").stdout(full).status().unwrap();
    assert_eq!(status.code(), Some(7));
}
