//! The repository's own scripts, over the programs that Cargo has built. They need `python3`, and
//! those that have calls fail, a C compiler too.
use std::path::Path;
use std::process::Command;

/// Has a script of `tools/` try the built programs. What it says is shown where something fails.
fn passes(script: &str, words: &[&str]) {
    let root = Path::new(env!("CARGO_MANIFEST_DIR")).join("../..");
    let programs = Path::new(env!("CARGO_BIN_EXE_trie_tool")).parent().expect("it is in a folder");
    let mut command = Command::new("python3");
    command
        .arg("-EB")
        .arg(root.join("tools/checks").join(script))
        .args(words)
        .env("PROGRAMS", programs);
    match command.output() {
        Err(error) => panic!("python3 is needed, and can't be started: {error}"),
        Ok(ran) if ran.status.success() => {}
        Ok(ran) => {
            let [said, told] = [&ran.stdout, &ran.stderr].map(|it| String::from_utf8_lossy(it));
            panic!("{script} {}: {}\n{said}{told}", words.join(" "), ran.status);
        }
    }
}

#[test]
fn stored_sessions_of_trie_tool() {
    passes("faults", &["--once", "trie_tool"]);
}

#[test]
fn stored_sessions_of_route_tool() {
    passes("faults", &["--once", "route_tool"]);
}

#[test]
fn random_sessions_of_route_tool() {
    passes("random_routes", &[]);
}

#[test]
fn refused_allocations_and_failing_streams_of_trie_tool() {
    passes("faults", &["--sample", "10", "trie_tool"]);
}

#[test]
fn refused_allocations_and_failing_streams_of_route_tool() {
    passes("faults", &["--sample", "10", "route_tool"]);
}

#[test]
fn routes_of_the_kernel_as_lines() {
    passes("../../crates/route_tool/examples/kernel_routes_tests", &[]);
}
