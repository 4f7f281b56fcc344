//! The repository's own scripts, over the shell that Cargo has built. They need `python3`, and
//! those that have calls fail, a C compiler too.
use std::path::Path;
use std::process::Command;

/// Has a script of `tools/` try the built shell. What it says is shown where something fails.
fn passes(script: &str, words: &[&str]) {
    let root = Path::new(env!("CARGO_MANIFEST_DIR")).join("../..");
    let programs = Path::new(env!("CARGO_BIN_EXE_trie_shell")).parent().expect("it is in a folder");
    let mut command = Command::new("python3");
    command
        .arg("-EB")
        .arg(root.join("tools/checks").join(script))
        .args(words)
        .env("PROGRAMS", programs);
    match command.output() {
        Err(error) => panic!("python3 is needed, and can't be started: {error}"),
        Ok(ran) if ran.status.success() => {}
        Ok(ran) => {
            let [said, told] = [&ran.stdout, &ran.stderr].map(|it| String::from_utf8_lossy(it));
            panic!("{script} {}: {}\n{said}{told}", words.join(" "), ran.status);
        }
    }
}

#[test]
fn stored_sessions() {
    passes("faults", &["--once", "trie_shell"]);
}

#[test]
fn random_sessions() {
    passes("random_tries", &[]);
}

#[test]
fn failing_streams_and_files() {
    passes("faults", &["--sample", "20", "trie_shell"]);
}
