//! The words that the shell takes beside its lines.
use std::process::Command;

fn ran(words: &[&str]) -> (Option<i32>, String) {
    let told = Command::new(env!("CARGO_BIN_EXE_trie_shell")).args(words).output();
    let told = told.expect("it is built");
    (told.status.code(), String::from_utf8(told.stdout).expect("it is UTF-8"))
}

#[test]
fn help_and_version_are_told() {
    let version = format!("trie_shell {}\n", env!("CARGO_PKG_VERSION"));
    assert_eq!(ran(&["--version"]), (Some(0), version));
    assert!(ran(&["--help"]).1.starts_with("# A shell of tries\n"));
}

#[test]
fn other_words_than_strict_run_nothing() {
    assert_eq!(ran(&["--strict"]), (Some(0), String::new()));
    for words in [&["--read-on"] as &[&str], &[""], &["--strict", "--strict"], &["len"]] {
        assert_eq!(ran(words), (Some(5), String::new()), "{words:?}");
    }
}
