//! What the program answers: a row for each call, and how many pairs it holds.
use std::io::Write;
use std::process::{Command, Stdio};

/// The lines that the program answers, and whether it ends well.
fn answered(lines: &str) -> (Vec<String>, bool) {
    let mut started = Command::new(env!("CARGO_BIN_EXE_trie_bench"))
        .stdin(Stdio::piped())
        .stdout(Stdio::piped())
        .stderr(Stdio::null())
        .spawn()
        .unwrap();
    started.stdin.take().unwrap().write_all(lines.as_bytes()).unwrap();
    let done = started.wait_with_output().unwrap();
    let said = String::from_utf8(done.stdout).unwrap();
    (said.lines().map(str::to_string).collect(), done.status.success())
}

#[test]
fn rows_of_each_kind_of_keys() {
    let kinds = [("words", 35), ("paths", 35), ("numbers", 35), ("addresses", 24)];
    let others = [("ipv4", 7), ("ipv6", 7), ("pages", 2), ("chain", 12)];
    for (kind, count) in [kinds, others].concat() {
        let line = format!("{kind} 500");
        let (rows, is_well) = answered(&format!("{line}\n"));
        assert!(is_well && rows.len() == count, "{kind}: {rows:?}");
        assert!(rows.iter().all(|row| row.starts_with(&line)), "{kind}: {rows:?}");
    }
}

#[test]
fn pairs_of_stores_that_are_held() {
    let given = "key tea\nkey ten\nkey team\n";
    for (store, pairs) in [("keys", 0), ("trie", 999_999), ("frozen", 999_999), ("texts", 999_999)]
    {
        let line = format!("given 3 {store}");
        assert_eq!(answered(&format!("{given}{line}\n")), (vec![format!("{line} {pairs}")], true));
    }
    let lines = ["tea 3", "ten 3", "team 4"].map(str::to_string).to_vec();
    assert_eq!(answered(&format!("{given}given 3 list\n")), (lines, true));
}

#[test]
fn lines_that_are_not_understood() {
    for line in ["words", "letters 3", "words 3 shelf", "words many"] {
        assert_eq!(answered(&format!("{line}\n")), (vec![], false), "{line}");
    }
}
