//! The words that the programs take beside their lines.
use std::fs::File;
use std::process::{Command, Output};

const PROGRAMS: [(&str, &str); 2] = [
    ("trie_tool", env!("CARGO_BIN_EXE_trie_tool")),
    ("route_tool", env!("CARGO_BIN_EXE_route_tool")),
];

fn ran(path: &str, words: &[&str]) -> Output {
    Command::new(path).args(words).output().expect("it is built")
}

#[test]
fn help_is_the_page() {
    for (name, path) in PROGRAMS {
        let told = ran(path, &["--help"]);
        let page = String::from_utf8(told.stdout).expect("a page is UTF-8");
        assert!(told.status.success() && page.starts_with("# ") && page.contains(name), "{name}");
    }
}

#[test]
fn version_is_that_of_the_package() {
    for (name, path) in PROGRAMS {
        let told = ran(path, &["--version"]).stdout;
        assert_eq!(told, format!("{name} {}\n", env!("CARGO_PKG_VERSION")).as_bytes());
    }
}

#[test]
fn text_that_cannot_be_written_is_a_failure() {
    for word in ["--help", "--version"] {
        let full = File::create("/dev/full").expect("Linux has it");
        let status = Command::new(PROGRAMS[0].1).arg(word).stdout(full).status();
        assert_eq!(status.expect("it is built").code(), Some(1), "{word}");
    }
}

#[test]
fn other_words_are_told_and_run_nothing() {
    let wrong: [&[&str]; 6] = [
        &["--other"],
        &[""],
        &["--help", "--help"],
        &["len"],
        &["--strict=1"],
        &["--read-on", "x"],
    ];
    for (name, path) in PROGRAMS {
        for words in wrong {
            let told = ran(path, words);
            let text = String::from_utf8_lossy(&told.stderr);
            assert_eq!((told.status.code(), told.stdout.len()), (Some(5), 0), "{name} {words:?}");
            assert!(text.starts_with(&format!("{name}: it takes ")) && text.lines().count() == 1);
        }
    }
}

#[test]
fn words_of_a_program_are_its_own() {
    let code = |at: usize, word: &str| ran(PROGRAMS[at].1, &[word]).status.code();
    assert_eq!(["--read-on", "--strict"].map(|word| code(0, word)), [Some(5); 2]);
    assert_eq!(["--read-on", "--strict"].map(|word| code(1, word)), [Some(0), Some(5)]);
}
