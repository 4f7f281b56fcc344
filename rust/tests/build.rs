//! Writes the proved tests and examples of `crates/` as modules.
use std::path::Path;
use std::{env, fs};

fn main() {
    extract::package::build(Some(&extract::package::TESTS));
    let out = env::var("OUT_DIR").expect("Cargo tells where");
    open(&Path::new(&out).join("trie_examples"));
}

/// Has the tests of the examples call what these keep to themselves: each item at a left edge.
fn open(folder: &Path) {
    for entry in fs::read_dir(folder).expect("extraction has written it") {
        let path = entry.expect("an entry").path();
        if path.is_dir() {
            open(&path);
            continue;
        }
        let text = fs::read_to_string(&path).expect("extraction has written it");
        let opened = |line: &str| match line.split_once(' ') {
            Some(("fn" | "mod" | "struct" | "type", _)) => format!("pub {line}\n"),
            Some(("pub(crate)", rest)) => format!("pub {rest}\n"),
            _ => format!("{line}\n"),
        };
        let text: String = text.lines().map(opened).collect();
        fs::write(&path, text).expect("it is written again");
    }
}
