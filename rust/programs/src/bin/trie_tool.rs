//! The program of `crates/trie_tool`.
fn main() -> std::process::ExitCode {
    let page = include_str!("../../../../docs/PROGRAM.md");
    programs::start("trie_tool", page, &[], programs::trie_tool::main)
}
