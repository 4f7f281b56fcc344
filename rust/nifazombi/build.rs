//! Writes the proved libraries of `crates/` as modules of this crate.
fn main() {
    extract::package::build(None);
}
