//! Writes the proved programs of `crates/`, and the libraries that they alone name, as modules.
fn main() {
    extract::package::build(Some(&extract::package::PROGRAMS));
}
