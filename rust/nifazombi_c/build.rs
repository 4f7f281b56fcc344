//! Writes the proved crate of this name as a module.
fn main() {
    extract::package::build(Some(&["nifazombi_c"]));
}
