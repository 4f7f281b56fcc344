//! What tests fail with.
use crate::alloc::Global;
use crate::string::String;
use std::fmt;

/// What a test fails with where `?` meets several errors: the error as text. It has no `Debug`
/// itself, by which its `From` would overlap Rust's.
pub struct Fail(pub String);

impl<E: fmt::Debug> From<E> for Fail {
    fn from(error: E) -> Fail {
        let text = crate::macros::format!(in Global; "{error:?}");
        Fail(text.unwrap_or(String::new(Global)))
    }
}
