//! An error of any kind, as text.
use crate::alloc::Global;
use crate::string::String;
use std::{error, fmt};

pub use crate::macros::bail;

/// An error's text, if there was memory for it.
pub struct Error(Option<String>);

/// What may fail for any cause.
pub type Result<T, E = Error> = std::result::Result<T, E>;

impl Error {
    /// An error of this text.
    pub fn msg(text: fmt::Arguments<'_>) -> Error {
        Error(crate::macros::format!(in Global; "{text}").ok())
    }
}

impl<E: error::Error> From<E> for Error {
    fn from(error: E) -> Error {
        Error::msg(format_args!("{error}"))
    }
}

impl fmt::Display for Error {
    fn fmt(&self, formatter: &mut fmt::Formatter<'_>) -> fmt::Result {
        match &self.0 {
            Some(text) => formatter.write_str(text),
            None => formatter.write_str("an error, and no memory for its text"),
        }
    }
}

impl fmt::Debug for Error {
    fn fmt(&self, formatter: &mut fmt::Formatter<'_>) -> fmt::Result {
        fmt::Display::fmt(self, formatter)
    }
}
