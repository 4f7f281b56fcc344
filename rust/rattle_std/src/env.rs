//! Arguments and variables.

/// Why an argument or a variable isn't written into a buffer.
#[derive(Clone, Copy, Debug, PartialEq, Eq)]
pub enum FillError {
    /// There is none.
    NotPresent,
    /// It has so many bytes, more than the buffer.
    TooLong(usize),
}
