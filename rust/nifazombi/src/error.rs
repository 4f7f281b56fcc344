//! Why bytes are no image, and why none is written.

use crate::image_parts;
use std::error::Error;
use std::fmt;

pub use crate::image_parts::ImageError;

impl fmt::Display for ImageError {
    fn fmt(&self, f: &mut fmt::Formatter<'_>) -> fmt::Result {
        match self {
            ImageError::Short => write!(f, "no image: the bytes end before its head does"),
            ImageError::Mark => write!(f, "no image of such a table: the first bytes are wrong"),
            ImageError::Version => write!(f, "no image that can be read: it is of another version"),
            ImageError::Part(at) => write!(f, "no image: part {at} is missing or out of place"),
            ImageError::Row(at) => {
                write!(f, "no image: row {at} is out of order or linked wrongly")
            }
            ImageError::Span(at) => {
                write!(f, "no image: span {at} is out of order or has another answer")
            }
            ImageError::Cell(at) => write!(f, "no image: cell {at} is wrong"),
        }
    }
}

impl Error for ImageError {}

/// Why no image was written.
#[derive(Clone, Copy, Debug, PartialEq, Eq)]
#[non_exhaustive]
pub enum WriteError {
    /// There are 2^32 rows or more, or so many bytes of keys.
    Full,
    /// The row or change at this index is of no network, or doesn't come after the one before it.
    OutOfOrder(usize),
    /// The value of the row or change at this index is too large: those of IPv4 networks are below
    /// 2^32.
    Value(usize),
}

/// Of a write into a buffer of the image's length.
impl From<image_parts::WriteError> for WriteError {
    fn from(why: image_parts::WriteError) -> WriteError {
        match why {
            image_parts::WriteError::Full => WriteError::Full,
            image_parts::WriteError::OutOfOrder(at) => WriteError::OutOfOrder(at),
            image_parts::WriteError::Short => unreachable!("the buffer is as long as the image"),
        }
    }
}

impl fmt::Display for WriteError {
    fn fmt(&self, f: &mut fmt::Formatter<'_>) -> fmt::Result {
        match self {
            WriteError::Full => write!(f, "too many rows, or too many bytes of keys"),
            WriteError::OutOfOrder(at) => write!(f, "row {at} is of no network or out of order"),
            WriteError::Value(at) => write!(f, "the value of row {at} doesn't fit into 32 bits"),
        }
    }
}

impl Error for WriteError {}
