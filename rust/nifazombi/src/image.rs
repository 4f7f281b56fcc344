//! What images of all tables have in common.

use crate::{WriteError, image_parts};
use std::ops::Range;

/// The indices of what a search returns by the first and how many there are.
#[inline]
pub(crate) fn range((first, count): (usize, usize)) -> Range<usize> {
    first..first + count
}

/// The user's own bytes in an image.
pub(crate) fn payload(image: &[u8]) -> &[u8] {
    let place = image_parts::payload(image).map(range);
    place.and_then(|it| image.get(it)).unwrap_or_default()
}

/// The image that `write` writes into a buffer of so many bytes, which are none of too many rows:
/// as many of them as it returns.
pub(crate) fn written(
    len: Option<usize>,
    write: impl FnOnce(&mut [u8]) -> Result<usize, image_parts::WriteError>,
) -> Result<Vec<u8>, WriteError> {
    let mut image = vec![0; len.ok_or(WriteError::Full)?];
    let len = write(&mut image)?;
    image.truncate(len);
    image.shrink_to_fit();
    Ok(image)
}
