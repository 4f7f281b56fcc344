//! Maps from byte strings to numbers.

use crate::flat_texts::{self, Pair};
use crate::image::{payload, range, written};
use crate::{ImageError, WriteError};
use std::fmt;
use std::iter::FusedIterator;
use std::ops::Range;

/// A map from byte strings to numbers in an image, searched in place. Keys are in the order of
/// their bytes.
///
/// ```
/// use nifazombi::{Texts, texts_image};
///
/// let image = texts_image(&[("car", 1), ("carpet", 2), ("cat", 3)], b"")?;
/// let words = Texts::new(&image)?;
/// assert_eq!(words.get("cat"), Some(3));
/// assert_eq!(words.nearest("carpets"), Some((&b"carpet"[..], 2)));
/// assert_eq!(words.below("car").map(|(_, value)| value).collect::<Vec<_>>(), [1, 2]);
/// # Ok::<(), Box<dyn std::error::Error>>(())
/// ```
#[derive(Clone, Copy)]
pub struct Texts<'a> {
    image: &'a [u8],
    /// What `payload` returns, where the bytes were checked.
    own: Option<&'a [u8]>,
}

impl<'a> Texts<'a> {
    /// The map in an image, which is checked whole. It takes linear time and allocates nothing.
    ///
    /// # Errors
    ///
    /// The bytes are no image of such a map.
    pub fn new(image: &'a [u8]) -> Result<Self, ImageError> {
        flat_texts::check(image)?;
        Ok(Texts { image, own: Some(payload(image)) })
    }

    /// The map in bytes that were checked before. It reads nothing. Whatever the bytes are, each
    /// call is safe and returns; but what it returns means nothing where they are no image.
    pub const fn unchecked(image: &'a [u8]) -> Self {
        Texts { image, own: None }
    }

    /// The count of pairs.
    pub fn len(&self) -> usize {
        flat_texts::len(self.image)
    }

    /// Whether there is no pair.
    pub fn is_empty(&self) -> bool {
        self.len() == 0
    }

    /// The value of a key.
    #[inline]
    pub fn get(&self, key: impl AsRef<[u8]>) -> Option<u64> {
        let at = flat_texts::get(self.image, key.as_ref())?;
        self.nth(at).map(|(_, value)| value)
    }

    /// Whether a key is stored.
    #[inline]
    pub fn contains_key(&self, key: impl AsRef<[u8]>) -> bool {
        flat_texts::get(self.image, key.as_ref()).is_some()
    }

    /// The pair of the longest stored prefix of a key, which may be the key itself.
    #[inline]
    pub fn nearest(&self, key: impl AsRef<[u8]>) -> Option<(&'a [u8], u64)> {
        self.nth(flat_texts::nearest(self.image, key.as_ref())?)
    }

    /// The pairs of all stored prefixes of a key, from the longest up.
    pub fn prefixes(&self, key: impl AsRef<[u8]>) -> Prefixes<'a> {
        Prefixes { texts: *self, next: flat_texts::nearest(self.image, key.as_ref()) }
    }

    /// The pairs whose keys begin with a prefix, in order.
    pub fn below(&self, prefix: impl AsRef<[u8]>) -> Pairs<'a> {
        let rest = range(flat_texts::below(self.image, prefix.as_ref()));
        Pairs { texts: *self, rest }
    }

    /// The pairs whose keys are `from` or come after it, and come before `to`, in order.
    pub fn between(&self, from: impl AsRef<[u8]>, to: impl AsRef<[u8]>) -> Pairs<'a> {
        let rest = range(flat_texts::between(self.image, from.as_ref(), to.as_ref()));
        Pairs { texts: *self, rest }
    }

    /// All pairs, in order.
    pub fn iter(&self) -> Pairs<'a> {
        Pairs { texts: *self, rest: 0..self.len() }
    }

    /// How many keys come before a key, which needn't be stored.
    pub fn rank(&self, key: impl AsRef<[u8]>) -> usize {
        flat_texts::rank(self.image, key.as_ref())
    }

    /// The pair at an index.
    #[inline]
    pub fn nth(&self, index: usize) -> Option<(&'a [u8], u64)> {
        flat_texts::nth(self.image, index).map(|pair| (pair.key, pair.value))
    }

    /// The user's own bytes in the image. In bytes that weren't checked each call looks for them.
    pub fn payload(&self) -> &'a [u8] {
        self.own.unwrap_or_else(|| payload(self.image))
    }
}

/// Writes each key as text, with what is no UTF-8 replaced.
impl fmt::Debug for Texts<'_> {
    fn fmt(&self, f: &mut fmt::Formatter<'_>) -> fmt::Result {
        f.debug_map()
            .entries(self.iter().map(|(key, value)| (String::from_utf8_lossy(key), value)))
            .finish()
    }
}

impl<'a> IntoIterator for Texts<'a> {
    type Item = (&'a [u8], u64);
    type IntoIter = Pairs<'a>;

    fn into_iter(self) -> Pairs<'a> {
        self.iter()
    }
}

impl<'a> IntoIterator for &Texts<'a> {
    type Item = (&'a [u8], u64);
    type IntoIter = Pairs<'a>;

    fn into_iter(self) -> Pairs<'a> {
        self.iter()
    }
}

/// Pairs that stand one behind the other, in order.
#[derive(Clone, Debug)]
pub struct Pairs<'a> {
    texts: Texts<'a>,
    rest: Range<usize>,
}

impl<'a> Iterator for Pairs<'a> {
    type Item = (&'a [u8], u64);

    #[inline]
    fn next(&mut self) -> Option<(&'a [u8], u64)> {
        self.nth(0)
    }

    #[inline]
    fn nth(&mut self, count: usize) -> Option<(&'a [u8], u64)> {
        self.rest.nth(count).and_then(|at| self.texts.nth(at))
    }

    fn size_hint(&self) -> (usize, Option<usize>) {
        self.rest.size_hint()
    }
}

impl<'a> DoubleEndedIterator for Pairs<'a> {
    #[inline]
    fn next_back(&mut self) -> Option<(&'a [u8], u64)> {
        self.nth_back(0)
    }

    #[inline]
    fn nth_back(&mut self, count: usize) -> Option<(&'a [u8], u64)> {
        self.rest.nth_back(count).and_then(|at| self.texts.nth(at))
    }
}

impl ExactSizeIterator for Pairs<'_> {}

impl FusedIterator for Pairs<'_> {}

/// The pairs of the stored prefixes of a key, from the longest up.
#[derive(Clone, Debug)]
pub struct Prefixes<'a> {
    texts: Texts<'a>,
    /// The index of the next one.
    next: Option<usize>,
}

impl<'a> Iterator for Prefixes<'a> {
    type Item = (&'a [u8], u64);

    #[inline]
    fn next(&mut self) -> Option<(&'a [u8], u64)> {
        let at = self.next?;
        self.next = flat_texts::above(self.texts.image, at);
        self.texts.nth(at)
    }
}

impl FusedIterator for Prefixes<'_> {}

/// The image of a map, by its pairs in the order of their keys, of which no two are equal, and of
/// the user's own bytes.
///
/// # Errors
///
/// A key doesn't come after the one before it, or there are 2^32 pairs or bytes of keys, or more.
pub fn texts_image<K: AsRef<[u8]>>(
    pairs: &[(K, u64)],
    payload: &[u8],
) -> Result<Vec<u8>, WriteError> {
    let pairs = pairs.iter().map(|(key, value)| Pair { key: key.as_ref(), value: *value });
    let pairs: Vec<_> = pairs.collect();
    let len = flat_texts::image_len(&pairs, payload.len());
    written(len, |out| flat_texts::write(&pairs, payload, out).map(|()| out.len()))
}
