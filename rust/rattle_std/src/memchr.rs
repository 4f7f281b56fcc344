//! Searches for a byte.

/// A number with the lowest bit of each of its bytes, and one with the highest.
const LOWEST: u64 = u64::from_ne_bytes([1; 8]);
const HIGHEST: u64 = LOWEST << 7;

/// Where the byte stands first, if it does. It goes by eight bytes at a time.
pub fn memchr(needle: u8, haystack: &[u8]) -> Option<usize> {
    let (words, _) = haystack.as_chunks::<8>();
    // A byte is zero where taking one from it borrows, and its highest bit wasn't set.
    let holds = |word: &[u8; 8]| {
        let rest = u64::from_ne_bytes(*word) ^ (u64::from(needle) * LOWEST);
        rest.wrapping_sub(LOWEST) & !rest & HIGHEST != 0
    };
    let front = 8 * words.iter().position(holds).unwrap_or(words.len());
    haystack[front..].iter().position(|byte| *byte == needle).map(|at| front + at)
}
