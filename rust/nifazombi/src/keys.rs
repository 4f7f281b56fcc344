//! Texts and bytes of Rust's own library as keys: their encodings are those of `&str` and `&[u8]`.
use crate::radix_keys::{AsNibbles, Memory, NibbleSlice, Nibblet, TrieKey};
use crate::rattle_std::alloc::{AllocError, Global};
use crate::rattle_std::clone::Clone;

impl TrieKey for String {
    fn encode(&self, alloc: Global) -> Result<Nibblet, Memory> {
        self.as_str().encode(alloc)
    }
}

impl AsNibbles for String {
    fn as_nibbles(&self) -> Option<NibbleSlice<'_>> {
        Some(NibbleSlice::from_bytes(self.as_bytes()))
    }
}

impl Clone for String {
    fn clone(&self) -> Result<String, AllocError> {
        let mut made = String::new();
        made.try_reserve_exact(self.len())?;
        made.push_str(self);
        Ok(made)
    }
}
