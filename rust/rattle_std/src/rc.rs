//! Shared values. Rust's own `Rc` ends the process where there is no memory, and has no stable call
//! that tells. So as much is asked for first, and freed: nothing else takes it in between but
//! another thread, or a test that refuses the second of two allocations.
use crate::alloc::{AllocError, AllocFailed, Global};
use crate::clone::Clone;
use std::ops;

/// A value with several owners, none of which writes to it.
pub struct Rc<T>(std::rc::Rc<T>);

impl<T> Rc<T> {
    /// The value with its first owner. It is handed back where there is no memory for it.
    pub fn new(_alloc: Global, value: T) -> Result<Rc<T>, AllocFailed<T>> {
        // Both counts of owners stand in front of the value.
        let mut room: std::vec::Vec<(usize, usize, T)> = std::vec::Vec::new();
        if room.try_reserve_exact(1).is_err() {
            return Err(AllocFailed { value });
        }
        drop(room);
        Ok(Rc(std::rc::Rc::new(value)))
    }
}

/// Another owner, which takes no memory.
impl<T> Clone for Rc<T> {
    fn clone(&self) -> Result<Self, AllocError> {
        Ok(Rc(std::rc::Rc::clone(&self.0)))
    }
}

impl<T> ops::Deref for Rc<T> {
    type Target = T;
    #[inline]
    fn deref(&self) -> &T {
        &self.0
    }
}
