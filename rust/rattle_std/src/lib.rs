//! What stands for Rattle's standard library, and for the small crates beside it, where sources of
//! Rattle's are compiled by rustc.
//!
//! An allocation is asked for by `try_reserve` first, so that one that fails is an `Err`, as it is
//! in Rattle. Nothing here is `unsafe`. Of Rust's library only what allocates nothing is handed on.
#![forbid(unsafe_code)]
#![allow(clippy::new_without_default, clippy::len_without_is_empty, reason = "no one calls these")]

pub mod alloc;
pub mod anyhow;
pub mod arrayvec;
pub mod boxed;
pub mod clone;
pub mod env;
pub mod fs;
pub mod io;
pub mod itoa;
pub mod json;
pub mod macros;
pub mod marker;
pub mod memchr;
pub mod os;
pub mod prelude;
pub mod process;
pub mod rc;
pub mod rt;
pub mod serde;
pub mod serde_json;
pub mod smallvec;
pub mod string;
pub mod test;
pub mod texts;
pub mod ucd_derived;
pub mod vec;

pub use std::{
    array, char, cmp, convert, error, fmt, hash, hint, iter, mem, net, num, ops, slice, str,
};

/// Rust's `Drop`, for a type that has more to do than to be taken apart.
pub use std::ops::Drop as RustDrop;

/// Rattle's `Drop`: what may be dropped, which is any value in Rust.
pub trait Drop: Sized {}
impl<T> Drop for T {}
