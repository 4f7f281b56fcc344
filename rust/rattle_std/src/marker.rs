//! Rust's markers, and Rattle's of a type that contracts see by a model.
pub use std::marker::*;

/// A type that contracts see by a model. Here it has none.
pub trait Model {}
