#![doc = include_str!("../README.md")]
#![forbid(unsafe_code)]

#[cfg(not(target_pointer_width = "64"))]
compile_error!("nifazombi is proved for a usize of 64 bits");

#[warn(missing_docs)]
mod error;
#[warn(missing_docs)]
mod family;
mod image;
mod keys;
#[warn(missing_docs)]
mod routes;
#[warn(missing_docs)]
mod texts;

pub use error::{ImageError, WriteError};
pub use family::Address;
pub use routes::{Change, CommonPrefixes, Route, Routes, Rows, routes_image};
pub use texts::{Pairs, Prefixes, Texts, texts_image};

include!(concat!(env!("OUT_DIR"), "/modules.rs"));
