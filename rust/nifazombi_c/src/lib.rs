//! `nifazombi` for C, and for what calls C: the declarations of `bindings/c/nifazombi.h`.
//!
//! `exports` alone has `unsafe` blocks, since C passes pointers.
#![deny(unsafe_op_in_unsafe_fn, clippy::undocumented_unsafe_blocks)]

mod exports;

include!(concat!(env!("OUT_DIR"), "/modules.rs"));
