//! The end of a program.
pub use std::process::ExitCode;

/// A handle whose holder may end the program, as a failed assertion does.
pub trait Abort {}
impl Abort for crate::rt::HostRuntime {}
