//! What the shell allocates itself, so that tests tell it from what a call of the library does.
use std::cell::Cell;

thread_local! {
    static DEPTH: Cell<u32> = const { Cell::new(0) };
}

/// Whether what this thread allocates now is the shell's own: a word's value, a name, a copy.
pub fn is_own() -> bool {
    DEPTH.get() > 0
}

/// Makes what is the shell's own.
pub fn own<T>(make: impl FnOnce() -> T) -> T {
    DEPTH.set(DEPTH.get() + 1);
    let made = make();
    DEPTH.set(DEPTH.get() - 1);
    made
}
