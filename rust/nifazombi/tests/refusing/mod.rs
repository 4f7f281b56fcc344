//! The system's allocator, which refuses memory where a test says so.
#![allow(dead_code, reason = "each file of tests uses a part")]

use std::alloc::{GlobalAlloc, Layout, System};
use std::cell::Cell;

thread_local! {
    /// How many allocations are granted before one is refused: all, if it is the highest number.
    static GRANTED: Cell<usize> = const { Cell::new(usize::MAX) };
    /// Whether all behind that one are refused too.
    static IS_REST: Cell<bool> = const { Cell::new(false) };
    /// Whether one was refused.
    static WAS_REFUSED: Cell<bool> = const { Cell::new(false) };
}

/// The system's allocator, which refuses what a test says.
struct Refusing;

impl Refusing {
    fn refuses() -> bool {
        let granted = GRANTED.get();
        if granted > 0 {
            GRANTED.set(if granted == usize::MAX { granted } else { granted - 1 });
            return false;
        }
        WAS_REFUSED.set(true);
        GRANTED.set(if IS_REST.get() { 0 } else { usize::MAX });
        true
    }
}

// SAFETY: each call is the system allocator's, with what the caller gave, or returns null, which
// says that there is no memory. The other calls of the trait go by these.
unsafe impl GlobalAlloc for Refusing {
    unsafe fn alloc(&self, layout: Layout) -> *mut u8 {
        if Refusing::refuses() {
            return std::ptr::null_mut();
        }
        // SAFETY: the caller gives a layout that has a size.
        unsafe { System.alloc(layout) }
    }
    unsafe fn dealloc(&self, place: *mut u8, layout: Layout) {
        // SAFETY: the caller gives what `alloc` or `realloc` returned, which was the system's.
        unsafe { System.dealloc(place, layout) }
    }
    unsafe fn realloc(&self, place: *mut u8, layout: Layout, size: usize) -> *mut u8 {
        if Refusing::refuses() {
            return std::ptr::null_mut();
        }
        // SAFETY: the caller gives what `alloc` or `realloc` returned, and a size that isn't zero.
        unsafe { System.realloc(place, layout, size) }
    }
}

#[global_allocator]
static REFUSING: Refusing = Refusing;

/// After how many allocations one is refused, and whether all behind it are too.
#[derive(Clone, Copy)]
pub struct Refusal {
    pub granted: usize,
    pub is_rest: bool,
}

impl Refusal {
    /// What a call gives, and whether it was refused memory.
    pub fn run<R>(self, call: impl FnOnce() -> R) -> (R, bool) {
        WAS_REFUSED.set(false);
        IS_REST.set(self.is_rest);
        GRANTED.set(self.granted);
        let given = call();
        GRANTED.set(usize::MAX);
        (given, WAS_REFUSED.get())
    }
    /// What a call gives, which has to be an error where it was refused memory, and only there.
    pub fn fails<T, E>(self, call: impl FnOnce() -> Result<T, E>) -> Result<T, E> {
        let (given, was_refused) = self.run(call);
        assert_eq!(given.is_err(), was_refused);
        given
    }
}

/// What a call gives that may take no memory.
pub fn without_memory<R>(call: impl FnOnce() -> R) -> R {
    let (given, was_refused) = Refusal { granted: 0, is_rest: true }.run(call);
    assert!(!was_refused, "it takes no memory");
    given
}

/// Runs a check with each allocation refused in turn, and with all from each on, until none is.
/// Gives how many there are.
pub fn each_refused(mut check: impl FnMut(Refusal)) -> usize {
    for granted in 0..1000 {
        let mut was_refused = false;
        for is_rest in [false, true] {
            check(Refusal { granted, is_rest });
            was_refused |= WAS_REFUSED.get();
        }
        if !was_refused {
            return granted;
        }
    }
    panic!("there is an end to the allocations");
}
