//! An allocator that refuses memory, where a thread asks it to.
use std::alloc::{GlobalAlloc, Layout, System};
use std::cell::Cell;
use std::ptr;

/// Which allocations of a call are refused, by their number from 1 on.
#[derive(Clone, Copy, Debug)]
pub enum Refusing {
    None,
    One(u64),
    From(u64),
}

/// How many allocations a call has made, how many of those aren't the shell's own, and how many of
/// either were refused.
#[derive(Clone, Copy, Debug)]
pub struct Counts {
    pub made: u64,
    pub foreign: u64,
    pub refused: u64,
    pub foreign_refused: u64,
}

const NONE: Counts = Counts { made: 0, foreign: 0, refused: 0, foreign_refused: 0 };

thread_local! {
    static HOW: Cell<Option<Refusing>> = const { Cell::new(None) };
    static COUNTS: Cell<Counts> = const { Cell::new(NONE) };
    static LIVE: Cell<isize> = const { Cell::new(0) };
}

/// Makes a call in which memory is refused so.
pub fn refusing<T>(how: Refusing, call: impl FnOnce() -> T) -> T {
    COUNTS.set(NONE);
    HOW.set(Some(how));
    let made = call();
    HOW.set(None);
    made
}

/// What was counted in the last such call.
pub fn counted() -> Counts {
    COUNTS.get()
}

/// How many bytes this thread holds.
pub fn live() -> isize {
    LIVE.get()
}

/// Counts an allocation, and whether it is refused.
fn is_refused() -> bool {
    let Some(how) = HOW.get() else {
        return false;
    };
    let mut counts = COUNTS.get();
    counts.made += 1;
    let is_foreign = !shell::is_own();
    counts.foreign += u64::from(is_foreign);
    let is_refused = match how {
        Refusing::None => false,
        Refusing::One(number) => counts.made == number,
        Refusing::From(number) => counts.made >= number,
    };
    counts.refused += u64::from(is_refused);
    counts.foreign_refused += u64::from(is_refused && is_foreign);
    COUNTS.set(counts);
    is_refused
}

struct Faults;

#[global_allocator]
static FAULTS: Faults = Faults;

// SAFETY: the system's allocator does all of it, but for what is refused by a null pointer.
unsafe impl GlobalAlloc for Faults {
    unsafe fn alloc(&self, layout: Layout) -> *mut u8 {
        if is_refused() {
            return ptr::null_mut();
        }
        LIVE.set(LIVE.get() + layout.size() as isize);
        unsafe { System.alloc(layout) }
    }

    unsafe fn dealloc(&self, at: *mut u8, layout: Layout) {
        LIVE.set(LIVE.get() - layout.size() as isize);
        unsafe { System.dealloc(at, layout) }
    }

    unsafe fn realloc(&self, at: *mut u8, layout: Layout, size: usize) -> *mut u8 {
        if is_refused() {
            return ptr::null_mut();
        }
        LIVE.set(LIVE.get() + size as isize - layout.size() as isize);
        unsafe { System.realloc(at, layout, size) }
    }
}
