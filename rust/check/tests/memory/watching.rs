//! An allocator that counts the requests of each thread, and refuses one of them.
#![allow(dead_code)] // One test counts, the other one refuses.

use std::alloc::{GlobalAlloc, Layout, System};
use std::cell::Cell;

thread_local! {
    static REQUESTS: Cell<u64> = const { Cell::new(0) };
    /// The number of the request to refuse.
    static REFUSED: Cell<u64> = const { Cell::new(u64::MAX) };
}

pub struct Watching;

/// Counts a request, and returns whether it is to be granted.
fn grants() -> bool {
    let number = REQUESTS.try_with(|requests| requests.replace(requests.get() + 1)).unwrap_or(0);
    REFUSED.try_with(Cell::get).map_or(true, |refused| refused != number)
}

// SAFETY: each call hands on to the system's allocator, or returns null, which says that memory ran out.
unsafe impl GlobalAlloc for Watching {
    unsafe fn alloc(&self, layout: Layout) -> *mut u8 {
        if grants() {
            System.alloc(layout)
        } else {
            std::ptr::null_mut()
        }
    }

    unsafe fn dealloc(&self, place: *mut u8, layout: Layout) {
        System.dealloc(place, layout);
    }

    unsafe fn realloc(&self, place: *mut u8, layout: Layout, size: usize) -> *mut u8 {
        if grants() {
            System.realloc(place, layout, size)
        } else {
            std::ptr::null_mut()
        }
    }
}

/// Makes a call whose request of this number is refused, if it makes so many. Returns whether one was.
pub fn refusing<T>(number: u64, call: impl FnOnce() -> T) -> (T, bool) {
    REQUESTS.with(|requests| requests.set(0));
    REFUSED.with(|refused| refused.set(number));
    let result = call();
    REFUSED.with(|refused| refused.set(u64::MAX));
    (result, REQUESTS.with(Cell::get) > number)
}

/// How many requests the thread has made since the last call of `refusing`.
pub fn count() -> u64 {
    REQUESTS.with(Cell::get)
}
