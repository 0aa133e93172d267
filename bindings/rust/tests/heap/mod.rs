//! A heap in which allocations of the current thread can be made to fail.

use std::alloc::{GlobalAlloc, Layout, System};
use std::cell::Cell;

thread_local! {
    /// How many allocations still succeed, and whether all later ones fail or only one.
    static GRANTED: Cell<Option<(usize, bool)>> = const { Cell::new(None) };
    static FAILED: Cell<bool> = const { Cell::new(false) };
}

pub struct Heap;

fn fails() -> bool {
    let (granted, all) = match GRANTED.with(Cell::get) {
        Some(state) => state,
        None => return false,
    };
    let left = if granted > 0 { Some((granted - 1, all)) } else { Some((0, true)).filter(|_| all) };
    GRANTED.with(|state| state.set(left));
    FAILED.with(|failed| failed.set(failed.get() || granted == 0));
    granted == 0
}

// SAFETY: calls the system's allocator, or returns null.
unsafe impl GlobalAlloc for Heap {
    unsafe fn alloc(&self, layout: Layout) -> *mut u8 {
        if fails() { std::ptr::null_mut() } else { System.alloc(layout) }
    }

    unsafe fn realloc(&self, block: *mut u8, layout: Layout, size: usize) -> *mut u8 {
        if fails() { std::ptr::null_mut() } else { System.realloc(block, layout, size) }
    }

    unsafe fn dealloc(&self, block: *mut u8, layout: Layout) {
        System.dealloc(block, layout);
    }
}

/// Makes a call in which the allocation after `granted` others fails, or all later ones too.
/// Returns its result, and whether an allocation failed.
pub fn failing<T>(granted: usize, all: bool, call: impl FnOnce() -> T) -> (T, bool) {
    FAILED.with(|failed| failed.set(false));
    GRANTED.with(|state| state.set(Some((granted, all))));
    let result = call();
    GRANTED.with(|state| state.set(None));
    (result, FAILED.with(Cell::get))
}

/// Makes a call in which no allocation fails or is counted.
#[allow(dead_code)]
pub fn exempt<T>(call: impl FnOnce() -> T) -> T {
    let granted = GRANTED.with(Cell::take);
    let result = call();
    GRANTED.with(|state| state.set(granted));
    result
}
