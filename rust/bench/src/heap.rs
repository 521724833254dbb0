//! Counts a thread's bytes on the heap while it is asked to.

use std::alloc::{GlobalAlloc, Layout, System};
use std::cell::Cell;
use std::sync::atomic::{AtomicI64, Ordering::Relaxed};

struct Counted;

#[global_allocator]
static HEAP: Counted = Counted;

thread_local! {
    // Constant and with nothing to drop: the allocator may look at it at any time.
    static COUNTING: Cell<bool> = const { Cell::new(false) };
}
static HELD: AtomicI64 = AtomicI64::new(0);
static PEAK: AtomicI64 = AtomicI64::new(0);

fn add(bytes: i64) {
    // While times are taken this test is all that the counting costs.
    if COUNTING.get() {
        let held = HELD.fetch_add(bytes, Relaxed) + bytes;
        PEAK.fetch_max(held, Relaxed);
    }
}

// SAFETY: every call goes to the system's allocator as it is.
#[allow(unsafe_code)]
unsafe impl GlobalAlloc for Counted {
    unsafe fn alloc(&self, layout: Layout) -> *mut u8 {
        add(layout.size() as i64);
        unsafe { System.alloc(layout) }
    }

    unsafe fn dealloc(&self, pointer: *mut u8, layout: Layout) {
        add(-(layout.size() as i64));
        unsafe { System.dealloc(pointer, layout) }
    }

    unsafe fn alloc_zeroed(&self, layout: Layout) -> *mut u8 {
        add(layout.size() as i64);
        unsafe { System.alloc_zeroed(layout) }
    }

    unsafe fn realloc(&self, pointer: *mut u8, layout: Layout, size: usize) -> *mut u8 {
        add(size as i64 - layout.size() as i64);
        unsafe { System.realloc(pointer, layout, size) }
    }
}

/// The most bytes that a run has on the heap at once, beyond what was there before it.
pub fn peak<T>(run: impl FnOnce() -> T) -> usize {
    HELD.store(0, Relaxed);
    PEAK.store(0, Relaxed);
    COUNTING.set(true);
    let result = run();
    COUNTING.set(false);
    drop(result);
    PEAK.load(Relaxed).max(0) as usize
}

#[cfg(test)]
mod tests {
    #[test]
    fn the_peak_is_what_is_held_at_once() {
        let peak = super::peak(|| {
            drop(vec![1_u8; 5_000_000]);
            vec![1_u8; 3_000_000]
        });
        assert_eq!(peak, 5_000_000);
    }
}
