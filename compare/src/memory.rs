//! The memory cap of a child: the bytes in use are counted, and the process ends itself when they
//! pass the cap. So a text on which the Rust never ends (it pushes nulls for ever) ends the child
//! with a status of its own, apart from a crash.

use std::alloc::{GlobalAlloc, Layout, System};
use std::sync::atomic::{AtomicUsize, Ordering::Relaxed};

use crate::requests;

/// The status of a child that passed its cap, and of one in which a request's rule had changed
/// something by then.
pub const OVER_CAP: i32 = 99;
pub const CHANGED_OVER_CAP: i32 = 98;

static USED: AtomicUsize = AtomicUsize::new(0);
static START: AtomicUsize = AtomicUsize::new(0);
static MOST: AtomicUsize = AtomicUsize::new(0);
static CAP: AtomicUsize = AtomicUsize::new(usize::MAX);

struct Counted;

#[global_allocator]
static COUNTED: Counted = Counted;

unsafe extern "C" {
    // Ends the process at once: nothing of it may run on while it has no memory.
    fn _exit(status: i32) -> !;
}

fn add(bytes: usize) {
    let used = USED.fetch_add(bytes, Relaxed) + bytes;
    if used > MOST.load(Relaxed) {
        MOST.store(used, Relaxed);
        if used > CAP.load(Relaxed) {
            let status = if requests::changed() { CHANGED_OVER_CAP } else { OVER_CAP };
            unsafe { _exit(status) }
        }
    }
}

unsafe impl GlobalAlloc for Counted {
    unsafe fn alloc(&self, layout: Layout) -> *mut u8 {
        add(layout.size());
        unsafe { System.alloc(layout) }
    }

    unsafe fn dealloc(&self, place: *mut u8, layout: Layout) {
        USED.fetch_sub(layout.size(), Relaxed);
        unsafe { System.dealloc(place, layout) }
    }

    unsafe fn realloc(&self, place: *mut u8, layout: Layout, size: usize) -> *mut u8 {
        // While the bytes move, both the old and the new place may be in use; only the new counts.
        if size > layout.size() {
            add(size - layout.size());
        } else {
            USED.fetch_sub(layout.size() - size, Relaxed);
        }
        unsafe { System.realloc(place, layout, size) }
    }
}

/// Lets the process use so many bytes more than now.
pub fn allow(bytes: usize) {
    let used = USED.load(Relaxed);
    START.store(used, Relaxed);
    MOST.store(used, Relaxed);
    CAP.store(used.saturating_add(bytes), Relaxed);
}

/// The most bytes that were in use at once since `allow`, beyond those in use then.
pub fn most() -> usize {
    MOST.load(Relaxed) - START.load(Relaxed)
}

/// What reading a text may need at most. Everything the Rust holds comes from bytes of the text,
/// a few hundred bytes for each at most, with one exception: a literal gives each of its lines,
/// also the blank ones, up to the indentation of the deepest line, and the Rust holds a few copies
/// of it. Mode `memory` shows how far a text stays below this.
pub fn enough_for(text: &str) -> usize {
    let literals = if text.contains('|') {
        let longest = text.lines().map(str::len).max().unwrap_or(0);
        text.lines().count() * (longest + 1)
    } else {
        0
    };
    (1 << 20) + 1024 * text.len() + 16 * literals
}
