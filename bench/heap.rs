//! Counts what `malloc`, `realloc` and `free` do. The linker passes each call through here (`--wrap`), also those of the
//! proved library.

use std::ffi::c_void;
use std::sync::atomic::{AtomicI64, Ordering::Relaxed};

unsafe extern "C" {
    fn __real_malloc(size: usize) -> *mut c_void;
    fn __real_realloc(block: *mut c_void, size: usize) -> *mut c_void;
    fn __real_free(block: *mut c_void);
    fn malloc_usable_size(block: *mut c_void) -> usize;
}

static CALLS: AtomicI64 = AtomicI64::new(0);
static HELD: AtomicI64 = AtomicI64::new(0);
static MOST: AtomicI64 = AtomicI64::new(0);
static LAST: AtomicI64 = AtomicI64::new(0);

// One thread runs, so a load and a store are enough, and cost less than one step that no thread can part.
fn add(to: &AtomicI64, count: i64) -> i64 {
    let sum = to.load(Relaxed) + count;
    to.store(sum, Relaxed);
    sum
}

fn held(block: *mut c_void) -> i64 {
    unsafe { malloc_usable_size(block) as i64 }
}

fn came(block: *mut c_void) {
    add(&CALLS, 1);
    let sum = add(&HELD, held(block));
    LAST.store(sum, Relaxed);
    if sum > MOST.load(Relaxed) {
        MOST.store(sum, Relaxed);
    }
}

#[unsafe(no_mangle)]
extern "C" fn __wrap_malloc(size: usize) -> *mut c_void {
    let block = unsafe { __real_malloc(size) };
    came(block);
    block
}

#[unsafe(no_mangle)]
extern "C" fn __wrap_realloc(block: *mut c_void, size: usize) -> *mut c_void {
    add(&HELD, -held(block));
    let block = unsafe { __real_realloc(block, size) };
    came(block);
    block
}

#[unsafe(no_mangle)]
extern "C" fn __wrap_free(block: *mut c_void) {
    add(&HELD, -held(block));
    unsafe { __real_free(block) }
}

/// What one run took: how often it asked for memory, the most bytes that it held at a time, and the bytes that it held
/// when it asked for the last time.
pub struct Taken {
    pub calls: i64,
    pub most: i64,
    pub last: i64,
}

/// Runs this and counts.
pub fn counted(run: impl FnOnce()) -> Taken {
    let (calls, before) = (CALLS.load(Relaxed), HELD.load(Relaxed));
    MOST.store(before, Relaxed);
    run();
    Taken {
        calls: CALLS.load(Relaxed) - calls,
        most: MOST.load(Relaxed) - before,
        last: LAST.load(Relaxed) - before,
    }
}
