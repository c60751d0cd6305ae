//! Loaded before the C library: from the sync whose number is in FAIL_AT on, every sync of a file's data fails.
//! Those before it are done, as a whole sync of the file.

use std::sync::atomic::{AtomicU32, Ordering};

const EIO: i32 = 5;

static CALLS: AtomicU32 = AtomicU32::new(0);

unsafe extern "C" {
    fn fsync(file: i32) -> i32;
    fn __errno_location() -> *mut i32;
}

fn fail_at() -> u32 {
    std::env::var("FAIL_AT").ok().and_then(|text| text.parse().ok()).unwrap_or(u32::MAX)
}

#[unsafe(no_mangle)]
pub extern "C" fn fdatasync(file: i32) -> i32 {
    let call = CALLS.fetch_add(1, Ordering::Relaxed) + 1;
    if call < fail_at() {
        // SAFETY: it takes a number, and answers for a wrong one.
        return unsafe { fsync(file) };
    }
    // SAFETY: the C library keeps the place for this thread's error.
    unsafe { *__errno_location() = EIO };
    -1
}
