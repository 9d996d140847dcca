//! Counts what is allocated: the linker sends each call of `malloc` here.

use std::ffi::c_void;
use std::sync::atomic::{AtomicUsize, Ordering};

static CALLS: AtomicUsize = AtomicUsize::new(0);

extern "C" {
    fn __real_malloc(size: usize) -> *mut c_void;
}

/// # Safety
///
/// It asks what `malloc` asks.
#[no_mangle]
pub unsafe extern "C" fn __wrap_malloc(size: usize) -> *mut c_void {
    CALLS.fetch_add(1, Ordering::Relaxed);
    __real_malloc(size)
}

/// How often `work` allocates.
pub fn allocated(work: impl FnOnce()) -> usize {
    let before = CALLS.load(Ordering::Relaxed);
    work();
    CALLS.load(Ordering::Relaxed) - before
}
