//! Calls of the published Rust that may panic.

use std::panic::{self, AssertUnwindSafe};
use std::sync::Mutex;

/// The hook that says what a panic was is one for the whole process.
static HOOK: Mutex<()> = Mutex::new(());

/// What the body gives, or nothing if it panics, which is not said then.
pub fn unless_it_panics<T>(body: impl FnOnce() -> T) -> Option<T> {
    let guard = HOOK.lock().unwrap_or_else(|poisoned| poisoned.into_inner());
    let loud = panic::take_hook();
    panic::set_hook(Box::new(|_| ()));
    let result = panic::catch_unwind(AssertUnwindSafe(body)).ok();
    panic::set_hook(loud);
    drop(guard);
    result
}
