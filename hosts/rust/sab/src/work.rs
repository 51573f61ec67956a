//! Work memory for the calls that need a tree to answer.

use crate::raw;
use std::cell::RefCell;

thread_local! {
    static WORK: RefCell<Vec<u8>> = const { RefCell::new(Vec::new()) };
}

/// Lends the thread's work memory to a call.
pub(crate) fn lent<T>(call: impl FnOnce(&mut [u8]) -> T) -> T {
    WORK.with_borrow_mut(|work| {
        work.resize(raw::WORK, 0);
        call(work)
    })
}
