//! Atomics, cells and lazy statics are those of the standard library.

pub mod atomic {
    pub use core::sync::atomic::{AtomicBool, AtomicU8, AtomicU64, AtomicUsize, Ordering};
}

pub mod cell {
    pub use core::cell::UnsafeCell;
}

pub mod lazy_lock {
    pub use std::sync::LazyLock;
}
