//! The published files of the crate, unchanged, and around them what they name of its other files.
#![allow(warnings)]

extern crate alloc;

pub mod dynamic_storage;
pub mod named_concept;
pub mod shared_memory {
    pub use crate::shm_allocator::pointer_offset::*;
}
pub mod shm_allocator {
    pub mod pointer_offset;
}
pub mod static_storage {
    pub mod file {
        pub use crate::named_concept::*;
    }
}
pub mod zero_copy_connection;
