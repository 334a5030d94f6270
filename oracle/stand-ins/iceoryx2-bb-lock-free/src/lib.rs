//! The two queues of a channel, by the rules of docs/WORDS.md: entry k is in slot (start + k) mod capacity, and a slot keeps its
//! word when its entry is popped.

pub mod ring {
    use core::alloc::Layout;
    use core::sync::atomic::{AtomicU64, Ordering::Relaxed};
    use iceoryx2_bb_elementary_traits::allocator::{AllocationError, BaseAllocator};

    /// Start, count and slots, which the comparison reads and writes.
    #[repr(C)]
    pub struct Ring {
        pub start: AtomicU64,
        pub count: AtomicU64,
        slots: *const AtomicU64,
        capacity: usize,
    }

    unsafe impl Send for Ring {}
    unsafe impl Sync for Ring {}

    impl core::fmt::Debug for Ring {
        fn fmt(&self, f: &mut core::fmt::Formatter<'_>) -> core::fmt::Result {
            write!(f, "Ring {:?} {:?} {:?}", self.start, self.count, self.slots())
        }
    }

    impl Ring {
        pub(crate) fn new(capacity: usize) -> Self {
            Self {
                start: AtomicU64::new(0),
                count: AtomicU64::new(0),
                slots: core::ptr::NonNull::dangling().as_ptr(),
                capacity,
            }
        }

        pub(crate) fn init<A: BaseAllocator>(&mut self, allocator: &A) -> Result<(), AllocationError> {
            let layout = Layout::array::<AtomicU64>(self.capacity).map_err(|_| AllocationError::OutOfMemory)?;
            let memory: *mut u64 = allocator.allocate(layout)?.as_ptr().cast();
            unsafe { memory.write_bytes(0, self.capacity) };
            self.slots = memory.cast();
            Ok(())
        }

        pub fn slots(&self) -> &[AtomicU64] {
            unsafe { core::slice::from_raw_parts(self.slots, self.capacity) }
        }

        pub fn capacity(&self) -> usize {
            self.capacity
        }

        pub fn is_full(&self) -> bool {
            self.count.load(Relaxed) == self.capacity as u64
        }

        pub fn is_empty(&self) -> bool {
            self.count.load(Relaxed) == 0
        }

        pub(crate) fn push(&self, value: u64) {
            let (start, count) = (self.start.load(Relaxed), self.count.load(Relaxed));
            self.slots()[(start + count) as usize % self.capacity].store(value, Relaxed);
            self.count.store(count + 1, Relaxed);
        }

        pub(crate) fn pop(&self) -> Option<u64> {
            let (start, count) = (self.start.load(Relaxed), self.count.load(Relaxed));
            if count == 0 {
                return None;
            }
            self.start.store((start + 1) % self.capacity as u64, Relaxed);
            self.count.store(count - 1, Relaxed);
            Some(self.slots()[start as usize].load(Relaxed))
        }
    }
}

macro_rules! queue {
    ($name:ident, $push:item) => {
        use crate::ring::Ring;
        use iceoryx2_bb_elementary_traits::allocator::{AllocationError, BaseAllocator};
        use iceoryx2_bb_elementary_traits::relocatable_container::RelocatableContainer;

        #[derive(Debug)]
        #[repr(C)]
        pub struct $name {
            pub ring: Ring,
        }

        impl RelocatableContainer for $name {
            unsafe fn new_uninit(capacity: usize) -> Self {
                Self {
                    ring: Ring::new(capacity),
                }
            }

            unsafe fn init<A: BaseAllocator>(&mut self, allocator: &A) -> Result<(), AllocationError> {
                self.ring.init(allocator)
            }

            fn memory_size(capacity: usize) -> usize {
                Self::const_memory_size(capacity)
            }
        }

        impl $name {
            pub const fn const_memory_size(capacity: usize) -> usize {
                size_of::<u64>() * capacity + align_of::<u64>() - 1
            }

            pub fn capacity(&self) -> usize {
                self.ring.capacity()
            }

            pub fn is_full(&self) -> bool {
                self.ring.is_full()
            }

            pub fn is_empty(&self) -> bool {
                self.ring.is_empty()
            }

            /// # Safety
            ///
            /// One thread pops at a time.
            pub unsafe fn pop(&self) -> Option<u64> {
                self.ring.pop()
            }

            $push
        }
    };
}

pub mod spsc {
    pub mod index_queue {
        queue!(
            RelocatableIndexQueue,
            /// Whether there was room.
            ///
            /// # Safety
            ///
            /// One thread pushes at a time.
            pub unsafe fn push(&self, value: u64) -> bool {
                let room = !self.ring.is_full();
                if room {
                    self.ring.push(value);
                }
                room
            }
        );
    }

    pub mod safely_overflowing_index_queue {
        queue!(
            RelocatableSafelyOverflowingIndexQueue,
            /// The oldest value, where it had to make room.
            ///
            /// # Safety
            ///
            /// One thread pushes at a time.
            pub unsafe fn push(&self, value: u64) -> Option<u64> {
                let evicted = if self.ring.is_full() { self.ring.pop() } else { None };
                self.ring.push(value);
                evicted
            }
        );
    }
}
