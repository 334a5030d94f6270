//! The heap, and a bump allocator over a piece of memory.

pub mod bump_allocator {
    use core::alloc::Layout;
    use core::cell::Cell;
    use core::ptr::NonNull;
    use iceoryx2_bb_elementary_traits::allocator::{AllocationError, BaseAllocator};

    #[derive(Debug)]
    pub struct BumpAllocator {
        start: NonNull<u8>,
        size: usize,
        used: Cell<usize>,
    }

    impl BumpAllocator {
        pub fn new(start: NonNull<u8>, size: usize) -> Self {
            Self { start, size, used: Cell::new(0) }
        }
    }

    impl BaseAllocator for BumpAllocator {
        fn allocate(&self, layout: Layout) -> Result<NonNull<[u8]>, AllocationError> {
            let next = self.start.as_ptr().wrapping_add(self.used.get());
            let begin = self.used.get() + next.align_offset(layout.align());
            if begin + layout.size() > self.size {
                return Err(AllocationError::OutOfMemory);
            }
            self.used.set(begin + layout.size());
            let memory = unsafe { self.start.add(begin) };
            Ok(NonNull::slice_from_raw_parts(memory, layout.size()))
        }
    }
}

pub mod heap_allocator {
    use core::alloc::Layout;
    use core::ptr::NonNull;
    use iceoryx2_bb_elementary_traits::allocator::{AllocationError, BaseAllocator};

    #[derive(Default)]
    pub struct HeapAllocator;

    impl HeapAllocator {
        pub fn new() -> Self {
            Self
        }
    }

    impl BaseAllocator for HeapAllocator {
        fn allocate(&self, layout: Layout) -> Result<NonNull<[u8]>, AllocationError> {
            let memory = NonNull::new(unsafe { std::alloc::alloc(layout) }).ok_or(AllocationError::OutOfMemory)?;
            Ok(NonNull::slice_from_raw_parts(memory, layout.size()))
        }

        unsafe fn deallocate(&self, memory: NonNull<u8>, layout: Layout) {
            unsafe { std::alloc::dealloc(memory.as_ptr(), layout) }
        }
    }
}
