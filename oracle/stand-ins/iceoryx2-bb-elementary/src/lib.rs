//! Small parts: a bump allocator without an end, relocatable pointers, sizes, and enums of errors.

pub mod bump_allocator {
    use core::alloc::Layout;
    use core::cell::Cell;
    use core::ptr::NonNull;
    use iceoryx2_bb_elementary_traits::allocator::{AllocationError, BaseAllocator};

    pub struct BumpAllocator {
        next: Cell<*mut u8>,
    }

    impl BumpAllocator {
        pub fn new(start: *mut u8) -> Self {
            Self { next: Cell::new(start) }
        }
    }

    impl BaseAllocator for BumpAllocator {
        fn allocate(&self, layout: Layout) -> Result<NonNull<[u8]>, AllocationError> {
            let next = self.next.get();
            let start = next.wrapping_add(next.align_offset(layout.align()));
            self.next.set(start.wrapping_add(layout.size()));
            let start = NonNull::new(start).ok_or(AllocationError::OutOfMemory)?;
            Ok(NonNull::slice_from_raw_parts(start, layout.size()))
        }
    }
}

pub mod relocatable_ptr {
    use core::ptr::NonNull;
    pub use iceoryx2_bb_elementary_traits::pointer_trait::PointerTrait;

    #[derive(Debug)]
    #[repr(C)]
    pub struct RelocatablePointer<T> {
        start: *mut T,
    }

    impl<T> RelocatablePointer<T> {
        /// # Safety
        ///
        /// `init` must be called before the pointer is used.
        pub unsafe fn new_uninit() -> Self {
            Self { start: core::ptr::null_mut() }
        }

        /// # Safety
        ///
        /// The memory must outlive the pointer.
        pub unsafe fn init(&mut self, memory: NonNull<[u8]>) {
            self.start = memory.as_ptr().cast();
        }
    }

    impl<T> PointerTrait<T> for RelocatablePointer<T> {
        fn as_ptr(&self) -> *const T {
            self.start
        }

        fn as_mut_ptr(&mut self) -> *mut T {
            self.start
        }
    }
}

pub mod math {
    /// What `count` values take at most, wherever they start.
    pub const fn unaligned_mem_size<T>(count: usize) -> usize {
        size_of::<T>() * count + align_of::<T>() - 1
    }
}

#[macro_export]
macro_rules! enum_gen {
    ($name:ident mapping: $($case:ident),*) => {
        #[derive(Debug, Clone, Copy, PartialEq, Eq)]
        pub enum $name {
            $($case($case)),*
        }

        $(impl From<$case> for $name {
            fn from(case: $case) -> Self {
                Self::$case(case)
            }
        })*
    };
}
