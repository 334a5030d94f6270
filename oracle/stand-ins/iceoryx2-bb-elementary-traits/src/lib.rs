//! The traits and pointers that containers are made of. All pointers are absolute: nothing is moved once it is filled.

pub mod allocator {
    use core::alloc::Layout;
    use core::ptr::NonNull;

    #[derive(Debug, Clone, Copy, PartialEq, Eq)]
    pub enum AllocationError {
        OutOfMemory,
    }

    pub trait BaseAllocator {
        fn allocate(&self, layout: Layout) -> Result<NonNull<[u8]>, AllocationError>;

        /// # Safety
        ///
        /// The memory must come from this allocator, with this layout.
        unsafe fn deallocate(&self, _memory: NonNull<u8>, _layout: Layout) {}
    }
}

pub mod non_null {
    use core::ptr::NonNull;

    pub trait NonNullCompat<T: ?Sized> {
        fn iox2_from_mut(value: &mut T) -> NonNull<T>;
    }

    impl<T: ?Sized> NonNullCompat<T> for NonNull<T> {
        fn iox2_from_mut(value: &mut T) -> NonNull<T> {
            NonNull::from(value)
        }
    }
}

pub mod pointer_trait {
    pub trait PointerTrait<T> {
        fn as_ptr(&self) -> *const T;
        fn as_mut_ptr(&mut self) -> *mut T;
    }
}

pub mod owning_pointer {
    use crate::pointer_trait::PointerTrait;

    #[derive(Debug)]
    pub struct OwningPointer<T> {
        memory: Box<[core::mem::MaybeUninit<T>]>,
    }

    impl<T> OwningPointer<T> {
        pub fn new_with_alloc(count: usize) -> Self {
            Self { memory: Box::new_uninit_slice(count) }
        }

        pub fn as_mut_ptr(&mut self) -> *mut T {
            self.memory.as_mut_ptr().cast()
        }
    }

    impl<T> PointerTrait<T> for OwningPointer<T> {
        fn as_ptr(&self) -> *const T {
            self.memory.as_ptr().cast()
        }

        fn as_mut_ptr(&mut self) -> *mut T {
            self.memory.as_mut_ptr().cast()
        }
    }
}

pub mod relocatable_container {
    use crate::allocator::{AllocationError, BaseAllocator};

    pub trait RelocatableContainer {
        /// # Safety
        ///
        /// `init` must be called before anything else.
        unsafe fn new_uninit(capacity: usize) -> Self;

        /// # Safety
        ///
        /// Must be called once, and the container must not be moved afterwards.
        unsafe fn init<T: BaseAllocator>(&mut self, allocator: &T) -> Result<(), AllocationError>;

        fn memory_size(capacity: usize) -> usize;
    }
}

pub mod testing {
    pub mod abandonable {
        use core::ptr::NonNull;

        pub trait Abandonable {
            /// # Safety
            ///
            /// The value must not be used afterwards.
            unsafe fn abandon_in_place(this: NonNull<Self>);
        }
    }
}

pub mod zero_copy_send {
    pub trait ZeroCopySend {}
}
