//! A vector whose memory comes from an allocator, once.

pub mod semantic_string {
    /// The functions of names are inherent ones of the stand-ins.
    pub trait SemanticString {}
}

pub mod vector {
    pub mod relocatable_vec {
        use core::alloc::Layout;
        use core::fmt::Debug;
        use core::ops::{Deref, DerefMut};
        use iceoryx2_bb_elementary_traits::allocator::{AllocationError, BaseAllocator};
        use iceoryx2_bb_elementary_traits::relocatable_container::RelocatableContainer;

        #[repr(C)]
        pub struct RelocatableVec<T> {
            start: *mut T,
            capacity: usize,
            len: usize,
        }

        unsafe impl<T: Send> Send for RelocatableVec<T> {}
        unsafe impl<T: Sync> Sync for RelocatableVec<T> {}

        impl<T: Debug> Debug for RelocatableVec<T> {
            fn fmt(&self, f: &mut core::fmt::Formatter<'_>) -> core::fmt::Result {
                f.debug_list().entries(self.iter()).finish()
            }
        }

        impl<T> RelocatableContainer for RelocatableVec<T> {
            unsafe fn new_uninit(capacity: usize) -> Self {
                Self { start: core::ptr::dangling_mut(), capacity, len: 0 }
            }

            unsafe fn init<A: BaseAllocator>(&mut self, allocator: &A) -> Result<(), AllocationError> {
                let layout = Layout::array::<T>(self.capacity).map_err(|_| AllocationError::OutOfMemory)?;
                self.start = allocator.allocate(layout)?.as_ptr().cast();
                Ok(())
            }

            fn memory_size(capacity: usize) -> usize {
                Self::const_memory_size(capacity)
            }
        }

        impl<T> RelocatableVec<T> {
            pub const fn const_memory_size(capacity: usize) -> usize {
                size_of::<T>() * capacity + align_of::<T>() - 1
            }

            pub fn capacity(&self) -> usize {
                self.capacity
            }

            pub fn push(&mut self, value: T) -> Result<(), T> {
                if self.len == self.capacity {
                    return Err(value);
                }
                unsafe { self.push_unchecked(value) };
                Ok(())
            }

            /// # Safety
            ///
            /// There must be room.
            pub unsafe fn push_unchecked(&mut self, value: T) {
                unsafe { self.start.add(self.len).write(value) };
                self.len += 1;
            }
        }

        impl<T> Deref for RelocatableVec<T> {
            type Target = [T];

            fn deref(&self) -> &[T] {
                unsafe { core::slice::from_raw_parts(self.start, self.len) }
            }
        }

        impl<T> DerefMut for RelocatableVec<T> {
            fn deref_mut(&mut self) -> &mut [T] {
                unsafe { core::slice::from_raw_parts_mut(self.start, self.len) }
            }
        }
    }
}
