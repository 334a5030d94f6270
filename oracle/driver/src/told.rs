//! The crate's process-local storage, which can be told to fail. It is never Forming, Broken or of another version by itself; told
//! so, it answers the error of `DynamicStorageOpenError` for it, and the crate's own code does the rest.

use core::ptr::NonNull;
use core::time::Duration;
use iceoryx2_bb_elementary_traits::testing::abandonable::Abandonable;
use iceoryx2_bb_memory::bump_allocator::BumpAllocator;
use iceoryx2_bb_posix::file::AccessMode;
use iceoryx2_bb_system_types::file_name::FileName;
use iceoryx2_bb_system_types::path::Path;
use iceoryx2_cal::dynamic_storage::{
    DynamicStorage, DynamicStorageBuilder, DynamicStorageCreateError, DynamicStorageOpenError,
    DynamicStorageOpenOrCreateError, process_local,
};
use iceoryx2_cal::named_concept::*;
use iceoryx2_cal::zero_copy_connection::common::details::SharedManagementData;
use std::cell::Cell;

thread_local! {
    static ERROR: Cell<Option<DynamicStorageOpenError>> = const { Cell::new(None) };
}

/// From now on opening a storage in this thread fails so.
pub fn fail_with(error: Option<DynamicStorageOpenError>) {
    ERROR.set(error);
}

type Inner = process_local::Storage<SharedManagementData>;

#[derive(Debug)]
pub struct Told(Inner);

#[derive(Debug)]
pub struct Builder<'builder>(process_local::Builder<'builder, SharedManagementData>);

impl NamedConcept for Told {
    fn name(&self) -> &FileName {
        self.0.name()
    }
}

impl NamedConceptMgmt for Told {
    type Configuration = process_local::Configuration<SharedManagementData>;

    unsafe fn remove_cfg(name: &FileName, config: &Self::Configuration) -> Result<bool, NamedConceptRemoveError> {
        unsafe { Inner::remove_cfg(name, config) }
    }

    fn does_exist_cfg(name: &FileName, config: &Self::Configuration) -> Result<bool, NamedConceptDoesExistError> {
        Inner::does_exist_cfg(name, config)
    }

    fn list_cfg(config: &Self::Configuration) -> Result<Vec<FileName>, NamedConceptListError> {
        Inner::list_cfg(config)
    }

    fn remove_path_hint(path: &Path) -> Result<(), NamedConceptPathHintRemoveError> {
        Inner::remove_path_hint(path)
    }
}

impl Abandonable for Told {
    unsafe fn abandon_in_place(mut this: NonNull<Self>) {
        unsafe { Inner::abandon_in_place(NonNull::from(&mut this.as_mut().0)) }
    }
}

impl DynamicStorage<SharedManagementData> for Told {
    type Builder<'builder> = Builder<'builder>;

    fn does_support_persistency() -> bool {
        Inner::does_support_persistency()
    }

    fn has_ownership(&self) -> bool {
        self.0.has_ownership()
    }

    fn release_ownership(&self) {
        self.0.release_ownership()
    }

    fn acquire_ownership(&self) {
        self.0.acquire_ownership()
    }

    fn get(&self) -> &SharedManagementData {
        self.0.get()
    }

    unsafe fn __internal_set_type_name_in_config(config: &mut Self::Configuration, name: &str) {
        unsafe { Inner::__internal_set_type_name_in_config(config, name) }
    }
}

impl NamedConceptBuilder<Told> for Builder<'_> {
    fn new(name: &FileName) -> Self {
        Self(process_local::Builder::new(name))
    }

    fn config(self, config: &<Told as NamedConceptMgmt>::Configuration) -> Self {
        Self(self.0.config(config))
    }
}

impl<'builder> DynamicStorageBuilder<'builder, SharedManagementData, Told> for Builder<'builder> {
    fn call_drop_on_destruction(self, value: bool) -> Self {
        Self(self.0.call_drop_on_destruction(value))
    }

    fn has_ownership(self, value: bool) -> Self {
        Self(self.0.has_ownership(value))
    }

    fn supplementary_size(self, value: usize) -> Self {
        Self(self.0.supplementary_size(value))
    }

    fn timeout(self, value: Duration) -> Self {
        Self(self.0.timeout(value))
    }

    fn initializer<F>(self, value: F) -> Self
    where
        F: FnMut(&mut SharedManagementData, &mut BumpAllocator) -> bool + 'builder,
    {
        Self(self.0.initializer(value))
    }

    fn create(self, value: SharedManagementData) -> Result<Told, DynamicStorageCreateError> {
        self.0.create(value).map(Told)
    }

    fn open(self, access: AccessMode) -> Result<Told, DynamicStorageOpenError> {
        match ERROR.get() {
            Some(error) => Err(error),
            None => self.0.open(access).map(Told),
        }
    }

    fn open_or_create(self, value: SharedManagementData) -> Result<Told, DynamicStorageOpenOrCreateError> {
        match ERROR.get() {
            Some(error) => Err(error.into()),
            None => self.0.open_or_create(value).map(Told),
        }
    }
}
