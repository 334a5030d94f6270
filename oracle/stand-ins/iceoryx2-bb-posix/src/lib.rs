//! What the crate takes of the operating system. No file is ever touched.

pub mod file {
    #[derive(Debug, Clone, Copy, PartialEq, Eq)]
    pub enum AccessMode {
        Read,
        ReadWrite,
    }
}

pub mod config {
    use iceoryx2_bb_system_types::path::Path;

    pub const TEMP_DIRECTORY: Path = Path::new_const(b"/tmp");
}

pub mod directory {
    use iceoryx2_bb_system_types::path::Path;

    #[derive(Debug)]
    pub enum DirectoryRemoveError {
        DirectoryDoesNotExist,
        InsufficientPermissions,
    }

    pub struct Directory;

    impl Directory {
        pub fn remove_empty(_: &Path) -> Result<(), DirectoryRemoveError> {
            Err(DirectoryRemoveError::DirectoryDoesNotExist)
        }
    }
}

pub mod mutex {
    use core::marker::PhantomData;

    #[derive(Debug)]
    pub struct MutexHandle<T>(PhantomData<fn() -> T>);

    impl<T> MutexHandle<T> {
        #[allow(clippy::new_without_default)]
        pub fn new() -> Self {
            Self(PhantomData)
        }
    }

    #[derive(Debug)]
    pub enum MutexError {}

    #[derive(Default)]
    pub struct MutexBuilder;

    impl MutexBuilder {
        pub fn new() -> Self {
            Self
        }

        pub fn is_interprocess_capable(self, _: bool) -> Self {
            self
        }

        pub fn create<'handle, T>(
            self,
            value: T,
            _: &'handle MutexHandle<T>,
        ) -> Result<Mutex<'handle, 'handle, T>, MutexError> {
            Ok(Mutex(std::sync::Mutex::new(value), PhantomData))
        }
    }

    pub struct Mutex<'this, 'handle: 'this, T>(std::sync::Mutex<T>, PhantomData<(&'this (), &'handle ())>);

    pub type MutexGuard<'lock, T> = std::sync::MutexGuard<'lock, T>;

    impl<T> Mutex<'_, '_, T> {
        pub fn lock(&self) -> Result<MutexGuard<'_, T>, MutexError> {
            Ok(self.0.lock().unwrap_or_else(|poisoned| poisoned.into_inner()))
        }
    }
}

/// A pending send waits by polling. Between two polls the rest of the script runs, so a poll is a step of the wait, and the clock
/// counts the polls that were.
pub mod adaptive_wait {
    use core::cell::{Cell, RefCell};

    thread_local! {
        pub(crate) static POLLS: Cell<u64> = const { Cell::new(0) };
        static PAUSE: RefCell<Option<Box<dyn FnMut()>>> = const { RefCell::new(None) };
    }

    /// What this thread does between two polls of a wait.
    pub fn pause_between_polls(pause: impl FnMut() + 'static) {
        POLLS.set(0);
        PAUSE.set(Some(Box::new(pause)));
    }

    #[derive(Debug)]
    pub enum AdaptiveWaitError {}

    #[derive(Default)]
    pub struct AdaptiveWaitBuilder;

    impl AdaptiveWaitBuilder {
        pub fn new() -> Self {
            Self
        }

        pub fn create(self) -> Result<AdaptiveWait, AdaptiveWaitError> {
            Ok(AdaptiveWait)
        }
    }

    pub struct AdaptiveWait;

    impl AdaptiveWait {
        pub fn wait_while<F: FnMut() -> bool>(&mut self, mut predicate: F) -> Result<(), AdaptiveWaitError> {
            while predicate() {
                POLLS.set(POLLS.get() + 1);
                PAUSE.with_borrow_mut(|pause| pause.as_mut().expect("a pause between polls")());
            }
            Ok(())
        }
    }
}

pub mod clock {
    use core::time::Duration;

    #[derive(Debug)]
    pub enum TimeError {}

    /// A number of polls, a nanosecond each.
    pub struct Time(u64);

    impl Time {
        pub fn now() -> Result<Self, TimeError> {
            Ok(Self(crate::adaptive_wait::POLLS.get()))
        }

        pub fn elapsed(&self) -> Result<Duration, TimeError> {
            Ok(Duration::from_nanos(crate::adaptive_wait::POLLS.get() - self.0))
        }
    }
}
