//! Names of files and paths: bytes of a fixed length that can be copied and ordered.

macro_rules! name {
    ($name:ident) => {
        #[derive(Clone, Copy, PartialEq, Eq, PartialOrd, Ord, Hash)]
        pub struct $name {
            bytes: [u8; 255],
            len: usize,
        }

        impl $name {
            pub const fn new_const(text: &[u8]) -> Self {
                let mut bytes = [0; 255];
                let mut len = 0;
                while len < text.len() {
                    bytes[len] = text[len];
                    len += 1;
                }
                Self { bytes, len }
            }

            /// # Safety
            ///
            /// The bytes must make a valid name.
            pub unsafe fn new_unchecked(text: &[u8]) -> Self {
                Self::new_const(text)
            }

            pub const fn max_len() -> usize {
                255
            }

            pub fn as_bytes(&self) -> &[u8] {
                &self.bytes[..self.len]
            }

            pub fn as_string(&self) -> &[u8] {
                self.as_bytes()
            }

            pub fn push_bytes(&mut self, text: &[u8]) -> Result<(), crate::TooLong> {
                let room = self.bytes.get_mut(self.len..self.len + text.len());
                room.ok_or(crate::TooLong)?.copy_from_slice(text);
                self.len += text.len();
                Ok(())
            }

            pub fn strip_prefix(&mut self, prefix: &[u8]) -> Result<bool, crate::TooLong> {
                let rest = self.as_bytes().strip_prefix(prefix).map(Self::new_const);
                Ok(rest.map(|rest| *self = rest).is_some())
            }

            pub fn strip_suffix(&mut self, suffix: &[u8]) -> Result<bool, crate::TooLong> {
                let rest = self.as_bytes().strip_suffix(suffix).map(Self::new_const);
                Ok(rest.map(|rest| *self = rest).is_some())
            }
        }

        impl core::ops::Deref for $name {
            type Target = [u8];

            fn deref(&self) -> &[u8] {
                self.as_bytes()
            }
        }

        impl core::fmt::Display for $name {
            fn fmt(&self, f: &mut core::fmt::Formatter<'_>) -> core::fmt::Result {
                f.write_str(&String::from_utf8_lossy(self.as_bytes()))
            }
        }

        impl core::fmt::Debug for $name {
            fn fmt(&self, f: &mut core::fmt::Formatter<'_>) -> core::fmt::Result {
                core::fmt::Display::fmt(self, f)
            }
        }
    };
}

#[derive(Debug)]
pub struct TooLong;

pub mod file_name {
    name!(FileName);
}

pub mod path {
    name!(Path);

    impl Path {
        pub fn add_path_entry(&mut self, entry: &Path) -> Result<(), crate::TooLong> {
            if !self.ends_with(b"/") {
                self.push_bytes(b"/")?;
            }
            self.push_bytes(entry)
        }
    }

    impl From<&crate::file_name::FileName> for Path {
        fn from(name: &crate::file_name::FileName) -> Self {
            Self::new_const(name)
        }
    }
}

pub mod file_path {
    use crate::file_name::FileName;
    use crate::path::Path;

    name!(FilePath);

    impl FilePath {
        fn slash(&self) -> Option<usize> {
            self.iter().rposition(|byte| *byte == b'/')
        }

        pub fn path(&self) -> Path {
            Path::new_const(&self[..self.slash().unwrap_or(0)])
        }

        pub fn file_name(&self) -> FileName {
            FileName::new_const(&self[self.slash().map_or(0, |slash| slash + 1)..])
        }
    }
}
