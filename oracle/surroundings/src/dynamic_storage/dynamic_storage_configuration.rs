//! The crate adds the name of the stored type to a path. One type is stored here, so the plain path does.

use crate::named_concept::*;
use alloc::vec::Vec;

pub trait DynamicStorageConfiguration: NamedConceptConfiguration {
    fn type_name(&self) -> &str;

    fn path_for_with_type(&self, value: &FileName) -> FilePath {
        let parts = [&**self.get_path_hint(), b"/", self.get_prefix(), value, self.get_suffix()];
        unsafe { FilePath::new_unchecked(&parts.concat()) }
    }

    fn extract_name_from_file_with_type(&self, value: &FileName) -> Option<FileName> {
        let rest = value.as_bytes().strip_prefix(self.get_prefix().as_bytes())?;
        let name = rest.strip_suffix(self.get_suffix().as_bytes())?;
        Some(unsafe { FileName::new_unchecked(name) })
    }
}
