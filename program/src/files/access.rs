//! Who may do what with a file: its owner, group and mode, its ACL, its security labels and its other extended attributes.
//! A file that is replaced keeps them, or is not replaced.

use std::ffi::{CStr, CString};
use std::fs::{File, Metadata, Permissions};
use std::io;
use std::os::unix::fs::{fchown, MetadataExt, PermissionsExt};

use crate::failure::words;
use crate::system::{attribute, attribute_names, remove_attribute, set_attribute};

/// The mode bits that a file keeps.
const MODE: u32 = 0o7777;

/// The ACL of a file, which has its mode in it.
const ACL: &CStr = c"system.posix_acl_access";

/// The access to a file as it was found.
pub struct Access {
    about: Metadata,
    attributes: Vec<(CString, Vec<u8>)>,
}

/// What an attribute is called in a message.
fn name_of(attribute: &CStr) -> String {
    let name = attribute.to_string_lossy();
    match &*name {
        "system.posix_acl_access" => "access control list (ACL)".to_string(),
        label if label.starts_with("security.") => format!("security label {label}"),
        other => format!("extended attribute {other}"),
    }
}

fn not_kept(what: &str, cause: io::Result<()>) -> String {
    let cause = cause.err().map_or(String::new(), |error| {
        format!(": {}", words(&error)).to_string()
    });
    format!("its {what} can't be kept{cause}")
}

impl Access {
    /// That of an open file, or what of it can't be read.
    pub fn of(file: &File) -> Result<Access, String> {
        let unread = |what: String| {
            move |error: io::Error| format!("its {what} can't be read: {}", words(&error))
        };
        let about = file
            .metadata()
            .map_err(unread("owner and mode".to_string()))?;
        let names = attribute_names(file).map_err(unread("extended attributes".to_string()))?;
        let mut attributes = Vec::new();
        for name in names {
            let value = attribute(file, &name).map_err(unread(name_of(&name)))?;
            attributes.extend(value.map(|value| (name, value)));
        }
        Ok(Access { about, attributes })
    }

    /// Whether the owner made the file read-only.
    pub fn is_read_only(&self) -> bool {
        self.about.mode() & 0o200 == 0
    }

    /// Its mode, for a file beside it; what the owner may alone where an ACL says more than the mode.
    pub fn mode(&self) -> u32 {
        let has_acl = self.attributes.iter().any(|(name, _)| &**name == ACL);
        self.about.mode() & if has_acl { 0o700 } else { MODE }
    }

    /// Whether a file has the same group.
    pub fn has_group_of(&self, file: &File) -> bool {
        let own = file.metadata();
        own.is_ok_and(|own| own.gid() == self.about.gid())
    }

    /// Gives a file the owner and group of this one as far as that may be.
    pub fn share_owner(&self, file: &File) {
        let _ = fchown(file, Some(self.about.uid()), Some(self.about.gid()));
    }

    /// Gives a new file this access, or says what of it can't be kept.
    pub fn keep(&self, file: &File) -> Result<(), String> {
        let owned = self.keep_owner(file);
        let own = file.metadata().map_err(|error| words(&error))?;
        if own.uid() != self.about.uid() {
            return Err(not_kept("owner", owned));
        }
        if own.gid() != self.about.gid() {
            return Err(not_kept("group", owned));
        }
        self.keep_attributes(file)?;
        let bits = self.about.mode() & MODE;
        let set = file.set_permissions(Permissions::from_mode(bits));
        let own = file.metadata().map_err(|error| words(&error))?;
        if own.mode() & MODE != bits {
            return Err(not_kept("mode", set));
        }
        Ok(())
    }

    fn keep_owner(&self, file: &File) -> io::Result<()> {
        let own = file.metadata()?;
        if (own.uid(), own.gid()) == (self.about.uid(), self.about.gid()) {
            return Ok(());
        }
        fchown(file, Some(self.about.uid()), Some(self.about.gid()))
    }

    /// An ACL that the folder gave the new file goes where the old one has none.
    fn keep_attributes(&self, file: &File) -> Result<(), String> {
        let has_acl = self.attributes.iter().any(|(name, _)| &**name == ACL);
        if !has_acl && attribute(file, ACL).is_ok_and(|value| value.is_some()) {
            let removed = remove_attribute(file, ACL);
            if removed.is_err() {
                return Err(not_kept("access without an ACL", removed));
            }
        }
        for (name, value) in &self.attributes {
            let is_there = || attribute(file, name).is_ok_and(|own| own.as_ref() == Some(value));
            if is_there() {
                continue;
            }
            let set = set_attribute(file, name, value);
            if !is_there() {
                return Err(not_kept(&name_of(name), set));
            }
        }
        Ok(())
    }
}
