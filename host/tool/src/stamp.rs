//! Which file it is, and whether it was changed.

use std::fs::Metadata;
use std::io;
use std::path::Path;
use std::time::SystemTime;

/// What makes a file the same under another name: device and inode.
#[cfg(unix)]
type Identity = (u64, u64);

/// What makes a file the same under another name: its path once links are followed.
#[cfg(not(unix))]
type Identity = std::path::PathBuf;

/// What another file, and this one once it is changed, has otherwise.
#[derive(Clone, Debug, PartialEq, Eq)]
pub struct Stamp {
    identity: Identity,
    size: u64,
    modified: Option<SystemTime>,
    changed: (i64, i64),
}

impl Stamp {
    /// The stamp of a file.
    pub fn of(path: &Path, metadata: &Metadata) -> io::Result<Stamp> {
        let (identity, changed) = (identity(path, metadata)?, changed(metadata));
        Ok(Stamp { identity, size: metadata.len(), modified: metadata.modified().ok(), changed })
    }

    /// Whether it is the same file, changed or not.
    pub fn is_of_same_file(&self, other: &Stamp) -> bool {
        self.identity == other.identity
    }
}

/// The identity of a file.
#[cfg(unix)]
fn identity(_path: &Path, metadata: &Metadata) -> io::Result<Identity> {
    use std::os::unix::fs::MetadataExt;
    Ok((metadata.dev(), metadata.ino()))
}

/// The identity of a file.
#[cfg(not(unix))]
fn identity(path: &Path, _metadata: &Metadata) -> io::Result<Identity> {
    std::fs::canonicalize(path)
}

/// When contents, owner or mode were last changed, in seconds and nanoseconds.
#[cfg(unix)]
fn changed(metadata: &Metadata) -> (i64, i64) {
    use std::os::unix::fs::MetadataExt;
    (metadata.ctime(), metadata.ctime_nsec())
}

/// When contents, owner or mode were last changed; here that is not told.
#[cfg(not(unix))]
fn changed(_metadata: &Metadata) -> (i64, i64) {
    (0, 0)
}
