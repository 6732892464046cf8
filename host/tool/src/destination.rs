//! Results, written so that they are there whole or not at all.

use std::ffi::OsStr;
use std::fs::{self, File, Metadata, OpenOptions, Permissions};
use std::io::{self, Write};
use std::path::{Path, PathBuf};

use crate::arguments::Arguments;
use crate::failure::Failure;
use crate::files::{shown, Input};
use crate::signals::{self, Registered};
use crate::stamp::Stamp;

/// How many names are tried for a temporary file.
const ATTEMPTS: u32 = 1000;

/// What is written.
#[derive(Clone, Copy, PartialEq, Eq)]
pub enum Kind {
    /// A new state of the image, with its permissions where it is a regular file.
    Image,
    /// A part of the image, with the same permissions; it never takes the image's place.
    Part,
    /// Something else, which never takes the image's place.
    Drawing,
    /// An image that is made of data, with the permissions of the data where they are a regular file; it never takes their place.
    Made,
}

/// Where a result is to be written.
pub struct Destination {
    /// Its name, to be shown.
    pub name: String,
    /// Its path, once links are followed.
    path: PathBuf,
    /// The file that it replaces.
    old: Option<Metadata>,
    /// The permissions that it gets, if not those of any new file.
    permissions: Option<Permissions>,
    /// What it must still be when it is replaced: the image as it was read.
    unchanged: Option<Stamp>,
}

impl Destination {
    /// The image, which is the first input unless one is made, is replaced only with `--in-place`, another input never, another file only
    /// with `--force`.
    pub fn new(out: &OsStr, inputs: &[&Input], arguments: &Arguments, kind: Kind) -> Result<Destination, Failure> {
        let (in_place, force) = (arguments.has("--in-place"), arguments.has("--force"));
        if in_place && force {
            return Err(Failure::usage("--in-place and --force exclude each other"));
        }
        let found = Found::at(out)?;
        let refuse = |message: &str| Err(Failure::file(format!("{}: {message}", shown(out))));
        let read = inputs.iter().position(|input| found.is(input));
        match (read, kind) {
            (Some(0), _) if in_place => {}
            _ if in_place => return refuse("--in-place is given, but this is not the image that was read"),
            (Some(0), Kind::Image) => return refuse("this is the image itself; --in-place replaces it"),
            (Some(0), Kind::Part | Kind::Drawing) => return refuse("this is the image itself"),
            (Some(_), _) => return refuse("the command reads this file, so it is not replaced"),
            (None, _) if found.file.is_some() && !force => return refuse("it exists already; --force replaces it"),
            (None, _) => {}
        }
        let image = inputs.first().filter(|_| kind != Kind::Drawing);
        let mut destination = found.destination(out, image.and_then(|image| image.permissions()))?;
        destination.unchanged = image.filter(|_| in_place).and_then(|image| image.stamp.clone());
        Ok(destination)
    }

    /// A file that must not be there yet, nor be the one that is written beside it; it has the permissions of the image where that is a
    /// regular file.
    pub fn fresh(out: &OsStr, image: &Input, beside: Option<&Destination>) -> Result<Destination, Failure> {
        let found = Found::at(out)?;
        if let Some(other) = beside.filter(|other| place(&found.path) == place(&other.path)) {
            return Err(Failure::usage(format!("{} and {} are the same file", shown(out), other.name)));
        }
        if found.file.is_some() {
            return Err(Failure::file(format!("{}: it exists already, and is never replaced", shown(out))));
        }
        found.destination(out, image.permissions())
    }

    /// Writes the bytes to a temporary file in the folder, and to the disk.
    pub fn stage(self, bytes: &[u8]) -> Result<Staged, Failure> {
        match self.try_stage(bytes) {
            Ok(temporary) => Ok(Staged { destination: self, temporary }),
            Err(error) => Err(self.unwritten(error)),
        }
    }

    /// The temporary file, or the system's error.
    fn try_stage(&self, bytes: &[u8]) -> io::Result<Temporary> {
        let (temporary, mut file) = Temporary::create(folder(&self.path), self.permissions.is_some())?;
        if let Some(old) = &self.old {
            keep_owner(&file, old)?;
        }
        file.write_all(bytes)?;
        if let Some(permissions) = &self.permissions {
            file.set_permissions(permissions.clone())?;
        }
        file.sync_all()?;
        Ok(temporary)
    }

    /// Whether the image that it replaces is still as it was read.
    fn is_unchanged(&self) -> bool {
        let now = || Stamp::of(&self.path, &fs::metadata(&self.path)?);
        self.unchanged.as_ref().is_none_or(|read| now().is_ok_and(|now| now == *read))
    }

    /// The failure to write it.
    fn unwritten(&self, error: io::Error) -> Failure {
        Failure::file(format!("{}: cannot be written: {error}", self.name))
    }
}

/// What is found under the name of a destination.
struct Found {
    /// The path, once links are followed.
    path: PathBuf,
    /// The regular file that is there.
    file: Option<(Metadata, Stamp)>,
}

impl Found {
    /// Looks at a name.
    fn at(out: &OsStr) -> Result<Found, Failure> {
        let path = PathBuf::from(out);
        let refuse = |message: &str| Err(Failure::file(format!("{}: {message}", shown(out))));
        if out == "-" || path.file_name().is_none() {
            return Err(Failure::usage(format!("\"{}\" names no file to write (one named - is ./-)", shown(out))));
        }
        let real = fs::canonicalize(&path).and_then(|real| Ok((fs::metadata(&real)?, real)));
        match real {
            Ok((file, real)) if file.is_file() => match Stamp::of(&real, &file) {
                Ok(stamp) => Ok(Found { path: real, file: Some((file, stamp)) }),
                Err(error) => refuse(&error.to_string()),
            },
            Ok(_) => refuse("this is not a regular file"),
            Err(_) if fs::symlink_metadata(&path).is_ok() => refuse("this is a link that leads to no file"),
            Err(_) => Ok(Found { path, file: None }),
        }
    }

    /// Whether this is the file that an input was read from.
    fn is(&self, input: &Input) -> bool {
        match (&self.file, &input.stamp) {
            (Some((_, found)), Some(read)) => found.is_of_same_file(read),
            _ => false,
        }
    }

    /// The destination here: a file that is replaced must be one that may be written, and keeps its permissions.
    fn destination(self, out: &OsStr, permissions: Option<Permissions>) -> Result<Destination, Failure> {
        let (name, path, old) = (shown(out), self.path, self.file.map(|(file, _)| file));
        let permissions = match &old {
            None => permissions.map(plain),
            Some(old) if old.permissions().readonly() => {
                return Err(Failure::file(format!("{name}: it is write-protected, so it is not replaced")));
            }
            Some(old) => match OpenOptions::new().write(true).open(&path) {
                Ok(_) => Some(old.permissions()),
                Err(error) => return Err(Failure::file(format!("{name}: it may not be written, so it is not replaced: {error}"))),
            },
        };
        Ok(Destination { name, path, old, permissions, unchanged: None })
    }
}

/// A result that is whole and on the disk, but for its name.
pub struct Staged {
    destination: Destination,
    temporary: Temporary,
}

impl Staged {
    /// Gives the result its name.
    pub fn commit(self) -> Result<(), Failure> {
        let Staged { destination, temporary } = self;
        if !destination.is_unchanged() {
            return Err(Failure::file(format!("{}: it was changed meanwhile, so it is not replaced", destination.name)));
        }
        let renamed = temporary.rename(&destination.path, destination.old.is_some());
        renamed.map_err(|error| destination.unwritten(error))?;
        // The file is whole under its name; not every system can sync a folder.
        let _ = File::open(folder(&destination.path)).and_then(|folder| folder.sync_all());
        Ok(())
    }

    /// Gives a new file its name and then this result; where that fails the new file is removed again.
    pub fn commit_after(self, fresh: Staged) -> Result<(), Failure> {
        let path = fresh.destination.path.clone();
        signals::step(|| {
            fresh.commit()?;
            self.commit().inspect_err(|_| {
                let _ = fs::remove_file(path);
            })
        })
    }
}

/// The folder of a path.
fn folder(path: &Path) -> &Path {
    match path.parent() {
        Some(folder) if folder != Path::new("") => folder,
        _ => Path::new("."),
    }
}

/// The folder of a path, once links are followed, and its name there.
fn place(path: &Path) -> (PathBuf, Option<&OsStr>) {
    let folder = folder(path);
    (fs::canonicalize(folder).unwrap_or(folder.to_path_buf()), path.file_name())
}

/// Permissions without those that let a program run as its owner or group.
#[cfg(unix)]
fn plain(permissions: Permissions) -> Permissions {
    use std::os::unix::fs::PermissionsExt;
    Permissions::from_mode(permissions.mode() & 0o777)
}

/// Permissions as they are: here none lets a program run as its owner.
#[cfg(not(unix))]
fn plain(permissions: Permissions) -> Permissions {
    permissions
}

/// Gives a file the owner and the group of the one that it replaces.
#[cfg(unix)]
fn keep_owner(file: &File, old: &Metadata) -> io::Result<()> {
    use std::os::unix::fs::{fchown, MetadataExt};
    let new = file.metadata()?;
    if (new.uid(), new.gid()) == (old.uid(), old.gid()) {
        return Ok(());
    }
    let kept = fchown(file, Some(old.uid()), Some(old.gid()));
    kept.map_err(|error| io::Error::new(error.kind(), format!("its owner and group cannot be kept: {error}")))
}

/// Gives a file the owner and the group of the one that it replaces; here the system does.
#[cfg(not(unix))]
fn keep_owner(_file: &File, _old: &Metadata) -> io::Result<()> {
    Ok(())
}

/// A temporary file, removed unless it took its name, also where a signal ends the process.
struct Temporary {
    path: PathBuf,
    renamed: bool,
    _registered: Registered,
}

impl Temporary {
    /// Makes a new file in the folder; a private one can be read by its owner alone.
    fn create(folder: &Path, private: bool) -> io::Result<(Temporary, File)> {
        let mut options = OpenOptions::new();
        options.write(true).create_new(true);
        #[cfg(unix)]
        if private {
            std::os::unix::fs::OpenOptionsExt::mode(&mut options, 0o600);
        }
        let mut attempt = 0;
        loop {
            let path = folder.join(format!(".fluxproof-{}-{attempt}.tmp", std::process::id()));
            match signals::step(|| options.open(&path).map(|file| (file, Registered::new(&path)))) {
                Ok((file, registered)) => return Ok((Temporary { path, renamed: false, _registered: registered }, file)),
                Err(error) if error.kind() == io::ErrorKind::AlreadyExists && attempt < ATTEMPTS => attempt += 1,
                Err(error) => return Err(error),
            }
        }
    }

    /// Gives the file its name; where it may not replace another, not even one that came up meanwhile.
    fn rename(mut self, path: &Path, replace: bool) -> io::Result<()> {
        if !replace {
            match fs::hard_link(&self.path, path) {
                Ok(()) => return Ok(()),
                Err(error) if error.kind() == io::ErrorKind::AlreadyExists => return Err(error),
                Err(_) if fs::symlink_metadata(path).is_ok() => return Err(io::ErrorKind::AlreadyExists.into()),
                Err(_) => {} // A file system without hard links.
            }
        }
        fs::rename(&self.path, path)?;
        self.renamed = true;
        Ok(())
    }
}

impl Drop for Temporary {
    /// Removes the temporary name; a failure to do so cannot be told any more.
    fn drop(&mut self) {
        if !self.renamed {
            let _ = fs::remove_file(&self.path);
        }
    }
}
