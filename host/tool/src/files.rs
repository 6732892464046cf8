//! Files, read whole and once.

use std::ffi::OsStr;
use std::fs::{self, File, Metadata, Permissions};
use std::io::{self, Read};
use std::path::Path;

use crate::escapes::escaped;
use crate::failure::Failure;
use crate::stamp::Stamp;
use crate::streams;

/// The greatest SCP image; a longer file is read to one byte more, so that an SCP image, or data for a DSK image, is refused and a DSK image
/// shown as longer.
pub const GREATEST: u64 = scp::LONGEST_IMAGE as u64;

/// Whether a file of which these bytes were read is longer than that; then not all of it was read.
pub fn is_cut(read: &[u8]) -> bool {
    read.len() as u64 > GREATEST
}

/// What stands before a number of these bytes up to the end, where not all of the file was read.
pub fn at_least(read: &[u8]) -> &'static str {
    if is_cut(read) {
        "at least "
    } else {
        ""
    }
}

/// A name as it can be shown on one line; what does not print, and bytes that are not UTF-8, are escaped.
pub fn shown(name: impl AsRef<OsStr>) -> String {
    escaped(name.as_ref().as_encoded_bytes(), |part| {
        let mut text = String::new();
        for letter in part.chars() {
            match letter {
                '\u{200B}'..='\u{200F}' | '\u{2028}'..='\u{202E}' | '\u{2060}'..='\u{206F}' | '\u{FEFF}' => {
                    text.extend(letter.escape_unicode())
                }
                _ if letter.is_control() => text.extend(letter.escape_default()),
                _ => text.push(letter),
            }
        }
        text
    })
}

/// A file read whole.
pub struct Input {
    /// Its name, to be shown.
    pub name: String,
    /// Its bytes, at most one more than the greatest SCP image has.
    pub bytes: Vec<u8>,
    /// What it was to the system before it was read.
    metadata: Metadata,
    /// Which file it was, if the system can say so.
    pub stamp: Option<Stamp>,
    /// The file itself: while it is open, no other file can have its identity, and a lock holds.
    _file: File,
}

impl Input {
    /// Reads a file, or standard input where it is named "-"; else says why not, with its name.
    pub fn try_read(file: &OsStr) -> Result<Input, String> {
        Input::read_whole(file, false)
    }

    /// The same; with a lock where the file is to be replaced.
    fn read_whole(file: &OsStr, lock: bool) -> Result<Input, String> {
        let name = if file == "-" { "standard input".to_string() } else { shown(file) };
        let read = || {
            let (opened, mut bytes) = (open(file, lock)?, Vec::new());
            let metadata = opened.metadata()?;
            bytes.try_reserve(metadata.len().min(GREATEST) as usize + 1)?;
            (&opened).take(GREATEST + 1).read_to_end(&mut bytes)?;
            let stamp = Stamp::of(Path::new(file), &metadata).ok();
            Ok(Input { name: name.clone(), bytes, metadata, stamp, _file: opened })
        };
        read().map_err(|error: io::Error| format!("{name}: {error}"))
    }

    /// Reads a file, or standard input where it is named "-".
    pub fn read(file: &OsStr) -> Result<Input, Failure> {
        Input::try_read(file).map_err(Failure::file)
    }

    /// Reads an image that is to be written again, so not from standard input; with a lock where it is to be replaced.
    pub fn read_image(file: &OsStr, lock: bool) -> Result<Input, Failure> {
        if file == "-" {
            return Err(Failure::usage("the image cannot come from standard input (a file of that name is ./-)"));
        }
        Input::read_whole(file, lock).map_err(Failure::file)
    }

    /// Reads a file of lines or words; what is read of a longer one than the greatest SCP image would not be all.
    pub fn read_all(file: &OsStr) -> Result<Input, Failure> {
        Input::read(file)?.uncut()
    }

    /// The input, if it was read to its end.
    pub fn uncut(self) -> Result<Input, Failure> {
        if is_cut(&self.bytes) {
            return Err(Failure::file(format!("{}: longer than 268,435,456 bytes", self.name)));
        }
        Ok(self)
    }

    /// Who may use it, where it is a regular file: those of a pipe, a socket or a device say nothing of what is read from it.
    pub fn permissions(&self) -> Option<Permissions> {
        self.is_regular().then(|| self.metadata.permissions())
    }

    /// Whether it can be read again.
    pub fn is_regular(&self) -> bool {
        self.metadata.is_file()
    }

    /// A copy of the bytes, if there is memory for them.
    pub fn copy(&self) -> Result<Vec<u8>, Failure> {
        let mut copy = self.room(self.bytes.len())?;
        copy.extend_from_slice(&self.bytes);
        Ok(copy)
    }

    /// No bytes, but room for as many as are made of this file, if there is memory for them.
    pub fn room(&self, size: usize) -> Result<Vec<u8>, Failure> {
        let mut room = Vec::new();
        room.try_reserve_exact(size).map_err(|error| Failure::file(format!("{}: {error}", self.name)))?;
        Ok(room)
    }

    /// The failure of this file that a refusal is, as it is told.
    pub fn failure(&self, told: impl std::fmt::Display) -> Failure {
        Failure::refused(format!("{}: {told}", self.name))
    }

    /// The failure that a line of this text is.
    pub fn bad_line(&self, line: usize, message: impl std::fmt::Display) -> Failure {
        Failure::usage(format!("{}: line {line}: {message}", self.name))
    }

    /// The lines with their numbers, without comments and the space around them; those that then are empty are left out.
    pub fn lines(&self) -> impl Iterator<Item = (usize, Result<&str, Failure>)> {
        let numbered = (1..).zip(self.bytes.split(|&byte| byte == b'\n'));
        let read = numbered.map(|(number, line)| match std::str::from_utf8(line) {
            Ok(line) => (number, Ok(line.split('#').next().unwrap_or_default().trim_matches(is_space))),
            Err(_) => (number, Err(self.bad_line(number, "not UTF-8"))),
        });
        read.filter(|(_, line)| !matches!(line, Ok("")))
    }
}

/// Whether a letter at an end of a line does not count; a byte order mark does not.
fn is_space(letter: char) -> bool {
    letter.is_whitespace() || letter == '\u{FEFF}'
}

/// The file of a name, or standard input where that is "-"; opened so that nobody else replaces it where that is asked for.
fn open(file: &OsStr, lock: bool) -> io::Result<File> {
    match (file == "-", lock) {
        (true, _) => streams::standard_input(),
        (false, false) => File::open(file),
        (false, true) => open_locked(Path::new(file)),
    }
}

/// Opens a file that is to be replaced; whoever does the same waits until it is, and then opens the new one.
fn open_locked(path: &Path) -> io::Result<File> {
    loop {
        let file = File::open(path)?;
        // Where the system has no locks, the stamps still tell of a change.
        let _ = file.lock();
        if Stamp::of(path, &file.metadata()?)? == Stamp::of(path, &fs::metadata(path)?)? {
            return Ok(file);
        }
    }
}
