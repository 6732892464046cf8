//! The standard streams as files: the standard library's own take one that cannot be read for empty, and writing to one that cannot be
//! written for done.

use std::fs::File;
use std::io::{self, BufWriter, Write};
#[cfg(unix)]
use std::os::fd::AsFd as AsOwned;
#[cfg(windows)]
use std::os::windows::io::AsHandle as AsOwned;

/// Standard input.
pub fn standard_input() -> io::Result<File> {
    owned(io::stdin())
}

/// Standard output, buffered, and quiet once nobody reads any more.
pub fn standard_output() -> io::Result<BufWriter<Quiet<File>>> {
    Ok(BufWriter::with_capacity(1 << 16, Quiet(owned(io::stdout())?)))
}

/// A stream as a file of its own.
#[cfg(unix)]
fn owned(stream: impl AsOwned) -> io::Result<File> {
    Ok(File::from(stream.as_fd().try_clone_to_owned()?))
}

/// A stream as a file of its own.
#[cfg(windows)]
fn owned(stream: impl AsOwned) -> io::Result<File> {
    Ok(File::from(stream.as_handle().try_clone_to_owned()?))
}

/// A writer that takes everything quietly once nobody reads any more.
pub struct Quiet<W: Write>(W);

impl<W: Write> Write for Quiet<W> {
    fn write(&mut self, bytes: &[u8]) -> io::Result<usize> {
        unless_closed(self.0.write(bytes), bytes.len())
    }

    fn flush(&mut self) -> io::Result<()> {
        unless_closed(self.0.flush(), ())
    }
}

/// The result, but for a closed pipe what is given.
fn unless_closed<T>(result: io::Result<T>, given: T) -> io::Result<T> {
    match result {
        Err(error) if error.kind() == io::ErrorKind::BrokenPipe => Ok(given),
        other => other,
    }
}
