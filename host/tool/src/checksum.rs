//! The stored checksum of an image and the sum that its bytes have.

use std::fmt;
use std::io::{self, Write};

use scp::{Edition, Refusal};

use crate::layout::Layout;

/// The checksum of an image, and whether it is as it must be.
pub struct Checksum {
    /// The one in the header.
    pub stored: u32,
    /// The sum of the bytes, modulo 2^32.
    pub sum: u32,
    /// Whether the image is read/write: it must store 0 then.
    pub read_write: bool,
    /// Whether the image is sound, so that it validates.
    pub sound: bool,
}

impl Checksum {
    /// The checksum of an image that opens.
    pub fn of(image: &[u8], edition: Edition) -> Result<Checksum, Refusal> {
        let header = scp::header(image, edition)?;
        let (sum, sound) = (Layout { bytes: image, edition }.sum(), scp::validate(image, edition).is_ok());
        Ok(Checksum { stored: header.checksum, sum, read_write: header.is_read_write(), sound })
    }

    /// The checksum of an image that opens by some edition; all have the same rule for it.
    pub fn of_any(image: &[u8]) -> Option<Checksum> {
        Edition::ALL.into_iter().find_map(|edition| Checksum::of(image, edition).ok())
    }
}

impl fmt::Display for Checksum {
    fn fmt(&self, f: &mut fmt::Formatter<'_>) -> fmt::Result {
        let state = if self.sound { "sound" } else { "damaged" };
        match self.read_write {
            true => write!(f, "stored {}, on a read/write image 0 is due: {state} (true sum {})", self.stored, self.sum),
            false => write!(f, "stored {}, true sum {}: {state}", self.stored, self.sum),
        }
    }
}

/// Says what became of the checksum, and of damage that was there before.
pub fn say_change(out: &mut dyn Write, before: &Checksum, after: &Checksum) -> io::Result<()> {
    writeln!(out, "checksum {} -> {}", before.stored, after.stored)?;
    if !before.sound {
        writeln!(out, "the image was damaged before: {before}")?;
    }
    match (before.sound, after.sound) {
        (false, false) => writeln!(out, "and it still is: {after}"),
        (true, false) => writeln!(out, "the image is damaged now: {after}"),
        _ => Ok(()),
    }
}
