//! How a command ends without success.

use std::io;

/// Why a command ends without success; the exit status is the discriminant.
#[derive(Clone, Copy, Debug, PartialEq, Eq, PartialOrd, Ord)]
#[repr(u8)]
pub enum Status {
    /// An image is refused, or images differ.
    Refused = 1,
    /// The command line is wrong, or a line of a text that it names.
    Usage,
    /// A file cannot be read, or cannot or may not be written.
    File,
}

/// How a command ends without success.
#[derive(Debug)]
pub enum Failure {
    /// Why, and what standard error says of it.
    Told(Status, String),
    /// Why; standard output says it already.
    Said(Status),
}

impl Failure {
    /// An image is refused.
    pub fn refused(message: impl Into<String>) -> Failure {
        Failure::Told(Status::Refused, message.into())
    }

    /// The command line, or a line of a text that it names, is wrong.
    pub fn usage(message: impl Into<String>) -> Failure {
        Failure::Told(Status::Usage, message.into())
    }

    /// A file cannot be read, or cannot or may not be written.
    pub fn file(message: impl Into<String>) -> Failure {
        Failure::Told(Status::File, message.into())
    }
}

impl From<io::Error> for Failure {
    /// Only writing to standard output fails without a file's name.
    fn from(error: io::Error) -> Failure {
        Failure::file(format!("standard output: {error}"))
    }
}
