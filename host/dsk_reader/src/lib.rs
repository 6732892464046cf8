//! A plain reader and a plain writer for standard DSK disk images.
//!
//! An image is first parsed into owned structures; every question is then answered from these.
//! An image is written from its first byte to its last.
//! "Q-10" in the comments is the request to read this format, "Q-12" the one to write it, "the document" its source document 001.

#![forbid(unsafe_code)]

mod answers;
mod image;
mod questions;
mod write;

pub use answers::{Block, Geometry, Refusal, Sector};
pub use questions::{block, data, geometry, sector, validate};
pub use write::{write, Layout};
