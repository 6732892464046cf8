//! What the reader answers: a refusal, or the fields of what was asked for.

/// The rules, Numbers of refusal: the number 1 to 19, and the position (0 where none is named).
#[derive(Clone, Copy, Debug, PartialEq, Eq)]
pub struct Refusal {
    pub number: u32,
    pub position: u64,
}

/// The rules, Numbers of refusal: a refusal at position 0.
pub(crate) fn refuse(number: u32) -> Refusal {
    refuse_at(number, 0)
}

/// The rules, Numbers of refusal: a refusal at a string number, track index or index of a time.
pub(crate) fn refuse_at(number: u32, position: u64) -> Refusal {
    Refusal { number, position }
}

/// The rules, Layout: the header as stored, without the sign, the reserved byte and the table.
#[derive(Clone, Copy, Debug, PartialEq, Eq)]
pub struct Header {
    pub version: u8,
    pub disk: u8,
    pub revolutions: u8,
    pub start: u8,
    pub end: u8,
    pub flags: u8,
    pub width: u8,
    pub heads: u8,
    pub checksum: u32,
}

/// The rules, Layout: the footer's six string offsets, two times and four version bytes.
#[derive(Clone, Copy, Debug, PartialEq, Eq)]
pub struct Footer {
    /// Maker, model, serial, creator, application, comments; 0 = absent.
    pub offsets: [u32; 6],
    pub created: i64,
    pub modified: i64,
    pub versions: [u8; 4],
}

/// The rules, Layout: a present track; cylinder is number / 2, head the remainder.
#[derive(Clone, Copy, Debug, PartialEq, Eq)]
pub struct Track {
    pub cylinder: u32,
    pub head: u32,
    pub place: u64,
    pub revolutions: u32,
}

/// The rules, Flux and time: a present revolution with its duration, word count and place.
#[derive(Clone, Copy, Debug, PartialEq, Eq)]
pub struct Revolution {
    pub duration: u32,
    pub words: u32,
    pub place: u64,
}

/// The rules, Flux and time: one step of the reader of intervals.
#[derive(Clone, Copy, Debug, PartialEq, Eq)]
pub struct Step {
    pub interval: Option<u64>,
    pub open: u64,
    /// the number of the word that closed the interval, from 0 within the flux.
    pub closing: Option<u64>,
    pub next: u64,
}
