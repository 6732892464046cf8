//! What is answered: a refusal, or the fields of what was asked for.

/// refusals: the number, and the position (a block's index for 33 to 35, else 0).
#[derive(Clone, Copy, Debug, PartialEq, Eq)]
pub struct Refusal {
    pub number: u32,
    pub position: u64,
}

/// refusals: a refusal at position 0.
pub(crate) fn refuse(number: u32) -> Refusal {
    refuse_at(number, 0)
}

/// Q-10, refusals: "per block, whose index is the position".
pub(crate) fn refuse_at(number: u32, position: u64) -> Refusal {
    Refusal { number, position }
}

/// Q-10, geometry: tracks, sides and track size, which the document has at 30, 31 and 32-33.
#[derive(Clone, Copy, Debug, PartialEq, Eq)]
pub struct Geometry {
    pub tracks: u8,
    pub sides: u8,
    pub track_size: u16,
}

/// Q-10, a block: sectors, N, gap and filler, which the document has at 15, 14, 16 and 17.
#[derive(Clone, Copy, Debug, PartialEq, Eq)]
pub struct Block {
    pub sectors: u8,
    pub size_code: u8,
    pub gap: u8,
    pub filler: u8,
}

/// Q-10, a sector: "its identity, status bytes and data (of the track's N)", the data by file offset and length.
#[derive(Clone, Copy, Debug, PartialEq, Eq)]
pub struct Sector {
    pub cylinder: u8,
    pub head: u8,
    pub id: u8,
    pub size_code: u8,
    pub status1: u8,
    pub status2: u8,
    pub offset: u64,
    pub length: u64,
}
