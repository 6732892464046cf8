//! What the questions answer, each with how it is made of the numbers that the archive gives.

/// The geometry of the image.
#[derive(Clone, Copy, Debug, PartialEq, Eq)]
pub struct Geometry {
    /// How many tracks it has, 1 to 255.
    pub tracks: u8,
    /// How many sides it has, 1 or 2.
    pub sides: u8,
    /// The bytes that each block takes, 256 or more.
    pub track_size: u16,
}

impl Geometry {
    /// A geometry of its 3 numbers.
    pub(crate) fn of_numbers([tracks, sides, track_size]: [u64; 3]) -> Geometry {
        Geometry { tracks: tracks as u8, sides: sides as u8, track_size: track_size as u16 }
    }
}

/// A block of the image.
#[derive(Clone, Copy, Debug, PartialEq, Eq)]
pub struct Block {
    /// How many sectors it has, 0 to 29.
    pub sectors: u8,
    /// Its size code N, 0 to 6: a sector's data take 128 x 2^N bytes, and for 6 only 0x1800.
    pub size_code: u8,
    /// The length of GAP#3, any.
    pub gap: u8,
    /// The filler byte, any.
    pub filler: u8,
}

impl Block {
    /// A block of its 4 numbers.
    pub(crate) fn of_numbers(out: [u64; 4]) -> Block {
        let [sectors, size_code, gap, filler] = out.map(|number| number as u8);
        Block { sectors, size_code, gap, filler }
    }
}

/// A sector of a block.
#[derive(Clone, Copy, Debug, PartialEq, Eq)]
pub struct Sector {
    /// C of its identity, any.
    pub cylinder: u8,
    /// H of its identity, any.
    pub head: u8,
    /// R of its identity, any.
    pub id: u8,
    /// N of its identity, at most that of its block.
    pub size_code: u8,
    /// The status byte ST1, any.
    pub status1: u8,
    /// The status byte ST2, any.
    pub status2: u8,
    /// The file offset of its data.
    pub offset: u64,
    /// How many bytes of data it has, by the size code of its block.
    pub length: u64,
}

impl Sector {
    /// A sector of its 8 numbers.
    pub(crate) fn of_numbers(out: [u64; 8]) -> Sector {
        let [cylinder, head, id, size_code, status1, status2] = std::array::from_fn(|i| out[i] as u8);
        Sector { cylinder, head, id, size_code, status1, status2, offset: out[6], length: out[7] }
    }
}
