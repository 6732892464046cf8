//! What the bytes of a DSK image say, accepted or not: for reasons, and for images that are refused.

use dsk::{Block, Geometry, Sector};

use crate::parts;

/// What an image opens with.
pub const SIGN: [u8; 8] = *b"MV - CPC";

/// What a block opens with; the text of the format counts 13 characters, but they are 12.
pub const NAME: [u8; 12] = *b"Track-Info\r\n";

/// How many bytes stand before the blocks, and in a block before its data.
pub const INFORMATION: u64 = 256;

/// How many sectors a block has at most: as many as its list has room for.
pub const MOST_SECTORS: u8 = 29;

/// The greatest size code of a block.
pub const GREATEST_CODE: u8 = 6;

/// The greatest size code whose sectors are stored whole, and that an image is made with.
pub const GREATEST_WHOLE: u8 = 5;

/// How many bytes of data a sector has by the size code of its block; nothing for a code that no block may have.
pub fn sector_size(code: u8) -> Option<u64> {
    match code {
        0..=GREATEST_WHOLE => Some(full_size(code)),
        // Of 8,192 bytes only so many are stored.
        GREATEST_CODE => Some(0x1800),
        _ => None,
    }
}

/// How many bytes a sector has on the disk by a size code up to the greatest.
pub fn full_size(code: impl Into<u32>) -> u64 {
    128 << code.into()
}

/// Where a block is.
#[derive(Clone, Copy)]
pub struct Place {
    /// Its index, which is the position of a refusal.
    pub index: u64,
    /// The track that it is to be of.
    pub track: u8,
    /// The side that it is to be of.
    pub side: u8,
    /// The file offset of its first byte.
    pub start: u64,
    /// The file offset of the next block.
    pub end: u64,
}

impl Place {
    /// The places of all blocks, in order; the geometry is a right one.
    pub fn all(geometry: Geometry) -> impl Iterator<Item = Place> {
        let size = u64::from(geometry.track_size);
        let blocks = (0..geometry.tracks).flat_map(move |track| (0..geometry.sides).map(move |side| (track, side)));
        (0..).zip(blocks).map(move |(index, (track, side))| {
            let start = INFORMATION + index * size;
            Place { index, track, side, start, end: start + size }
        })
    }

    /// Where its track number stands; its side number comes next.
    pub fn numbers(&self) -> u64 {
        self.start + 0x10
    }

    /// Where its size code stands; the number of its sectors comes next.
    pub fn code(&self) -> u64 {
        self.start + 0x14
    }

    /// Where the entry of a sector stands.
    pub fn entry(&self, index: u8) -> u64 {
        self.start + 0x18 + 8 * u64::from(index)
    }

    /// Where its data start.
    pub fn data(&self) -> u64 {
        self.start + INFORMATION
    }
}

/// The bytes of any file, read as those of an image.
#[derive(Clone, Copy)]
pub struct Layout<'a>(pub &'a [u8]);

impl<'a> Layout<'a> {
    /// As many bytes from an offset on, where the file has them.
    pub fn array<const N: usize>(self, offset: u64) -> Option<[u8; N]> {
        parts::array(self.0, offset)
    }

    /// How many bytes the file has.
    pub fn len(self) -> u64 {
        self.0.len() as u64
    }

    /// Tracks, sides and track size, right or wrong.
    pub fn geometry(self) -> Option<Geometry> {
        let [tracks, sides, low, high] = self.array(0x30)?;
        Some(Geometry { tracks, sides, track_size: u16::from_le_bytes([low, high]) })
    }

    /// The same if they are right, so that there are blocks.
    pub fn right_geometry(self) -> Option<Geometry> {
        let right = |found: &Geometry| matches!(found.sides, 1 | 2) && found.tracks > 0 && u64::from(found.track_size) >= INFORMATION;
        self.geometry().filter(right)
    }

    /// The track and side that a block says it is of.
    pub fn numbers(self, place: &Place) -> Option<[u8; 2]> {
        self.array(place.numbers())
    }

    /// The fields of a block.
    pub fn block(self, place: &Place) -> Option<Block> {
        let [size_code, sectors, gap, filler] = self.array(place.code())?;
        Some(Block { sectors, size_code, gap, filler })
    }

    /// The sectors of a block, as many as its list may have; those of a code that no block may have are without data.
    pub fn sectors(self, place: &Place, block: &Block) -> Vec<Sector> {
        let length = sector_size(block.size_code).unwrap_or(0);
        let sector = |index: u8| {
            let [cylinder, head, id, size_code, status1, status2] = self.array(place.entry(index))?;
            let offset = place.data() + u64::from(index) * length;
            Some(Sector { cylinder, head, id, size_code, status1, status2, offset, length })
        };
        (0..block.sectors.min(MOST_SECTORS)).map_while(sector).collect()
    }
}
