//! DSK images from parts: what the parts are, and how they are laid out.

use crate::image::set;
use crate::random::Random;

/// How long the disc information block is, and each track information block.
pub const INFORMATION: usize = 256;

/// What an image starts with, and what each block does.
pub const SIGN: &[u8] = b"MV - CPC";
pub const OPENING: &[u8] = b"MV - CPCEMU Disk-File\r\nDisk-Info\r\n";
pub const NAME: &[u8] = b"Track-Info\r\n";

/// Where the disc information block has its fields.
pub const TRACKS: usize = 0x30;
pub const SIDES: usize = 0x31;
pub const TRACK_SIZE: usize = 0x32;

/// Where a block has its fields: track, then side; size code, sectors, gap and filler.
pub const NUMBERS: usize = 0x10;
pub const SIZE_CODE: usize = 0x14;
pub const SECTORS: usize = 0x15;

/// Where a block has the size code of a sector.
pub fn sector_code_at(index: usize) -> usize {
    0x18 + 8 * index + 3
}

/// How many bytes a sector takes by the code of its block.
pub fn sector_size(code: u8) -> usize {
    if code == 6 {
        0x1800
    } else {
        128 << code
    }
}

/// How many bytes a block takes.
pub fn block_size(code: u8, sectors: usize) -> usize {
    INFORMATION + sectors * sector_size(code)
}

/// A block: its size code, gap and filler, and the list of its sectors.
#[derive(Clone)]
pub struct BlockPart {
    pub size_code: u8,
    pub gap: u8,
    pub filler: u8,
    pub entries: Vec<[u8; 8]>,
}

impl BlockPart {
    /// A block of so many sectors as tools write it: R from 1 on, the block's own code, no status.
    pub fn plain(track: u8, side: u8, size_code: u8, sectors: u8) -> BlockPart {
        let entries = (1..=sectors).map(|id| [track, side, id, size_code, 0, 0, 0, 0]).collect();
        BlockPart { size_code, gap: 0x4E, filler: 0xE5, entries }
    }

    /// How many bytes it takes.
    pub fn size(&self) -> usize {
        block_size(self.size_code, self.entries.len())
    }
}

/// What stands where no part has its bytes.
#[derive(Clone, Copy, PartialEq)]
pub enum Ground {
    /// Any bytes.
    Noise,
    /// Any bytes in the data and after the blocks, else zeros.
    Clean,
    /// Zeros.
    Zeros,
}

/// All parts of an image; the blocks in the order of the file.
#[derive(Clone)]
pub struct Parts {
    pub opening: Vec<u8>,
    pub tracks: u8,
    pub sides: u8,
    pub track_size: u16,
    pub blocks: Vec<BlockPart>,
    pub ground: Ground,
    /// How many bytes come after the last block.
    pub trailer: usize,
}

impl Parts {
    /// An image of this geometry with the same plain block for every track and side, and nothing after the last.
    pub fn plain(tracks: u8, sides: u8, track_size: u16, (size_code, sectors): (u8, u8)) -> Parts {
        let blocks = file_order(tracks, sides).map(|(track, side)| BlockPart::plain(track, side, size_code, sectors)).collect();
        Parts { opening: OPENING.to_vec(), tracks, sides, track_size, blocks, ground: Ground::Clean, trailer: 0 }
    }

    /// Where the block of an index starts.
    pub fn block_at(&self, index: usize) -> usize {
        INFORMATION + index * usize::from(self.track_size)
    }

    /// The image. Data that do not fit in their block are cut off.
    pub fn build(&self, random: &mut Random) -> Vec<u8> {
        let size = self.block_at(self.blocks.len()) + self.trailer;
        let mut image = if self.ground == Ground::Zeros { vec![0; size] } else { random.bytes(size) };
        let [low, high] = self.track_size.to_le_bytes();
        self.sweep(&mut image, 0);
        set(&mut image, 0, &self.opening);
        set(&mut image, TRACKS, &[self.tracks, self.sides, low, high]);
        for (index, block) in self.blocks.iter().enumerate() {
            let place = self.block_at(index);
            let sides = usize::from(self.sides);
            self.sweep(&mut image, place);
            set(&mut image, place, NAME);
            set(&mut image, place + NUMBERS, &[(index / sides) as u8, (index % sides) as u8]);
            set(&mut image, place + SIZE_CODE, &[block.size_code, block.entries.len() as u8, block.gap, block.filler]);
            set(&mut image, place + 0x18, block.entries.as_flattened());
        }
        image
    }

    /// Clears the information block at a place, if unused bytes are to be zeros.
    fn sweep(&self, image: &mut [u8], place: usize) {
        if self.ground == Ground::Clean {
            set(image, place, &[0; INFORMATION]);
        }
    }
}

/// Track and side of each block, in the order of the file.
pub fn file_order(tracks: u8, sides: u8) -> impl Iterator<Item = (u8, u8)> {
    (0..tracks).flat_map(move |track| (0..sides).map(move |side| (track, side)))
}

/// A byte of the image, 0 where it is not there.
fn byte_at(image: &[u8], place: usize) -> usize {
    image.get(place).copied().unwrap_or(0).into()
}

/// Tracks, sides and track size as the image has them.
pub fn geometry(image: &[u8]) -> [usize; 3] {
    let byte = |place| byte_at(image, place);
    [byte(TRACKS), byte(SIDES), byte(TRACK_SIZE) + 256 * byte(TRACK_SIZE + 1)]
}

/// How many bytes the image is to have by its geometry.
pub fn whole(image: &[u8]) -> usize {
    let [tracks, sides, track_size] = geometry(image);
    INFORMATION + tracks * sides * track_size
}

/// How many sectors the block of a track and side seems to have.
pub fn sectors(image: &[u8], track: u32, side: u32) -> u32 {
    let [tracks, sides, track_size] = geometry(image);
    let (track, side) = (track as usize, side as usize);
    if track >= tracks || side >= sides {
        return 0;
    }
    byte_at(image, INFORMATION + (track * sides + side) * track_size + SECTORS) as u32
}
