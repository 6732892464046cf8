//! Parsing of a whole image into owned structures, with the refusals 30 to 35, 13 and 14.

use std::collections::BTreeMap;

use crate::answers::{refuse, refuse_at, Block, Geometry, Refusal, Sector};

/// an image "opens with" these 8 characters.
const SIGN: &[u8] = b"MV - CPC";

/// each track block has this name, "12 characters; the table's 13 is a miscount".
const NAME: &[u8] = b"Track-Info\r\n";

/// The document: the disc information block takes 256 bytes, and so does each track information block.
const INFORMATION: u64 = 256;

/// "at most 29 sectors".
const MOST_SECTORS: u8 = 29;

/// The document: the sector information list begins at 18 (hexadecimal) in the block.
const LIST: u64 = 0x18;

/// The document: an entry of the sector information list takes 8 bytes.
const ENTRY: u64 = 8;

/// a sector takes 128 x 2^N bytes for the codes 0 to 5, "and for code 6 only 0x1800".
const SIZES: [u64; 7] = [128, 256, 512, 1024, 2048, 4096, 0x1800];

/// An image that none of 30 to 35 refuses, taken apart; blocks are found by track and side.
pub(crate) struct Image {
    pub(crate) geometry: Geometry,
    pub(crate) blocks: BTreeMap<(u32, u32), TrackBlock>,
}

/// The document: a track block has its track information block and its sectors.
pub(crate) struct TrackBlock {
    pub(crate) block: Block,
    pub(crate) sectors: Vec<SectorData>,
}

/// The document: a sector has an entry in the list, and data, which are owned here.
pub(crate) struct SectorData {
    pub(crate) sector: Sector,
    pub(crate) bytes: Vec<u8>,
}

impl Image {
    /// Q-10, refusals: 30, 32 below 256 bytes, 31, 32 for the whole, then the blocks.
    pub(crate) fn parse(image: &[u8]) -> Result<Image, Refusal> {
        if !image.starts_with(SIGN) {
            return Err(refuse(30));
        }
        let information = stretch(image, 0, INFORMATION).ok_or(refuse(32))?;
        let geometry = read_geometry(information).ok_or(refuse(32))?;
        if !geometry_is_right(&geometry) {
            return Err(refuse(31));
        }
        if (image.len() as u64) < whole(&geometry) {
            return Err(refuse(32));
        }
        let blocks = parse_blocks(image, &geometry)?;
        Ok(Image { geometry, blocks })
    }

    /// Q-10, refusals: "13 for a track or side [...] that is not there".
    pub(crate) fn block(&self, track: u32, side: u32) -> Result<&TrackBlock, Refusal> {
        self.blocks.get(&(track, side)).ok_or(refuse(13))
    }
}

impl TrackBlock {
    /// Q-10, refusals: "14 for a sector that is not there"; it is asked for "by its index in its block".
    pub(crate) fn sector(&self, index: u32) -> Result<&SectorData, Refusal> {
        let index = usize::try_from(index).map_err(|_| refuse(14))?;
        self.sectors.get(index).ok_or(refuse(14))
    }
}

/// The bytes of a stretch given by start and length, if all of them are there.
fn stretch(bytes: &[u8], start: u64, length: u64) -> Option<&[u8]> {
    let end = start.checked_add(length)?;
    bytes.get(usize::try_from(start).ok()?..usize::try_from(end).ok()?)
}

/// The byte at a place, if it is there.
fn byte(bytes: &[u8], place: u64) -> Option<u8> {
    bytes.get(usize::try_from(place).ok()?).copied()
}

/// The document: the fields of the disc information block; the track size has its low byte first.
fn read_geometry(information: &[u8]) -> Option<Geometry> {
    Some(Geometry {
        tracks: byte(information, 0x30)?,
        sides: byte(information, 0x31)?,
        track_size: u16::from_le_bytes([byte(information, 0x32)?, byte(information, 0x33)?]),
    })
}

/// Q-10, refusal 31: "1 or 2 sides and at least one track, a track size of at least 256".
fn geometry_is_right(geometry: &Geometry) -> bool {
    let sides = geometry.sides == 1 || geometry.sides == 2;
    sides && geometry.tracks >= 1 && geometry.track_size >= 256
}

/// Q-10, refusal 32: "room for 256 + tracks x sides x track size"; more is allowed.
fn whole(geometry: &Geometry) -> u64 {
    let blocks = u64::from(geometry.tracks) * u64::from(geometry.sides);
    INFORMATION + blocks * u64::from(geometry.track_size)
}

/// The document: the blocks follow one another, by track, and by side within a track.
fn parse_blocks(image: &[u8], geometry: &Geometry) -> Result<BTreeMap<(u32, u32), TrackBlock>, Refusal> {
    let size = u64::from(geometry.track_size);
    let mut blocks = BTreeMap::new();
    let mut index = 0;
    for track in 0..geometry.tracks {
        for side in 0..geometry.sides {
            let place = INFORMATION + index * size;
            let bytes = stretch(image, place, size).ok_or(refuse(32))?;
            let parsed = parse_block(bytes, place, track, side);
            let parsed = parsed.map_err(|number| refuse_at(number, index))?;
            blocks.insert((u32::from(track), u32::from(side)), parsed);
            index += 1;
        }
    }
    Ok(blocks)
}

/// Q-10, refusals: of one block 33, then 34, then 35; the number alone, as the caller knows the position.
fn parse_block(bytes: &[u8], place: u64, track: u8, side: u8) -> Result<TrackBlock, u32> {
    if !is_named(bytes, track, side) {
        return Err(33);
    }
    let block = read_block(bytes).ok_or(34_u32)?;
    let size = size(block.size_code).ok_or(34_u32)?;
    let entries = read_entries(bytes, &block).ok_or(34_u32)?;
    let sectors = read_sectors(bytes, place, &entries, size).ok_or(35_u32)?;
    Ok(TrackBlock { block, sectors })
}

/// Q-10, refusal 33: the block has the name and "its own track and side numbers".
fn is_named(bytes: &[u8], track: u8, side: u8) -> bool {
    bytes.starts_with(NAME) && byte(bytes, 0x10) == Some(track) && byte(bytes, 0x11) == Some(side)
}

/// The document: the fields of the track information block.
fn read_block(bytes: &[u8]) -> Option<Block> {
    Some(Block { sectors: byte(bytes, 0x15)?, size_code: byte(bytes, 0x14)?, gap: byte(bytes, 0x16)?, filler: byte(bytes, 0x17)? })
}

/// the bytes that a sector takes by the block's code; none for a code above 6.
fn size(code: u8) -> Option<u64> {
    SIZES.get(usize::from(code)).copied()
}

/// Q-10, refusal 34: the first "number of sectors" entries; none if there are over 29, or one has "a larger code".
fn read_entries(bytes: &[u8], block: &Block) -> Option<Vec<[u8; 8]>> {
    if block.sectors > MOST_SECTORS {
        return None;
    }
    let mut entries = Vec::new();
    for index in 0..u64::from(block.sectors) {
        let entry: [u8; 8] = stretch(bytes, LIST + ENTRY * index, ENTRY)?.try_into().ok()?;
        let [_, _, _, code, ..] = entry;
        if code > block.size_code {
            return None;
        }
        entries.push(entry);
    }
    Some(entries)
}

/// Q-10, refusal 35: the sectors with their data, in the order of the list; none if they do "not fit".
fn read_sectors(bytes: &[u8], place: u64, entries: &[[u8; 8]], size: u64) -> Option<Vec<SectorData>> {
    let mut sectors = Vec::new();
    let mut start = INFORMATION;
    for entry in entries {
        let data = stretch(bytes, start, size)?;
        sectors.push(SectorData { sector: read_sector(entry, place + start, size), bytes: data.to_vec() });
        start += size;
    }
    Some(sectors)
}

/// The document, Sector info: C, H, R, N, ST1 and ST2 in this order; the last two bytes are not used.
fn read_sector(entry: &[u8; 8], offset: u64, length: u64) -> Sector {
    let [cylinder, head, id, size_code, status1, status2, _, _] = *entry;
    Sector { cylinder, head, id, size_code, status1, status2, offset, length }
}
