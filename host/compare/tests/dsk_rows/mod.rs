//! The sectors of a DSK image in a row each, by the library and by the reader.

use dsk_reader as reader;
use scp_compare::dsk_image::file_order;

/// A sector: track, side and index, then C, H, R and N, and the length and the FNV-1a of its data.
#[derive(Clone, Copy, Debug, PartialEq, Eq, PartialOrd, Ord)]
pub struct Row {
    pub at: [u32; 3],
    pub identity: [u8; 4],
    pub length: u64,
    pub hash: u64,
}

/// FNV-1a of 64 bits.
pub fn fnv1a(bytes: &[u8]) -> u64 {
    bytes.iter().fold(0xCBF2_9CE4_8422_2325, |hash, &byte| (hash ^ u64::from(byte)).wrapping_mul(0x0000_0100_0000_01B3))
}

/// Each sector of an image of so many tracks and sides, and of as many sectors as a block is said to have.
fn each<T>([tracks, sides]: [u8; 2], sectors: impl Fn(u32, u32) -> u8, row: impl Fn([u32; 3]) -> T) -> Vec<T> {
    let blocks = file_order(tracks, sides).map(|(track, side)| (track.into(), side.into()));
    blocks.flat_map(|(track, side)| (0..sectors(track, side).into()).map(move |index| [track, side, index])).map(row).collect()
}

/// The sectors by the library.
pub fn by_library(image: &[u8]) -> Vec<Row> {
    let found = dsk::geometry(image).unwrap();
    let row = |at: [u32; 3]| {
        let [track, side, index] = at;
        let sector = dsk::sector(image, track, side, index).unwrap();
        let identity = [sector.cylinder, sector.head, sector.id, sector.size_code];
        Row { at, identity, length: sector.length, hash: fnv1a(dsk::data(image, track, side, index).unwrap()) }
    };
    each([found.tracks, found.sides], |track, side| dsk::block(image, track, side).unwrap().sectors, row)
}

/// The sectors by the reader.
pub fn by_reader(image: &[u8]) -> Vec<Row> {
    let found = reader::geometry(image).unwrap();
    let row = |at: [u32; 3]| {
        let [track, side, index] = at;
        let sector = reader::sector(image, track, side, index).unwrap();
        let identity = [sector.cylinder, sector.head, sector.id, sector.size_code];
        Row { at, identity, length: sector.length, hash: fnv1a(&reader::data(image, track, side, index).unwrap()) }
    };
    each([found.tracks, found.sides], |track, side| reader::block(image, track, side).unwrap().sectors, row)
}
