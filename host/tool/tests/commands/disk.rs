//! The commands for DSK images.

mod list;
mod make;
mod reasons;
mod sector;
mod show;
mod validate;

use scp_compare::dsk_image::{BlockPart, Ground, Parts, OPENING};
use scp_compare::random::Random;

/// An entry of a sector: C, H, R, N, ST1 and ST2.
pub type Entry = [u8; 6];

/// The example with changes: bytes from an offset on. Its blocks are at 256, 768, 1280 and 1792.
pub fn edited(edits: &[(usize, &[u8])]) -> Vec<u8> {
    let mut image = dsk::example::image();
    for (offset, bytes) in edits {
        image[*offset..offset + bytes.len()].copy_from_slice(bytes);
    }
    image
}

/// An image of blocks that have the same size, code and list of sectors; gap and filler are their track and side, what no rule looks at
/// any bytes.
pub fn image((tracks, sides, track_size): (u8, u8, u16), size_code: u8, entries: &[Entry]) -> Vec<u8> {
    let entries: Vec<[u8; 8]> = entries.iter().map(|&[c, h, r, n, st1, st2]| [c, h, r, n, st1, st2, 0xDA, 0xDA]).collect();
    let numbers = (0..tracks).flat_map(|track| (0..sides).map(move |side| (track, side)));
    let blocks = numbers.map(|(gap, filler)| BlockPart { size_code, gap, filler, entries: entries.clone() }).collect();
    let parts = Parts { opening: OPENING.to_vec(), tracks, sides, track_size, blocks, ground: Ground::Noise, trailer: 0 };
    parts.build(&mut Random::new(0))
}
