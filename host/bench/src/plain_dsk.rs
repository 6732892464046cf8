//! Validating, asking and writing a DSK image in plain Rust, as one would write it: the yardstick. It checks all that the library checks.

use crate::plain::Refused;
use dsk::Layout;

/// Tracks, sides and track size.
type Geometry = (u8, u8, usize);

/// A sector: C, H, R, N, ST1, ST2, and the file offset and length of its data.
pub type Sector = ([u8; 6], usize, usize);

/// Refusals 30 to 35; gives the geometry.
pub fn validate(image: &[u8]) -> Result<Geometry, Refused> {
    let (tracks, sides, size) = check_header(image)?;
    let mut blocks = image[256..].chunks_exact(size).zip(0..);
    for track in 0..tracks {
        for side in 0..sides {
            let (block, index) = blocks.next().expect("the image has room for all blocks");
            check_block(block, track, side).map_err(|number| (number, index))?;
        }
    }
    Ok((tracks, sides, size))
}

fn check_header(image: &[u8]) -> Result<Geometry, Refused> {
    if !image.starts_with(b"MV - CPC") {
        return Err((30, 0));
    }
    if image.len() < 256 {
        return Err((32, 0));
    }
    let (tracks, sides) = (image[0x30], image[0x31]);
    let size = usize::from(u16::from_le_bytes([image[0x32], image[0x33]]));
    if !matches!(sides, 1 | 2) || tracks == 0 || size < 256 {
        return Err((31, 0));
    }
    if image.len() < 256 + usize::from(tracks) * usize::from(sides) * size {
        return Err((32, 0));
    }
    Ok((tracks, sides, size))
}

/// The number of the refusal of a block.
fn check_block(block: &[u8], track: u8, side: u8) -> Result<(), u32> {
    let (info, data) = block.split_at(256);
    if !info.starts_with(b"Track-Info\r\n") || info[0x10] != track || info[0x11] != side {
        return Err(33);
    }
    let (code, sectors) = (info[0x14], usize::from(info[0x15]));
    if sectors > 29 || code > 6 || info[0x18..0x18 + 8 * sectors].chunks_exact(8).any(|entry| entry[3] > code) {
        return Err(34);
    }
    if data.len() < sectors * sector_size(code) {
        return Err(35);
    }
    Ok(())
}

fn sector_size(code: u8) -> usize {
    match code {
        6 => 0x1800,
        code => 128 << code,
    }
}

/// A sector: refusals 30 to 35, 13, 14.
pub fn sector(image: &[u8], track: u32, side: u32, index: u32) -> Result<Sector, Refused> {
    let (tracks, sides, size) = validate(image)?;
    if track >= u32::from(tracks) || side >= u32::from(sides) {
        return Err((13, 0));
    }
    let (track, side, index) = (track as usize, side as usize, index as usize);
    let at = 256 + (track * usize::from(sides) + side) * size;
    let info = &image[at..at + 256];
    if index >= usize::from(info[0x15]) {
        return Err((14, 0));
    }
    let entry = 0x18 + 8 * index;
    let length = sector_size(info[0x14]);
    Ok((info[entry..entry + 6].try_into().expect("six bytes"), at + 256 + index * length, length))
}

/// Writes an image, and gives its length: refusals 41, 15.
pub fn write(creator: &[u8], layout: Layout, data: &[u8], image: &mut [u8]) -> Result<usize, Refused> {
    let Layout { tracks, sides, sectors, size_code, gap, filler } = layout;
    let wrong = !(1..=255).contains(&tracks) || !(1..=2).contains(&sides) || sectors > 29 || size_code > 5 || gap > 255 || filler > 255;
    if wrong || creator.len() != 14 {
        return Err((41, 0));
    }
    let (blocks, part) = (tracks as usize * sides as usize, sectors as usize * (128 << size_code));
    let size = 256 + part;
    if size > 0xFFFF || data.len() != blocks * part {
        return Err((41, 0));
    }
    let length = 256 + blocks * size;
    let (header, rest) = image.get_mut(..length).ok_or((15, 0))?.split_at_mut(256);
    header[..34].copy_from_slice(b"MV - CPCEMU Disk-File\r\nDisk-Info\r\n");
    header[34..48].copy_from_slice(creator);
    header[0x30] = tracks as u8;
    header[0x31] = sides as u8;
    header[0x32..0x34].copy_from_slice(&(size as u16).to_le_bytes());
    header[0x34..].fill(0);
    let mut blocks = rest.chunks_exact_mut(size);
    let mut data = data;
    for track in 0..tracks as u8 {
        for side in 0..sides as u8 {
            let (info, place) = blocks.next().expect("the image has room for all blocks").split_at_mut(256);
            write_info(info, &layout, track, side);
            let (here, later) = data.split_at(part);
            place.copy_from_slice(here);
            data = later;
        }
    }
    Ok(length)
}

fn write_info(info: &mut [u8], layout: &Layout, track: u8, side: u8) {
    let (code, sectors) = (layout.size_code as u8, layout.sectors as u8);
    info.fill(0);
    info[..12].copy_from_slice(b"Track-Info\r\n");
    info[0x10..0x18].copy_from_slice(&[track, side, 0, 0, code, sectors, layout.gap as u8, layout.filler as u8]);
    for (entry, id) in info[0x18..].chunks_exact_mut(8).zip(1..=sectors) {
        entry[..4].copy_from_slice(&[track, side, id, code]);
    }
}
