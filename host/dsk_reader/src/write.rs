//! Writing of an image from sector data, with the refusals 41 and 15.
//!
//! No rule is shared with the reading, so that the two can be tried against each other.

use crate::answers::{refuse, Refusal};

/// "the full 34-byte opening".
const OPENING: &[u8] = b"MV - CPCEMU Disk-File\r\nDisk-Info\r\n";

/// the creator takes 14 bytes.
const CREATOR: usize = 14;

/// the name of a track block has 12 characters.
const NAME: &[u8] = b"Track-Info\r\n";

/// The document: the disc information block takes 256 bytes, and so does each track information block.
const INFORMATION: u64 = 256;

/// a sector takes 128 x 2^N bytes; Q-12: "size code 0 to 5".
const SIZES: [u64; 6] = [128, 256, 512, 1024, 2048, 4096];

/// the numbers that an image is asked for with; any of them may be wrong.
#[derive(Clone, Copy, Debug, PartialEq, Eq)]
pub struct Layout {
    pub tracks: u32,
    pub sides: u32,
    pub sectors: u32,
    pub size_code: u32,
    pub gap: u32,
    pub filler: u32,
}

/// The same numbers where none is wrong, as wide as their fields in the document.
struct Fields {
    tracks: u8,
    sides: u8,
    track_size: u16,
    sectors: u8,
    size_code: u8,
    gap: u8,
    filler: u8,
}

/// the bytes of the image; refused with 41, "then 15" where it has more bytes than there are places.
pub fn write(creator: &[u8], layout: Layout, data: &[u8], places: usize) -> Result<Vec<u8>, Refusal> {
    let size = sector_size(layout.size_code).ok_or(refuse(41))?;
    let fields = check(&layout, size).ok_or(refuse(41))?;
    if creator.len() != CREATOR || data.len() as u64 != data_length(&fields, size) {
        return Err(refuse(41));
    }
    if image_length(&fields) > places as u64 {
        return Err(refuse(15));
    }
    Ok(write_image(creator, &fields, data, size))
}

/// Q-12, refusal 41: the bytes that a sector takes; none for a code above 5.
fn sector_size(code: u32) -> Option<u64> {
    SIZES.get(usize::try_from(code).ok()?).copied()
}

/// Q-12, refusal 41: each number by itself; 0 sectors are allowed.
fn numbers_are_right(layout: &Layout) -> bool {
    let tracks = 1 <= layout.tracks && layout.tracks <= 255;
    let sides = layout.sides == 1 || layout.sides == 2;
    tracks && sides && layout.sectors <= 29 && layout.gap <= 255 && layout.filler <= 255
}

/// Q-12, refusal 41: the fields of right numbers; none if the track size, 256 plus the data, "is above 65,535".
fn check(layout: &Layout, size: u64) -> Option<Fields> {
    if !numbers_are_right(layout) {
        return None;
    }
    let track_size = INFORMATION + u64::from(layout.sectors) * size;
    Some(Fields {
        tracks: u8::try_from(layout.tracks).ok()?,
        sides: u8::try_from(layout.sides).ok()?,
        track_size: u16::try_from(track_size).ok()?,
        sectors: u8::try_from(layout.sectors).ok()?,
        size_code: u8::try_from(layout.size_code).ok()?,
        gap: u8::try_from(layout.gap).ok()?,
        filler: u8::try_from(layout.filler).ok()?,
    })
}

/// The blocks of an image: one for each side of each track.
fn blocks(fields: &Fields) -> u64 {
    u64::from(fields.tracks) * u64::from(fields.sides)
}

/// Q-12, refusal 41: the length that the data must have.
fn data_length(fields: &Fields, size: u64) -> u64 {
    blocks(fields) * u64::from(fields.sectors) * size
}

/// an image takes "256 + tracks x sides x track size".
fn image_length(fields: &Fields) -> u64 {
    INFORMATION + blocks(fields) * u64::from(fields.track_size)
}

/// The document: the disc information block, then the track blocks, by track, and by side within a track.
fn write_image(creator: &[u8], fields: &Fields, data: &[u8], size: u64) -> Vec<u8> {
    let mut image = disc_information(creator, fields);
    let mut rest = data.iter();
    for track in 0..fields.tracks {
        for side in 0..fields.sides {
            image.extend(track_information(fields, track, side));
            for _ in 0..u64::from(fields.sectors) * size {
                image.extend(rest.next());
            }
        }
    }
    image
}

/// The document, Disc Information block: opening, creator, tracks, sides, track size with its low byte first.
fn disc_information(creator: &[u8], fields: &Fields) -> Vec<u8> {
    let mut bytes = Vec::new();
    bytes.extend(OPENING);
    bytes.extend(creator);
    bytes.push(fields.tracks);
    bytes.push(fields.sides);
    bytes.extend(fields.track_size.to_le_bytes());
    fill_up(&mut bytes, INFORMATION);
    bytes
}

/// The document, Track Information Block: name, numbers from 10 and from 14 on, and the list from 18 on.
fn track_information(fields: &Fields, track: u8, side: u8) -> Vec<u8> {
    let mut bytes = Vec::new();
    bytes.extend(NAME);
    fill_up(&mut bytes, 0x10);
    bytes.push(track);
    bytes.push(side);
    fill_up(&mut bytes, 0x14);
    bytes.push(fields.size_code);
    bytes.push(fields.sectors);
    bytes.push(fields.gap);
    bytes.push(fields.filler);
    for id in 1..=fields.sectors {
        bytes.extend(sector_info(track, side, id, fields.size_code));
    }
    fill_up(&mut bytes, INFORMATION);
    bytes
}

/// The document, Sector info: C, H, R, N; the two status bytes and the two that are not used are 0.
fn sector_info(track: u8, side: u8, id: u8, size_code: u8) -> [u8; 8] {
    [track, side, id, size_code, 0, 0, 0, 0]
}

/// "All other bytes are 0": those up to a place.
fn fill_up(bytes: &mut Vec<u8>, place: u64) {
    while (bytes.len() as u64) < place {
        bytes.push(0);
    }
}
