//! Standard DSK disk images, by the proved library.
//!
//! Every call on an image takes its bytes and judges it anew; it answers for every image and every argument. [`write`] makes a new image of
//! the data of its sectors. A [`Refusal`] has one of 10 numbers and a position. Nothing here copies an image.
//!
//! A block is what the image has of one side of one track. Tracks, sides, and sectors in their block count from 0.
//!
//! ```
//! # let image = dsk::example::image();
//! dsk::validate(&image)?;
//! let geometry = dsk::geometry(&image)?;
//! assert_eq!((geometry.tracks, geometry.sides, geometry.track_size), (2, 2, 512));
//!
//! let sector = dsk::sector(&image, 1, 0, 1)?;
//! assert_eq!((sector.cylinder, sector.head, sector.id, sector.size_code), (1, 0, 0xC2, 0));
//! assert_eq!(dsk::data(&image, 1, 0, 1)?, &image[1664..1792]);
//! # Ok::<(), dsk::Refusal>(())
//! ```
#![deny(unsafe_code)]
#![warn(missing_docs)]

mod answers;
pub mod example;
mod layout;
#[allow(unsafe_code)]
pub mod raw;
mod refusal;

pub use answers::{Block, Geometry, Sector};
pub use layout::Layout;
pub use refusal::{Reason, Refusal};

/// Whether the image obeys the rules: refusals 30 to 35.
///
/// ```
/// let mut image = dsk::example::image();
/// assert_eq!(dsk::validate(&image), Ok(()));
/// image[256 + 3 * 512] += 1; // in the name of the last block
/// let refusal = dsk::validate(&image).unwrap_err();
/// assert_eq!((refusal.reason, refusal.position), (dsk::Reason::Block, 3));
/// assert_eq!(dsk::validate(&[]).unwrap_err().reason.number(), 30);
/// ```
pub fn validate(image: &[u8]) -> Result<(), Refusal> {
    Refusal::of_code(raw::validate(image))
}

/// How many tracks and sides the image has, and the size of its blocks.
///
/// ```
/// let geometry = dsk::geometry(&dsk::example::image())?;
/// assert_eq!((geometry.tracks, geometry.sides, geometry.track_size), (2, 2, 512));
/// # Ok::<(), dsk::Refusal>(())
/// ```
pub fn geometry(image: &[u8]) -> Result<Geometry, Refusal> {
    let mut out = [0; 3];
    Refusal::of_code(raw::geometry(image, &mut out))?;
    Ok(Geometry::of_numbers(out))
}

/// The block of a track and side.
///
/// ```
/// let block = dsk::block(&dsk::example::image(), 1, 1)?;
/// assert_eq!((block.sectors, block.size_code, block.gap, block.filler), (2, 0, 0x4E, 0xE5));
/// assert_eq!(dsk::block(&dsk::example::image(), 1, 2).unwrap_err().reason, dsk::Reason::Absent);
/// # Ok::<(), dsk::Refusal>(())
/// ```
pub fn block(image: &[u8], track: u32, side: u32) -> Result<Block, Refusal> {
    let mut out = [0; 4];
    Refusal::of_code(raw::block(image, track, side, &mut out))?;
    Ok(Block::of_numbers(out))
}

/// A sector, by its index in its block.
///
/// ```
/// let sector = dsk::sector(&dsk::example::image(), 0, 1, 1)?;
/// assert_eq!((sector.cylinder, sector.head, sector.id, sector.size_code), (0, 1, 0xC2, 0));
/// assert_eq!((sector.status1, sector.status2, sector.offset, sector.length), (0x20, 0x40, 1152, 128));
/// let refusal = dsk::sector(&dsk::example::image(), 0, 1, 2).unwrap_err();
/// assert_eq!(refusal.to_string(), "refused 14 (Sector) at 0: the sector asked for is not in the image");
/// # Ok::<(), dsk::Refusal>(())
/// ```
pub fn sector(image: &[u8], track: u32, side: u32, index: u32) -> Result<Sector, Refusal> {
    let mut out = [0; 8];
    Refusal::of_code(raw::sector(image, track, side, index, &mut out))?;
    Ok(Sector::of_numbers(out))
}

/// The data of a sector, as that part of the image.
///
/// ```
/// let image = dsk::example::image();
/// assert_eq!(dsk::data(&image, 0, 1, 0)?, &image[1024..1152]);
/// assert_eq!(dsk::data(&image, 0, 1, 1)?[..3], [0x60, 0x61, 0x62]);
/// assert_eq!(dsk::data(&image, 2, 0, 0).unwrap_err().reason, dsk::Reason::Absent);
/// # Ok::<(), dsk::Refusal>(())
/// ```
pub fn data(image: &[u8], track: u32, side: u32, index: u32) -> Result<&[u8], Refusal> {
    let found = sector(image, track, side, index)?;
    // The archive gives parts of the image alone.
    let rest = image.get(found.offset as usize..).unwrap_or_default();
    Ok(rest.get(..found.length as usize).unwrap_or_default())
}

/// Writes an image to the start of `image`, and says how many bytes it has; what is beyond them stays.
///
/// The sectors of a block are numbered from 1, with their own track and side and status bytes 0. The data are those of all sectors, by
/// track, then side, then sector. Refusals: 41 where the creator has not 14 bytes, where a number is out of its range or the track size
/// above 65,535, or where the data have another length than [`Layout::data_size`]; then 15 where `image` is shorter than
/// [`Layout::image_size`].
///
/// ```
/// let layout = dsk::Layout { tracks: 2, sides: 1, sectors: 3, size_code: 0, gap: 0x4E, filler: 0xE5 };
/// let data: Vec<u8> = (0..768).map(|i| (i / 128) as u8).collect();
/// let mut image = vec![7; 1537];
/// assert_eq!(dsk::write(b"an example    ", layout, &data, &mut image)?, 1536);
/// assert_eq!(image[1536], 7);
/// assert_eq!(dsk::geometry(&image)?, dsk::Geometry { tracks: 2, sides: 1, track_size: 640 });
/// assert_eq!(dsk::sector(&image, 1, 0, 2)?.id, 3);
/// assert_eq!(dsk::data(&image, 1, 0, 2)?, &data[640..768]);
/// assert_eq!(dsk::write(b"too short", layout, &data, &mut image).unwrap_err().reason, dsk::Reason::Layout);
/// # Ok::<(), dsk::Refusal>(())
/// ```
pub fn write(creator: &[u8], layout: Layout, data: &[u8], image: &mut [u8]) -> Result<usize, Refusal> {
    let mut out = [0];
    Refusal::of_code(raw::write(creator, layout, data, image, &mut out))?;
    Ok(out[0] as usize)
}
