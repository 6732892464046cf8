//! What an image is to be made of beside its data, as the options say it.

use std::ffi::OsStr;

use dsk::Layout;

use crate::arguments::{number_of, Arguments};
use crate::disk::layout::full_size;
use crate::failure::Failure;
use crate::files::shown;
use crate::numbers::counted;

/// The numbers where no others are given: those of disks of the CPC and the Spectrum +3, as DSK images usually have them.
const STANDARD: Layout = Layout { tracks: 40, sides: 1, sectors: 9, size_code: 2, gap: 0x4E, filler: 0xE5 };

/// The creator where no other is given.
const CREATOR: &str = "fluxproof";

/// How many bytes the creator has.
const CREATOR_SIZE: usize = 14;

/// The numbers; whether there can be such an image is the library's to say.
pub fn layout(arguments: &Arguments) -> Result<Layout, Failure> {
    Ok(Layout {
        tracks: arguments.number_or("--tracks", STANDARD.tracks)?,
        sides: arguments.number_or("--sides", STANDARD.sides)?,
        sectors: arguments.number_or("--sectors", STANDARD.sectors)?,
        size_code: size_code(arguments)?,
        gap: arguments.number_or("--gap", STANDARD.gap)?,
        filler: arguments.number_or("--filler", STANDARD.filler)?,
    })
}

/// The size code, as it is given or by the size.
fn size_code(arguments: &Arguments) -> Result<u32, Failure> {
    match (arguments.value("--code"), arguments.value("--size")) {
        (Some(_), Some(_)) => Err(Failure::usage("--code and --size exclude each other")),
        (None, Some(size)) => code_of(number_of("--size", size)?),
        (_, None) => arguments.number_or("--code", STANDARD.size_code),
    }
}

/// The code of a size, which may be one that no image is made with.
fn code_of(size: u32) -> Result<u32, Failure> {
    if size < 128 || !size.is_power_of_two() {
        return Err(Failure::usage(format!("--size: no sector has {} (128, 256, 512, 1024, 2048 or 4096)", counted(size.into(), "byte"))));
    }
    Ok((size / 128).ilog2())
}

/// The creator, with zeros up to its size.
pub fn creator(arguments: &Arguments) -> Result<[u8; CREATOR_SIZE], Failure> {
    let text = arguments.value("--creator").unwrap_or(OsStr::new(CREATOR));
    let (bytes, size) = (text.as_encoded_bytes(), text.len());
    let refuse = |fault: String| Err(Failure::usage(format!("--creator: \"{}\" {fault}", shown(text))));
    if !bytes.iter().all(|byte| matches!(byte, b' '..=b'~')) {
        return refuse("is not printable ASCII".to_string());
    }
    if size > CREATOR_SIZE {
        return refuse(format!("has {size} characters, more than {CREATOR_SIZE}"));
    }
    let mut creator = [0; CREATOR_SIZE];
    creator[..size].copy_from_slice(bytes);
    Ok(creator)
}

/// Tracks, sides, sectors and the bytes of a sector, in words; the size code is one that an image can be made with.
pub fn in_words(layout: Layout) -> [String; 4] {
    let Layout { tracks, sides, sectors, size_code, .. } = layout;
    let counts = [(tracks.into(), "track"), (sides.into(), "side"), (sectors.into(), "sector"), (full_size(size_code), "byte")];
    counts.map(|(count, thing)| counted(count, thing))
}
