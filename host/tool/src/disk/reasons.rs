//! What a refusal of a question about a sector is about.

use dsk::{Reason, Refusal};

use super::faults::Standard;
use super::layout::Layout;
use crate::failure::Failure;
use crate::faults::{of_image, said};
use crate::files::Input;
use crate::numbers::counted;

/// What is asked for.
#[derive(Clone, Copy)]
pub struct Asked {
    /// The track.
    pub track: u32,
    /// The side.
    pub side: u32,
    /// The sector's index in its block.
    pub index: u32,
}

/// The library's answer to a question about a sector, or its refusal as a failure.
pub fn ask<'a, T>(
    input: &'a Input,
    asked: Asked,
    question: impl FnOnce(&'a [u8], u32, u32, u32) -> Result<T, Refusal>,
) -> Result<T, Failure> {
    let answer = question(&input.bytes, asked.track, asked.side, asked.index);
    answer.map_err(|refusal| input.failure(of_asked(&input.bytes, asked, refusal)))
}

/// A refusal of a question about a sector.
fn of_asked(image: &[u8], asked: Asked, refusal: Refusal) -> String {
    match refusal.reason {
        Reason::Absent => said(refusal, absent(image, asked)),
        Reason::Sector => said(refusal, sectors(image, asked)),
        _ => of_image(Standard, image, refusal),
    }
}

/// Why a track or side is not there.
fn absent(image: &[u8], asked: Asked) -> Option<String> {
    let geometry = Layout(image).geometry()?;
    let (tracks, sides) = (u32::from(geometry.tracks), u32::from(geometry.sides));
    let (name, number, count) = if asked.track >= tracks { ("track", asked.track, tracks) } else { ("side", asked.side, sides) };
    Some(format!("{name} {number}: the image has {}, from 0 on", counted(count.into(), name)))
}

/// Why a sector is not there.
fn sectors(image: &[u8], asked: Asked) -> Option<String> {
    let Asked { track, side, index } = asked;
    let count = dsk::block(image, track, side).ok()?.sectors;
    Some(format!("sector {index} of track {track}, side {side}: the block has {}, from 0 on", counted(count.into(), "sector")))
}
