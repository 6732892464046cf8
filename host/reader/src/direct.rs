//! Questions about one track without the whole walk: they look at the header, one table entry, that track's header and revolutions.

use crate::answers::{Refusal, Revolution, Track};
use crate::edition::Edition;
use crate::image::parse_alone;
use crate::questions::{describe_track, flux_of};

/// The direct question for a track; it uses 1 to 6, then 13, then 9 to 11 of this track.
pub fn track(image: &[u8], edition: Edition, track: u32) -> Result<Track, Refusal> {
    let data = parse_alone(image, edition, track)?;
    Ok(describe_track(track, &data))
}

/// The direct question for a revolution; it uses 1 to 6, then 13, then 9 to 11 of this track, then 14.
pub fn revolution(image: &[u8], edition: Edition, track: u32, revolution: u32) -> Result<Revolution, Refusal> {
    parse_alone(image, edition, track)?.revolution(revolution)
}

/// The direct question for a revolution's flux: its part of the image, refused as the revolution is.
pub fn flux(image: &[u8], edition: Edition, track: u32, revolution: u32) -> Result<Vec<u8>, Refusal> {
    let found = self::revolution(image, edition, track, revolution)?;
    Ok(flux_of(image, &found))
}
