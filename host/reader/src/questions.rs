//! Judging an image, and the questions about it.

use crate::answers::{refuse, Footer, Header, Refusal, Revolution, Track};
use crate::edition::Edition;
use crate::image::{stretch, true_sum, Image, TrackData};

/// The rules, Numbers of refusal: judging uses 1 to 11 and 19, then 12.
pub fn validate(image: &[u8], edition: Edition) -> Result<(), Refusal> {
    let parsed = Image::parse(image, edition)?;
    let due = if parsed.read_write() { 0 } else { true_sum(image) % (1 << 32) };
    if u64::from(parsed.header.checksum) != due {
        return Err(refuse(12));
    }
    Ok(())
}

/// The question for the header; it uses 1 to 11 and 19.
pub fn header(image: &[u8], edition: Edition) -> Result<Header, Refusal> {
    Ok(Image::parse(image, edition)?.header)
}

/// The question for the footer, or the plain fact that there is none; it uses 1 to 11 and 19.
pub fn footer(image: &[u8], edition: Edition) -> Result<Option<Footer>, Refusal> {
    Ok(Image::parse(image, edition)?.footer)
}

/// The question for a track; it uses 1 to 11 and 19, then 13.
pub fn track(image: &[u8], edition: Edition, track: u32) -> Result<Track, Refusal> {
    let parsed = Image::parse(image, edition)?;
    Ok(describe_track(track, parsed.track(track)?))
}

/// The rules, Layout: what is said of a present track; it has R revolutions.
pub(crate) fn describe_track(track: u32, data: &TrackData) -> Track {
    Track { cylinder: track / 2, head: track % 2, place: data.place, revolutions: data.revolutions.len() as u32 }
}

/// The question for a revolution; it uses 1 to 11 and 19, then 13, then 14.
pub fn revolution(image: &[u8], edition: Edition, track: u32, revolution: u32) -> Result<Revolution, Refusal> {
    Image::parse(image, edition)?.track(track)?.revolution(revolution)
}

/// The question for a revolution's flux: its part of the image, refused as the revolution is.
pub fn flux(image: &[u8], edition: Edition, track: u32, revolution: u32) -> Result<Vec<u8>, Refusal> {
    let found = self::revolution(image, edition, track, revolution)?;
    Ok(flux_of(image, &found))
}

/// The rules, Flux and time: a revolution's flux, that part of the image.
pub(crate) fn flux_of(image: &[u8], found: &Revolution) -> Vec<u8> {
    let part = stretch(image, found.place, 2 * u64::from(found.words));
    part.unwrap_or_default().to_vec()
}

/// The question for a revolution's speed, none for duration 0; refused as the revolution is.
pub fn speed(image: &[u8], edition: Edition, track: u32, revolution: u32) -> Result<Option<f64>, Refusal> {
    let found = self::revolution(image, edition, track, revolution)?;
    Ok((found.duration != 0).then(|| rpm(found.duration)))
}

/// The slowest and fastest speed, from the longest and the shortest nonzero duration of a track.
pub fn track_speed(image: &[u8], edition: Edition, track: u32) -> Result<Option<(f64, f64)>, Refusal> {
    let parsed = Image::parse(image, edition)?;
    let data = parsed.track(track)?;
    let durations = || {
        let all = data.revolutions.iter().map(|one| one.duration);
        all.filter(|&duration| duration != 0)
    };
    Ok(match (durations().max(), durations().min()) {
        (Some(longest), Some(shortest)) => Some((rpm(longest), rpm(shortest))),
        _ => None,
    })
}

/// The rules, Flux and time: 2,400,000,000 divided by the duration, one f64 division.
fn rpm(duration: u32) -> f64 {
    2_400_000_000.0 / f64::from(duration)
}
