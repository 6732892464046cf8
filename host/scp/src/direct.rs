//! One track without the whole walk: the calls for a track, a revolution and its flux that test only the header, one entry of the
//! table, that track's header and the records of its revolutions.
//!
//! Their refusals come in the order 1 to 6, 13, 9 to 11 of this track (11 of any of its revolutions), 14, 15. The footer, its strings and
//! other tracks are not tested, so these calls may answer on an image that every other call refuses. Where the image passes 1 to 11 and 19 the
//! answer is that of the call of the same name in the crate itself; where one of 1 to 11 refuses a direct call, that call is refused, too,
//! perhaps with another number, which may be 19.
//!
//! ```
//! use scp::{direct, Edition, Reason};
//!
//! # let image = scp::example::image_a();
//! assert_eq!(direct::track(&image, Edition::V1_6, 0), scp::track(&image, Edition::V1_6, 0));
//! assert_eq!(direct::revolution(&image, Edition::V1_6, 0, 0), scp::revolution(&image, Edition::V1_6, 0, 0));
//! assert_eq!(direct::flux(&image, Edition::V1_6, 0, 0), scp::flux(&image, Edition::V1_6, 0, 0));
//!
//! // A footer is announced, but the last 48 bytes are none.
//! let mut unclosed = image.clone();
//! unclosed[8] |= 0x20;
//! unclosed.resize(image.len() + 48, 0);
//! assert_eq!(scp::flux(&unclosed, Edition::V1_6, 0, 0).unwrap_err().reason, Reason::Footer);
//! assert_eq!(direct::flux(&unclosed, Edition::V1_6, 0, 0), scp::flux(&image, Edition::V1_6, 0, 0));
//! // Those 48 bytes are kept free, whatever they hold.
//! assert_eq!(direct::flux(&unclosed[..image.len()], Edition::V1_6, 0, 0).unwrap_err().reason, Reason::Track);
//! ```

use crate::answers::{Revolution, Track};
use crate::edition::Edition;
use crate::raw;
use crate::refusal::Refusal;

/// A track, as [`crate::track`] gives it.
///
/// ```
/// use scp::{direct, Edition, Reason};
///
/// let mut image = scp::example::image_a();
/// let track = direct::track(&image, Edition::V1_6, 0)?;
/// assert_eq!((track.cylinder, track.head, track.offset, track.revolutions), (0, 0, 0x2B0, 1));
/// assert_eq!(direct::track(&image, Edition::V1_6, 1).unwrap_err().reason, Reason::Absent);
///
/// image[0x14] = 1; // an entry of track 1, where the only track is 0
/// assert_eq!(direct::track(&image, Edition::V1_6, 0), Ok(track));
/// let refusal = direct::track(&image, Edition::V1_6, 1).unwrap_err();
/// assert_eq!((refusal.reason, refusal.position), (Reason::Slot, 1));
/// assert_eq!(scp::track(&image, Edition::V1_6, 0), Err(refusal));
/// # Ok::<(), scp::Refusal>(())
/// ```
pub fn track(image: &[u8], edition: Edition, track: u32) -> Result<Track, Refusal> {
    let mut out = [0; 4];
    Refusal::of_code(raw::direct_track(image, edition.number(), track, &mut out))?;
    Ok(Track::of_numbers(out))
}

/// A revolution of a track, as [`crate::revolution`] gives it.
///
/// ```
/// use scp::{direct, Edition, Reason};
///
/// let mut image = scp::example::image_a();
/// let revolution = direct::revolution(&image, Edition::V1_6, 0, 0)?;
/// assert_eq!((revolution.duration, revolution.words, revolution.offset), (8_000_000, 4, 704));
/// assert_eq!(direct::revolution(&image, Edition::V1_6, 0, 1).unwrap_err().reason, Reason::Revolution);
/// assert_eq!(direct::revolution(&image, Edition::V1_6, 168, 1).unwrap_err().reason, Reason::Absent);
///
/// image[696] = 5; // words, where there is room for 4
/// assert_eq!(direct::revolution(&image, Edition::V1_6, 0, 1).unwrap_err().reason, Reason::Flux);
/// # Ok::<(), scp::Refusal>(())
/// ```
pub fn revolution(image: &[u8], edition: Edition, track: u32, revolution: u32) -> Result<Revolution, Refusal> {
    let mut out = [0; 3];
    Refusal::of_code(raw::direct_revolution(image, edition.number(), track, revolution, &mut out))?;
    Ok(Revolution::of_numbers(out))
}

/// The flux of a revolution, as [`crate::flux`] gives it: that part of the image.
///
/// ```
/// use scp::{direct, Edition};
///
/// let flux = [0x00, 0xA0, 0x00, 0x00, 0x00, 0x01, 0x00, 0xF0];
/// assert_eq!(direct::flux(&scp::example::image_a(), Edition::V1_6, 0, 0)?, flux);
/// assert_eq!(direct::flux(&scp::example::image_a_1_4(), Edition::V1_4, 0, 0)?, flux);
/// # Ok::<(), scp::Refusal>(())
/// ```
pub fn flux(image: &[u8], edition: Edition, track: u32, revolution: u32) -> Result<&[u8], Refusal> {
    Ok(self::revolution(image, edition, track, revolution)?.flux_in(image))
}

/// Copies the flux of a revolution to the start of `out`, as [`crate::copy_flux`] does, and says how many bytes it has.
///
/// ```
/// use scp::{direct, Edition, Reason};
///
/// let (image, mut out) = (scp::example::image_a(), [7; 9]);
/// assert_eq!(direct::copy_flux(&image, Edition::V1_6, 0, 0, &mut out[..7]).unwrap_err().reason, Reason::Places);
/// assert_eq!(direct::copy_flux(&image, Edition::V1_6, 0, 0, &mut out)?, 8);
/// assert_eq!(out, [0x00, 0xA0, 0x00, 0x00, 0x00, 0x01, 0x00, 0xF0, 7]);
/// # Ok::<(), scp::Refusal>(())
/// ```
pub fn copy_flux(image: &[u8], edition: Edition, track: u32, revolution: u32, out: &mut [u8]) -> Result<usize, Refusal> {
    Refusal::of_code(raw::direct_flux(image, edition.number(), track, revolution, out))?;
    Ok(self::revolution(image, edition, track, revolution)?.flux_size())
}
