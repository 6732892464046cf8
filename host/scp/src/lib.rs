//! SuperCard Pro (SCP) floppy flux images, revisions 1.4 and 1.6, by the proved library.
//!
//! Every call on an image takes its bytes and the [`Edition`] that it is read by, and tests it anew; it answers for every image and every
//! argument. A [`Refusal`] has one of 19 numbers and a position, and then every lent buffer holds what it held. Nothing here copies an image.
//!
//! ```
//! use scp::Edition;
//!
//! # let image = scp::example::image_a();
//! scp::validate(&image, Edition::V1_6)?;
//! let revolution = scp::revolution(&image, Edition::V1_6, 0, 0)?;
//! assert_eq!((revolution.duration, revolution.words, revolution.offset), (8_000_000, 4, 704));
//! assert_eq!(scp::speed(&image, Edition::V1_6, 0, 0)?, Some(300.0));
//!
//! let (intervals, open) = scp::all_intervals(scp::flux(&image, Edition::V1_6, 0, 0)?)?;
//! assert_eq!((intervals, open), (vec![160, 65_537, 240], 0)); // a zero word is 65,536 ticks
//! # Ok::<(), scp::Refusal>(())
//! ```
//!
//! An image of revision 1.4, whose table is shorter:
//!
//! ```
//! use scp::Edition;
//!
//! # let image = scp::example::image_a_1_4();
//! scp::validate(&image, Edition::V1_4)?;
//! assert_eq!(scp::track(&image, Edition::V1_4, 0)?.offset, 0x2A8);
//! assert_eq!(scp::revolution(&image, Edition::V1_4, 0, 0)?.offset, 696);
//! # Ok::<(), scp::Refusal>(())
//! ```
//!
//! The calls of [`direct`] do not open the image: they test its header and one track alone.
#![deny(unsafe_code)]
#![warn(missing_docs)]

mod answers;
pub mod direct;
mod edition;
pub mod example;
#[allow(unsafe_code)]
pub mod raw;
mod refusal;
mod replay;

pub use answers::{Footer, Header, Revolution, Step, Summary, Track, TrackSpeeds, STRING_NAMES};
pub use edition::Edition;
pub use refusal::{Reason, Refusal};
pub use replay::{replay, replay_mixed, Answer, Call};

/// The length of the longest image, in bytes.
pub const LONGEST_IMAGE: usize = 268_435_456;

/// What a zero word adds to the interval that the next closing word ends, in ticks.
pub const ZERO_WORD_TICKS: u64 = 65_536;

/// Whether the image obeys the text: refusals 1 to 12 and 19.
///
/// ```
/// use scp::{Edition, Reason};
///
/// let mut image = scp::example::image_a();
/// assert_eq!(scp::validate(&image, Edition::V1_6), Ok(()));
/// image[12] += 1;
/// assert_eq!(scp::validate(&image, Edition::V1_6).unwrap_err().reason, Reason::Sum);
/// assert_eq!(scp::validate(&[], Edition::V1_6).unwrap_err().reason.number(), 1);
///
/// let mut old = scp::example::image_a_1_4();
/// assert_eq!(scp::validate(&old, Edition::V1_4), Ok(()));
/// old[7] = 166; // the end track
/// assert_eq!(scp::validate(&old, Edition::V1_4).unwrap_err().reason, Reason::Span);
/// ```
pub fn validate(image: &[u8], edition: Edition) -> Result<(), Refusal> {
    Refusal::of_code(raw::validate(image, edition.number()))
}

/// The header's fields.
///
/// ```
/// let header = scp::header(&scp::example::image_a(), scp::Edition::V1_6)?;
/// assert_eq!((header.version, header.revolutions, header.checksum), (0x16, 1, 980));
/// # Ok::<(), scp::Refusal>(())
/// ```
pub fn header(image: &[u8], edition: Edition) -> Result<Header, Refusal> {
    let mut out = [0; 9];
    Refusal::of_code(raw::header(image, edition.number(), &mut out))?;
    Ok(Header::of_numbers(out))
}

/// The footer, or that there is none, as always by revision 1.4.
///
/// ```
/// use scp::{Edition, Reason};
///
/// let mut image = scp::example::image_a();
/// assert_eq!(scp::footer(&image, Edition::V1_6), Ok(None));
/// image[8] |= 0x20; // FLAGS bit 5, but no footer
/// assert_eq!(scp::footer(&image, Edition::V1_6).unwrap_err().reason, Reason::Footer);
/// assert_eq!(scp::footer(&image, Edition::V1_4), Ok(None));
/// ```
pub fn footer(image: &[u8], edition: Edition) -> Result<Option<Footer>, Refusal> {
    let mut out = [0; 13];
    Refusal::of_code(raw::footer(image, edition.number(), &mut out))?;
    Ok(Footer::of_numbers(&out))
}

/// The bytes of the string at a file offset that the [`footer`] of the same image gave; nothing where no whole string is. By revision 1.6
/// they are well-formed UTF-8, so that [`text`] gives them, too.
///
/// ```
/// let image = [2, 0, b'h', b'i', 0];
/// assert_eq!(scp::string(&image, 0), None); // 0 is absent
/// assert_eq!(scp::string(&[b"-", &image[..]].concat(), 1), Some(&b"hi"[..]));
/// ```
pub fn string(image: &[u8], offset: u32) -> Option<&[u8]> {
    if offset == 0 {
        return None;
    }
    let rest = image.get(offset as usize..)?;
    let size = u16::from_le_bytes([*rest.first()?, *rest.get(1)?]);
    rest.get(2..2 + usize::from(size))
}

/// The text of the string at a file offset that the [`footer`] of the same image gave; nothing where no whole string is, or where its bytes
/// are not well-formed UTF-8.
///
/// ```
/// let image = [3, 0, b'4', 0xC2, 0xB5, 0];
/// assert_eq!(scp::text(&[b"-", &image[..]].concat(), 1), Some("4\u{b5}"));
/// ```
pub fn text(image: &[u8], offset: u32) -> Option<&str> {
    std::str::from_utf8(string(image, offset)?).ok()
}

/// How many bytes come before the place where the text stops being well-formed UTF-8, by the proved test of refusal 19: its length where
/// all of it is.
///
/// ```
/// assert_eq!(scp::valid_up_to("4 \u{b5}s".as_bytes()), 5);
/// assert_eq!(scp::valid_up_to(b"4 \xB5s"), 2);
/// ```
pub fn valid_up_to(text: &[u8]) -> usize {
    let mut out = [0];
    Refusal::of_code(raw::valid_up_to(text, &mut out)).expect("a place is lent");
    out[0] as usize
}

/// The numbers of the tracks that the image has, in order.
///
/// ```
/// assert_eq!(scp::tracks(&scp::example::image_a(), scp::Edition::V1_6), Ok(vec![0]));
/// ```
pub fn tracks(image: &[u8], edition: Edition) -> Result<Vec<u32>, Refusal> {
    header(image, edition)?;
    Ok((0..edition.tracks()).filter(|&number| track(image, edition, number).is_ok()).collect())
}

/// A track.
///
/// ```
/// use scp::{Edition, Reason};
///
/// let image = scp::example::image_a();
/// let track = scp::track(&image, Edition::V1_6, 0)?;
/// assert_eq!((track.cylinder, track.head, track.offset, track.revolutions), (0, 0, 0x2B0, 1));
/// assert_eq!(scp::track(&image, Edition::V1_6, 1).unwrap_err().reason, Reason::Absent);
/// # Ok::<(), scp::Refusal>(())
/// ```
pub fn track(image: &[u8], edition: Edition, track: u32) -> Result<Track, Refusal> {
    let mut out = [0; 4];
    Refusal::of_code(raw::track(image, edition.number(), track, &mut out))?;
    Ok(Track::of_numbers(out))
}

/// A revolution of a track.
///
/// ```
/// let refusal = scp::revolution(&scp::example::image_a(), scp::Edition::V1_6, 0, 1).unwrap_err();
/// assert_eq!(refusal.to_string(), "refused 14 (Revolution) at 0: the revolution asked for is not in the image");
/// ```
pub fn revolution(image: &[u8], edition: Edition, track: u32, revolution: u32) -> Result<Revolution, Refusal> {
    let mut out = [0; 3];
    Refusal::of_code(raw::revolution(image, edition.number(), track, revolution, &mut out))?;
    Ok(Revolution::of_numbers(out))
}

/// The flux of a revolution, as that part of the image.
///
/// ```
/// let flux = [0x00, 0xA0, 0x00, 0x00, 0x00, 0x01, 0x00, 0xF0];
/// assert_eq!(scp::flux(&scp::example::image_a(), scp::Edition::V1_6, 0, 0)?, flux);
/// assert_eq!(scp::flux(&scp::example::image_a_1_4(), scp::Edition::V1_4, 0, 0)?, flux);
/// # Ok::<(), scp::Refusal>(())
/// ```
pub fn flux(image: &[u8], edition: Edition, track: u32, revolution: u32) -> Result<&[u8], Refusal> {
    Ok(self::revolution(image, edition, track, revolution)?.flux_in(image))
}

/// Copies the flux of a revolution to the start of `out`, and says how many bytes it has.
///
/// ```
/// let mut out = [7; 9];
/// assert_eq!(scp::copy_flux(&scp::example::image_a(), scp::Edition::V1_6, 0, 0, &mut out)?, 8);
/// assert_eq!(out, [0x00, 0xA0, 0x00, 0x00, 0x00, 0x01, 0x00, 0xF0, 7]);
/// # Ok::<(), scp::Refusal>(())
/// ```
pub fn copy_flux(image: &[u8], edition: Edition, track: u32, revolution: u32, out: &mut [u8]) -> Result<usize, Refusal> {
    Refusal::of_code(raw::flux(image, edition.number(), track, revolution, out))?;
    Ok(self::revolution(image, edition, track, revolution)?.flux_size())
}

/// The drive speed of a revolution in rpm, or none for duration 0.
///
/// ```
/// assert_eq!(scp::speed(&scp::example::image_a(), scp::Edition::V1_6, 0, 0), Ok(Some(300.0)));
/// ```
pub fn speed(image: &[u8], edition: Edition, track: u32, revolution: u32) -> Result<Option<f64>, Refusal> {
    let mut out = [0.0; 2];
    Refusal::of_code(raw::speed(image, edition.number(), track, revolution, &mut out))?;
    Ok((out[0] == 1.0).then_some(out[1]))
}

/// The slowest and the fastest speed of a track, or none if all its durations are 0.
///
/// ```
/// let speeds = scp::track_speed(&scp::example::image_a(), scp::Edition::V1_6, 0)?.expect("its duration is not 0");
/// assert_eq!((speeds.slowest, speeds.fastest), (300.0, 300.0));
/// # Ok::<(), scp::Refusal>(())
/// ```
pub fn track_speed(image: &[u8], edition: Edition, track: u32) -> Result<Option<TrackSpeeds>, Refusal> {
    let mut out = [0.0; 3];
    Refusal::of_code(raw::track_speed(image, edition.number(), track, &mut out))?;
    Ok((out[0] == 1.0).then_some(TrackSpeeds { slowest: out[1], fastest: out[2] }))
}

/// The next interval of the flux from a word on, or the open time where no closing word is left.
///
/// ```
/// use scp::Step;
///
/// let flux = [0x00, 0x00, 0x00, 0x01, 0x00, 0x00];
/// assert_eq!(scp::step(&flux, 0), Ok(Step::Interval { ticks: 65_537, closing: 1, next: 2 }));
/// assert_eq!(scp::step(&flux, 2), Ok(Step::Open { ticks: 65_536 }));
/// assert_eq!(scp::step(&flux, 3), Ok(Step::Open { ticks: 0 }));
/// ```
#[inline]
pub fn step(flux: &[u8], word: u64) -> Result<Step, Refusal> {
    let mut out = [0; 4];
    Refusal::of_code(raw::step(flux, word, &mut out))?;
    Ok(match out {
        [0, ticks, ..] => Step::Open { ticks },
        [ticks, _, next, closing] => Step::Interval { ticks, closing, next },
    })
}

/// All intervals of the flux at the start of `times`; gives how many they are, and the open time.
///
/// ```
/// let mut times = [9; 3];
/// assert_eq!(scp::intervals(&[0x00, 0xA0, 0x00, 0x00, 0x00, 0x01], &mut times), Ok((2, 0)));
/// assert_eq!(times, [160, 65_537, 9]);
/// ```
pub fn intervals(flux: &[u8], times: &mut [u64]) -> Result<(usize, u64), Refusal> {
    let mut out = [0; 2];
    Refusal::of_code(raw::intervals(flux, times, &mut out))?;
    Ok((out[0] as usize, out[1]))
}

/// All intervals of the flux, and the open time.
pub fn all_intervals(flux: &[u8]) -> Result<(Vec<u64>, u64), Refusal> {
    let mut times = vec![0; flux.len() / 2];
    let (count, open) = intervals(flux, &mut times)?;
    times.truncate(count);
    Ok((times, open))
}

/// All intervals of the flux at the start of `times`, and at the start of `closings` the number of the word that closes each, counted from 0
/// in the flux; gives how many they are, and the open time. Where either list is too short, both are left as they were.
///
/// ```
/// let (mut times, mut closings) = ([9; 3], [9; 3]);
/// let flux = [0x00, 0xA0, 0x00, 0x00, 0x00, 0x01];
/// assert_eq!(scp::closed_intervals(&flux, &mut times, &mut closings), Ok((2, 0)));
/// assert_eq!((times, closings), ([160, 65_537, 9], [0, 2, 9]));
/// let refusal = scp::closed_intervals(&flux, &mut times, &mut closings[..1]).unwrap_err();
/// assert_eq!(refusal.reason, scp::Reason::Places);
/// ```
pub fn closed_intervals(flux: &[u8], times: &mut [u64], closings: &mut [u64]) -> Result<(usize, u64), Refusal> {
    let mut out = [0; 2];
    Refusal::of_code(raw::closed_intervals(flux, times, closings, &mut out))?;
    Ok((out[0] as usize, out[1]))
}

/// All intervals of the flux, the number of the word that closes each, and the open time.
///
/// ```
/// let (intervals, closings, open) = scp::all_closed_intervals(&[0x00, 0x00, 0x00, 0x01, 0x00, 0x00])?;
/// assert_eq!((intervals, closings, open), (vec![65_537], vec![1], 65_536));
/// # Ok::<(), scp::Refusal>(())
/// ```
pub fn all_closed_intervals(flux: &[u8]) -> Result<(Vec<u64>, Vec<u64>, u64), Refusal> {
    let (mut times, mut closings) = (vec![0; flux.len() / 2], vec![0; flux.len() / 2]);
    let (count, open) = closed_intervals(flux, &mut times, &mut closings)?;
    times.truncate(count);
    closings.truncate(count);
    Ok((times, closings, open))
}

/// How many intervals the flux has, its open time, and the ticks of all its words, without the intervals themselves: one pass, and no list.
///
/// ```
/// use scp::{Reason, Summary};
///
/// let flux = [0x00, 0xA0, 0x00, 0x00, 0x00, 0x01, 0x00, 0x00];
/// assert_eq!(scp::summary(&flux), Ok(Summary { intervals: 2, open: 65_536, total: 160 + 65_537 + 65_536 }));
/// assert_eq!(scp::summary(&flux[1..]).unwrap_err().reason, Reason::Words);
/// ```
pub fn summary(flux: &[u8]) -> Result<Summary, Refusal> {
    let mut out = [0; 3];
    Refusal::of_code(raw::summary(flux, &mut out))?;
    let [intervals, open, total] = out;
    Ok(Summary { intervals, open, total })
}

/// The words of the times, as bytes at the start of `words`; gives how many bytes they are.
///
/// ```
/// let mut words = [9; 6];
/// assert_eq!(scp::words(&[65_537], &mut words), Ok(4));
/// assert_eq!(words, [0, 0, 0, 1, 9, 9]);
/// let refusal = scp::words(&[160, 65_536], &mut words).unwrap_err();
/// assert_eq!((refusal.reason, refusal.position), (scp::Reason::Time, 1));
/// ```
pub fn words(times: &[u64], words: &mut [u8]) -> Result<usize, Refusal> {
    let mut out = [0; 1];
    Refusal::of_code(raw::words(times, words, &mut out))?;
    Ok(out[0] as usize)
}

/// Puts a new duration and new words into a revolution, at most as many as it has; the checksum moves by the change alone.
///
/// A byte that something else claims by the edition is not written; by revision 1.4 a footer and its strings claim nothing.
///
/// ```
/// use scp::Edition;
///
/// let words = [0x01, 0x40, 0x00, 0x00, 0x00, 0x01, 0x00, 0xF0];
/// let mut image = scp::example::image_a();
/// scp::rewrite(&mut image, Edition::V1_6, 0, 0, 8_000_000, &words)?;
/// assert_eq!(scp::header(&image, Edition::V1_6)?.checksum, 885);
/// assert_eq!(scp::validate(&image, Edition::V1_6), Ok(()));
///
/// let mut old = scp::example::image_a_1_4();
/// scp::rewrite(&mut old, Edition::V1_4, 0, 0, 8_000_000, &words)?;
/// assert_eq!(scp::header(&old, Edition::V1_4)?.checksum, 877);
/// # Ok::<(), scp::Refusal>(())
/// ```
///
/// A rewrite with as many words as were there is taken back by the former duration and words, by the same edition, several in reverse
/// order: each is accepted, and the image is what it was. One with fewer is not, since its former words are refused.
///
/// ```
/// use scp::{Edition, Reason};
///
/// let mut image = scp::example::image_a();
/// let duration = scp::revolution(&image, Edition::V1_6, 0, 0)?.duration;
/// let former = scp::flux(&image, Edition::V1_6, 0, 0)?.to_vec();
/// scp::rewrite(&mut image, Edition::V1_6, 0, 0, 7, &[0x12; 8])?;
/// scp::rewrite(&mut image, Edition::V1_6, 0, 0, duration, &former)?;
/// assert_eq!(image, scp::example::image_a());
///
/// scp::rewrite(&mut image, Edition::V1_6, 0, 0, 7, &[0x12; 2])?;
/// let back = scp::rewrite(&mut image, Edition::V1_6, 0, 0, duration, &former);
/// assert_eq!(back.unwrap_err().reason, Reason::Words);
/// # Ok::<(), scp::Refusal>(())
/// ```
pub fn rewrite(image: &mut [u8], edition: Edition, track: u32, revolution: u32, duration: u32, words: &[u8]) -> Result<(), Refusal> {
    Refusal::of_code(raw::rewrite(image, edition.number(), track, revolution, duration, words))
}
