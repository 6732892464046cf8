//! Rewriting of one revolution.

use crate::answers::{refuse, Refusal, Revolution};
use crate::edition::Edition;
use crate::flux;
use crate::image::{range, true_sum, Image, FOOTER};

/// A set of bytes of the image: a mark for each of them.
struct Bytes {
    marks: Vec<bool>,
}

impl Bytes {
    /// The empty set over an image.
    fn none(image: &[u8]) -> Bytes {
        Bytes { marks: vec![false; image.len()] }
    }

    /// Adds the bytes of a stretch; an empty one adds nothing.
    fn add(&mut self, start: u64, length: u64) {
        if let Some(part) = part_mut(&mut self.marks, start, length) {
            part.fill(true);
        }
    }

    /// Whether a byte is in both sets.
    fn meets(&self, other: &Bytes) -> bool {
        let mut pairs = self.marks.iter().zip(&other.marks);
        pairs.any(|(&here, &there)| here && there)
    }
}

/// What a rewrite is about: the track, the revolution, and what is known of both.
struct Target {
    track: u32,
    revolution: u32,
    /// The place of the revolution's 8 bytes of duration and count.
    fields: u64,
    present: Revolution,
}

/// The rules, Rewriting: 1 to 11 and 19, then 13, 14, 17, 18; then duration, count, words and checksum.
pub fn rewrite(image: &mut [u8], edition: Edition, track: u32, revolution: u32, duration: u32, words: &[u8]) -> Result<(), Refusal> {
    let parsed = Image::parse(image, edition)?;
    let target = find(&parsed, track, revolution)?;
    flux::check(words)?;
    let count = words.len() as u64 / 2;
    if count > u64::from(target.present.words) {
        return Err(refuse(17));
    }
    if shared(image, &parsed, &target) {
        return Err(refuse(18));
    }
    let before = true_sum(image);
    put(image, target.fields, &duration.to_le_bytes());
    put(image, target.fields + 4, &(count as u32).to_le_bytes());
    put(image, target.present.place, words);
    if !parsed.read_write() {
        let after = true_sum(image);
        let moved = moved(parsed.header.checksum, before, after);
        put(image, 0x0C, &moved.to_le_bytes());
    }
    Ok(())
}

/// The rules, refusals 13 and 14: the revolution named, and its place in the track data header.
fn find(parsed: &Image, track: u32, revolution: u32) -> Result<Target, Refusal> {
    let data = parsed.track(track)?;
    let present = data.revolution(revolution)?;
    Ok(Target { track, revolution, fields: data.place + 4 + 12 * u64::from(revolution), present })
}

/// The rules, refusal 18: a byte is claimed by others, or the 8 bytes and the flux overlap.
fn shared(image: &[u8], parsed: &Image, target: &Target) -> bool {
    let mut fields = Bytes::none(image);
    fields.add(target.fields, 8);
    let mut flux = Bytes::none(image);
    flux.add(target.present.place, 2 * u64::from(target.present.words));
    let others = claimed_by_others(image, parsed, target);
    fields.meets(&others) || flux.meets(&others) || fields.meets(&flux)
}

/// The rules, Rewriting and Q-6: all bytes that are claimed by others, by the edition that the rewrite names.
fn claimed_by_others(image: &[u8], parsed: &Image, target: &Target) -> Bytes {
    let mut claimed = Bytes::none(image);
    claimed.add(0, parsed.edition.table_end());
    for (&number, data) in &parsed.tracks {
        let length = 4 + 12 * data.revolutions.len() as u64;
        if number == target.track {
            let after = target.fields + 8;
            claimed.add(data.place, target.fields - data.place);
            claimed.add(after, data.place + length - after);
        } else {
            claimed.add(data.place, length);
        }
        for (index, one) in (0..).zip(&data.revolutions) {
            if (number, index) != (target.track, target.revolution) {
                claimed.add(one.place, 2 * u64::from(one.words));
            }
        }
    }
    if parsed.footer.is_some() {
        claimed.add(image.len() as u64 - FOOTER, FOOTER);
    }
    for text in &parsed.strings {
        claimed.add(text.place, 2 + text.bytes.len() as u64 + 1);
    }
    claimed
}

/// The rules, Rewriting: the checksum moved by the true sum after minus the one before.
fn moved(stored: u32, before: u64, after: u64) -> u32 {
    let moved = i128::from(stored) + i128::from(after) - i128::from(before);
    moved.rem_euclid(1 << 32) as u32
}

/// Sets the bytes at a place.
fn put(image: &mut [u8], place: u64, bytes: &[u8]) {
    if let Some(part) = part_mut(image, place, bytes.len() as u64) {
        part.copy_from_slice(bytes);
    }
}

/// The part of a slice given by start and length, if all of it is there.
fn part_mut<T>(all: &mut [T], start: u64, length: u64) -> Option<&mut [T]> {
    all.get_mut(range(start, length)?)
}
