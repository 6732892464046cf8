//! Parsing of a whole image, or of one track alone, into owned structures, with the refusals 1 to 11, 13, 14 and 19.

use std::collections::BTreeMap;
use std::ops::Range;

use crate::answers::{refuse, refuse_at, Footer, Header, Refusal, Revolution};
use crate::edition::Edition;
use crate::text::valid_up_to;

/// The rules, refusal 1: the greatest length; refusal 17 has the same bound.
pub(crate) const GREATEST: u64 = 268_435_456;

/// The rules, Layout: the footer is the last 48 bytes.
pub(crate) const FOOTER: u64 = 48;

/// An image that none of 1 to 11 and 19 refuses, taken apart.
pub(crate) struct Image {
    pub(crate) edition: Edition,
    pub(crate) header: Header,
    pub(crate) footer: Option<Footer>,
    pub(crate) strings: Vec<Text>,
    pub(crate) tracks: BTreeMap<u32, TrackData>,
}

/// The rules, Layout: a present string, its place in the file and its bytes.
pub(crate) struct Text {
    pub(crate) place: u64,
    pub(crate) bytes: Vec<u8>,
}

/// The rules, Layout: a track data header, its place in the file and its revolutions.
pub(crate) struct TrackData {
    pub(crate) place: u64,
    pub(crate) revolutions: Vec<Revolution>,
}

impl Image {
    /// The rules, Numbers of refusal: 1 to 7, the lowest first, then the strings with 8 and 19, then the tracks from index 0 up.
    pub(crate) fn parse(image: &[u8], edition: Edition) -> Result<Image, Refusal> {
        let header = parse_header(image, edition)?;
        let footer = parse_footer(image, edition, &header)?;
        let body = body(image, edition, &header);
        let strings = match &footer {
            Some(footer) => parse_strings(body, edition, footer)?,
            None => Vec::new(),
        };
        let tracks = parse_tracks(image, edition, body, &header)?;
        Ok(Image { edition, header, footer, strings, tracks })
    }

    /// The rules, rulings: "read/write" is FLAGS bit 4, in both editions.
    pub(crate) fn read_write(&self) -> bool {
        flag(&self.header, 4)
    }

    /// The rules, refusal 13: the track asked for is above 167, under 1.4 above 165, or has entry 0.
    pub(crate) fn track(&self, track: u32) -> Result<&TrackData, Refusal> {
        self.tracks.get(&track).ok_or(refuse(13))
    }
}

impl TrackData {
    /// The rules, refusal 14: the revolution asked for is not below R.
    pub(crate) fn revolution(&self, revolution: u32) -> Result<Revolution, Refusal> {
        let index = usize::try_from(revolution).map_err(|_| refuse(14))?;
        self.revolutions.get(index).copied().ok_or(refuse(14))
    }
}

/// The rules, Q-1: 1 to 6, then 13, then 9 to 11 of this track; the footer, its strings and other tracks are not looked at.
pub(crate) fn parse_alone(image: &[u8], edition: Edition, track: u32) -> Result<TrackData, Refusal> {
    let header = parse_header(image, edition)?;
    if track >= edition.entries() {
        return Err(refuse(13));
    }
    let body = body(image, edition, &header);
    parse_slot(image, edition, body, &header, track)?.ok_or(refuse(13))
}

/// A stretch given by start and length, as a range of indices.
pub(crate) fn range(start: u64, length: u64) -> Option<Range<usize>> {
    let end = start.checked_add(length)?;
    Some(start.try_into().ok()?..end.try_into().ok()?)
}

/// The bytes of a stretch, if all of them are there.
pub(crate) fn stretch(bytes: &[u8], start: u64, length: u64) -> Option<&[u8]> {
    bytes.get(range(start, length)?)
}

/// The N bytes from a place on, if all of them are there.
pub(crate) fn array<const N: usize>(bytes: &[u8], place: u64) -> Option<[u8; N]> {
    stretch(bytes, place, N as u64)?.try_into().ok()
}

/// The rules, refusal 12: the sum of all bytes from 0x10, not yet reduced.
pub(crate) fn true_sum(image: &[u8]) -> u64 {
    image.iter().skip(0x10).map(|&byte| u64::from(byte)).sum()
}

/// The rules, Layout: a bit of FLAGS.
fn flag(header: &Header, bit: u32) -> bool {
    (header.flags >> bit) & 1 == 1
}

/// The rules, Layout and Q-6: a footer is there if FLAGS bit 5 is set, under 1.4 never.
fn has_footer(edition: Edition, header: &Header) -> bool {
    edition.knows_footer() && flag(header, 5)
}

/// The rules, Layout: what lies below E, which is the length, less 48 if there is a footer.
fn body<'a>(image: &'a [u8], edition: Edition, header: &Header) -> &'a [u8] {
    let length = image.len() as u64;
    let end = if has_footer(edition, header) { length.saturating_sub(FOOTER) } else { length };
    stretch(image, 0, end).unwrap_or_default()
}

/// A byte.
fn byte(bytes: &[u8], place: u64) -> Option<u8> {
    array(bytes, place).map(u8::from_le_bytes)
}

/// The rules, Layout: a little-endian number of 16 bits.
fn number16(bytes: &[u8], place: u64) -> Option<u16> {
    array(bytes, place).map(u16::from_le_bytes)
}

/// The rules, Layout: a little-endian number of 32 bits.
fn number32(bytes: &[u8], place: u64) -> Option<u32> {
    array(bytes, place).map(u32::from_le_bytes)
}

/// The rules, Layout: a signed little-endian number of 64 bits.
fn signed64(bytes: &[u8], place: u64) -> Option<i64> {
    array(bytes, place).map(i64::from_le_bytes)
}

/// The rules, refusals 1 to 6, in this order; 4 is for 0 revolutions, or for read/write with more than one.
fn parse_header(image: &[u8], edition: Edition) -> Result<Header, Refusal> {
    let length = image.len() as u64;
    if !(edition.table_end()..=GREATEST).contains(&length) {
        return Err(refuse(1));
    }
    if !image.starts_with(b"SCP") {
        return Err(refuse(2));
    }
    let header = read_header(image).ok_or(refuse(1))?;
    if header.width != 0 && header.width != 16 {
        return Err(refuse(3));
    }
    if header.revolutions == 0 || (flag(&header, 4) && header.revolutions > 1) {
        return Err(refuse(4));
    }
    if header.start > header.end || u32::from(header.end) >= edition.entries() {
        return Err(refuse(5));
    }
    if header.heads > 2 {
        return Err(refuse(6));
    }
    Ok(header)
}

/// The rules, Layout: the fields of the header at their offsets.
fn read_header(image: &[u8]) -> Option<Header> {
    Some(Header {
        version: byte(image, 0x03)?,
        disk: byte(image, 0x04)?,
        revolutions: byte(image, 0x05)?,
        start: byte(image, 0x06)?,
        end: byte(image, 0x07)?,
        flags: byte(image, 0x08)?,
        width: byte(image, 0x09)?,
        heads: byte(image, 0x0A)?,
        checksum: number32(image, 0x0C)?,
    })
}

/// The rules, refusal 7: flagged, and length below 736, no "FPCS", or byte 0x2B below 0x16.
fn parse_footer(image: &[u8], edition: Edition, header: &Header) -> Result<Option<Footer>, Refusal> {
    if !has_footer(edition, header) {
        return Ok(None);
    }
    let length = image.len() as u64;
    if length < edition.table_end() + FOOTER {
        return Err(refuse(7));
    }
    let last = stretch(image, length - FOOTER, FOOTER).ok_or(refuse(7))?;
    if !last.ends_with(b"FPCS") {
        return Err(refuse(7));
    }
    let footer = read_footer(last).ok_or(refuse(7))?;
    let [_, _, _, format] = footer.versions;
    if format < 0x16 {
        return Err(refuse(7));
    }
    Ok(Some(footer))
}

/// The rules, Layout: the fields of the footer at their offsets.
fn read_footer(last: &[u8]) -> Option<Footer> {
    Some(Footer {
        offsets: [
            number32(last, 0x00)?,
            number32(last, 0x04)?,
            number32(last, 0x08)?,
            number32(last, 0x0C)?,
            number32(last, 0x10)?,
            number32(last, 0x14)?,
        ],
        created: signed64(last, 0x18)?,
        modified: signed64(last, 0x20)?,
        versions: array(last, 0x28)?,
    })
}

/// The rules, refusals 8 and 19: the present strings, each with 8, then 19, before the next; the first faulty one is the position.
fn parse_strings(body: &[u8], edition: Edition, footer: &Footer) -> Result<Vec<Text>, Refusal> {
    let mut strings = Vec::new();
    for (index, &offset) in (0..).zip(&footer.offsets) {
        if offset != 0 {
            let text = parse_string(body, edition, u64::from(offset)).ok_or(refuse_at(8, index))?;
            if valid_up_to(&text.bytes) < text.bytes.len() {
                return Err(refuse_at(19, index));
            }
            strings.push(text);
        }
    }
    Ok(strings)
}

/// The rules, Layout: a 16-bit length, that many bytes of which none is zero, and a zero byte.
fn parse_string(body: &[u8], edition: Edition, place: u64) -> Option<Text> {
    let length = u64::from(number16(body, place)?);
    let bytes = stretch(body, place + 2, length)?;
    let closing = byte(body, place + 2 + length)?;
    if place < edition.table_end() || bytes.contains(&0) || closing != 0 {
        return None;
    }
    Some(Text { place, bytes: bytes.to_vec() })
}

/// The rules, Numbers of refusal: tracks from index 0 up; the first faulty index refuses.
fn parse_tracks(image: &[u8], edition: Edition, body: &[u8], header: &Header) -> Result<BTreeMap<u32, TrackData>, Refusal> {
    let mut tracks = BTreeMap::new();
    for index in 0..edition.entries() {
        if let Some(data) = parse_slot(image, edition, body, header, index)? {
            tracks.insert(index, data);
        }
    }
    Ok(tracks)
}

/// The rules, Numbers of refusal: the track of one table entry, with 9, then 10, then 11; none if the entry is 0.
fn parse_slot(image: &[u8], edition: Edition, body: &[u8], header: &Header, index: u32) -> Result<Option<TrackData>, Refusal> {
    let entry = number32(image, 0x10 + 4 * u64::from(index)).ok_or(refuse(1))?;
    if entry == 0 {
        return Ok(None);
    }
    if !may_hold(header, index) {
        return Err(refuse_at(9, u64::from(index)));
    }
    let data = parse_track(body, edition, header, index, u64::from(entry));
    let data = data.ok_or(refuse_at(10, u64::from(index)))?;
    if !data.revolutions.iter().all(|one| flux_lies(body, one)) {
        return Err(refuse_at(11, u64::from(index)));
    }
    Ok(Some(data))
}

/// The rules, refusal 9: within start to end, and on a side that is held.
fn may_hold(header: &Header, index: u32) -> bool {
    let spanned = u32::from(header.start) <= index && index <= u32::from(header.end);
    let head = index % 2;
    let held = match header.heads {
        1 => head == 0,
        2 => head == 1,
        _ => true,
    };
    spanned && held
}

/// The rules, refusal 10: the track data header lies well, has "TRK" and its own number.
fn parse_track(body: &[u8], edition: Edition, header: &Header, index: u32, place: u64) -> Option<TrackData> {
    let length = 4 + 12 * u64::from(header.revolutions);
    let taken = stretch(body, place, length)?;
    let number = u32::from(byte(taken, 3)?);
    if place < edition.table_end() || !taken.starts_with(b"TRK") || number != index {
        return None;
    }
    let mut revolutions = Vec::new();
    for revolution in 0..u64::from(header.revolutions) {
        revolutions.push(read_revolution(taken, place, 4 + 12 * revolution)?);
    }
    Some(TrackData { place, revolutions })
}

/// The rules, Layout: a duration, a count of words and the distance of the flux from the "T".
fn read_revolution(taken: &[u8], place: u64, at: u64) -> Option<Revolution> {
    let distance = u64::from(number32(taken, at + 8)?);
    Some(Revolution { duration: number32(taken, at)?, words: number32(taken, at + 4)?, place: place + distance })
}

/// The rules, refusal 11: 2 x count bytes end at or below E; with count 0 the place is not above E.
fn flux_lies(body: &[u8], revolution: &Revolution) -> bool {
    stretch(body, revolution.place, 2 * u64::from(revolution.words)).is_some()
}
