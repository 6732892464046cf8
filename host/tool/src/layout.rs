//! What the bytes of an image say, accepted or not: for reasons, and for images that are refused.

use scp::{Edition, Footer, Header, Revolution};

use crate::{files, parts};

/// Where the table of the tracks starts; the checksum adds the bytes from here on.
const TABLE: usize = 0x10;

/// How many bytes a footer has.
const FOOTER_SIZE: u64 = 48;

/// The four bytes that close a footer.
pub const FOOTER_SIGN: [u8; 4] = *b"FPCS";

/// The bit of FLAGS that announces a footer.
const FOOTER_FLAG: u8 = 0x20;

/// What stands where a track data header is to be.
pub enum TrackHeader {
    /// One of a track.
    Of(u8),
    /// None: it would start before the end of the table.
    TooLow,
    /// None: it would end past the end, at this offset.
    TooHigh(u64),
    /// Other bytes than "TRK".
    Other([u8; 3]),
}

/// The bytes of any file, read as those of an image by an edition.
#[derive(Clone, Copy)]
pub struct Layout<'a> {
    /// The bytes.
    pub bytes: &'a [u8],
    /// The edition.
    pub edition: Edition,
}

impl<'a> Layout<'a> {
    /// As many bytes from an offset on, where the file has them.
    pub fn array<const N: usize>(self, offset: u64) -> Option<[u8; N]> {
        parts::array(self.bytes, offset)
    }

    /// The bytes from an offset on, where the file has so many.
    pub fn part(self, offset: u64, size: u64) -> Option<&'a [u8]> {
        parts::part(self.bytes, offset, size)
    }

    /// The 32-bit number at an offset.
    fn number(self, offset: u64) -> Option<u32> {
        self.array(offset).map(u32::from_le_bytes)
    }

    /// The first bytes of the file, if it has as many as there are before the table.
    pub fn header(self) -> Option<Header> {
        let [_, _, _, version, disk, revolutions, start, end, flags, width, heads, _, sum @ ..] = self.array::<TABLE>(0)?;
        Some(Header { version, disk, revolutions, start, end, flags, width, heads, checksum: u32::from_le_bytes(sum) })
    }

    /// The sum of the bytes that the checksum adds.
    pub fn sum(self) -> u32 {
        let bytes = self.bytes.get(TABLE..).unwrap_or_default();
        bytes.iter().fold(0, |sum, &byte| sum.wrapping_add(u32::from(byte)))
    }

    /// How many bytes the file has.
    pub fn len(self) -> u64 {
        self.bytes.len() as u64
    }

    /// Where the table ends: tracks, flux and strings start here or later.
    pub fn table_end(self) -> u64 {
        self.edition.table_end() as u64
    }

    /// Whether FLAGS announces a footer, by an edition that has one.
    pub fn has_footer(self) -> bool {
        self.edition.has_footer() && self.header().is_some_and(|header| header.flags & FOOTER_FLAG != 0)
    }

    /// How many bytes an image with a footer has at least.
    pub fn least_with_footer(self) -> u64 {
        self.table_end() + FOOTER_SIZE
    }

    /// Where tracks, flux and strings must have ended: before the footer where one is announced.
    pub fn end(self) -> u64 {
        let footer = if self.has_footer() { FOOTER_SIZE } else { 0 };
        self.len().saturating_sub(footer)
    }

    /// The last bytes of the file, if FLAGS announces a footer and it has room; and the four bytes that close it.
    pub fn footer(self) -> Option<(Footer, [u8; 4])> {
        if !self.has_footer() || self.len() < self.least_with_footer() {
            return None;
        }
        let start = self.end();
        let mut strings = [0; 6];
        for (string, offset) in strings.iter_mut().zip((start..).step_by(4)) {
            *string = self.number(offset)?;
        }
        let (created, modified) = (self.array(start + 0x18)?, self.array(start + 0x20)?);
        let (created, modified) = (i64::from_le_bytes(created), i64::from_le_bytes(modified));
        Some((Footer { strings, created, modified, versions: self.array(start + 0x28)? }, self.array(start + 0x2C)?))
    }

    /// The tracks whose entry is not 0, each with its entry; none where the table is not whole.
    pub fn entries(self) -> impl Iterator<Item = (u32, u64)> + 'a {
        let table = self.bytes.get(TABLE..self.edition.table_end()).unwrap_or_default().chunks_exact(4);
        let entries = table.map(|entry| u64::from(u32::from_le_bytes([entry[0], entry[1], entry[2], entry[3]])));
        (0..).zip(entries).filter(|&(_, entry)| entry != 0)
    }

    /// The revolutions of each track; on a read/write image at most one, whatever byte 0x05 says.
    pub fn revolutions(self) -> u32 {
        let most = |header: &Header| if header.is_read_write() { 1 } else { u8::MAX };
        self.header().map_or(0, |header| header.revolutions.min(most(&header)).into())
    }

    /// How many bytes each track data header has.
    pub fn track_header_size(self) -> u64 {
        4 + 12 * u64::from(self.revolutions())
    }

    /// What stands where the table has a track data header.
    pub fn track_header(self, entry: u64) -> TrackHeader {
        let past = entry + self.track_header_size();
        match self.array(entry) {
            _ if entry < self.table_end() => TrackHeader::TooLow,
            Some([b'T', b'R', b'K', track]) if past <= self.end() => TrackHeader::Of(track),
            Some([sign @ .., _]) if past <= self.end() => TrackHeader::Other(sign),
            _ => TrackHeader::TooHigh(past),
        }
    }

    /// Where the track data header at an offset has the record of a revolution.
    pub fn record_offset(track_header: u64, revolution: u32) -> u64 {
        track_header + 4 + 12 * u64::from(revolution)
    }

    /// A revolution as the track data header at an offset describes it.
    pub fn revolution(self, track_header: u64, revolution: u32) -> Option<Revolution> {
        let record = Layout::record_offset(track_header, revolution);
        let (duration, words, distance) = (self.number(record)?, self.number(record + 4)?, self.number(record + 8)?);
        Some(Revolution { duration, words, offset: track_header + u64::from(distance) })
    }

    /// Whether the file is longer than any image; then not all of it was read.
    pub fn is_cut(self) -> bool {
        files::is_cut(self.bytes)
    }
}
