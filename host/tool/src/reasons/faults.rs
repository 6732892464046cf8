//! The faults of an image, in the order of the rules: the first one is what the library refuses.

use std::fmt::Debug;

use scp::{Footer, Header, Reason, Refusal, LONGEST_IMAGE, STRING_NAMES};

use super::text;
use crate::faults::Refused;
use crate::layout::{Layout, TrackHeader, FOOTER_SIGN};
use crate::numbers::{counted, grouped, hexadecimal};

/// The format version of the oldest footer.
const FOOTER_FORMAT: u8 = 0x16;

/// A fault of an SCP image.
pub type Fault = crate::faults::Fault<Refusal>;

impl Refused for Refusal {
    fn reason(&self) -> (u8, &dyn Debug) {
        (self.reason.number(), &self.reason)
    }
}

/// All faults that can be told apart; none for an image that the library accepts.
pub fn faults(layout: Layout) -> Vec<Fault> {
    Search::of(layout, |search, header| {
        search.footer(header);
        layout.entries().for_each(|(track, entry)| search.track(header, track, entry));
        search.sum(header);
    })
}

/// Those that a direct question about a track looks for: of the length, of the header and of that track.
pub fn faults_of_track(layout: Layout, track: u32) -> Vec<Fault> {
    Search::of(layout, |search, header| {
        let entries = layout.entries().filter(|&(present, _)| present == track);
        entries.for_each(|(track, entry)| search.track(header, track, entry));
    })
}

/// A search for faults.
struct Search<'a> {
    layout: Layout<'a>,
    found: Vec<Fault>,
}

impl<'a> Search<'a> {
    /// The faults of the length and the header, and those that are found behind it where all of the file was read.
    fn of(layout: Layout<'a>, behind: impl FnOnce(&mut Search<'a>, &Header)) -> Vec<Fault> {
        let mut search = Search { layout, found: Vec::new() };
        search.size();
        if let Some(header) = layout.header() {
            search.header(&header);
            if !layout.is_cut() {
                behind(&mut search, &header);
            }
        }
        search.found
    }

    /// Notes a fault at a string or a track.
    fn note_at(&mut self, reason: Reason, position: u32, text: String) {
        self.found.push(Fault { refusal: Refusal { reason, position: position.into() }, text });
    }

    /// Notes a fault of the image as a whole.
    fn note(&mut self, reason: Reason, text: String) {
        self.note_at(reason, 0, text);
    }

    /// The length.
    fn size(&mut self) {
        let (size, least) = (self.layout.len(), self.layout.table_end());
        if size < least {
            self.note(Reason::Size, format!("{size} bytes, fewer than {least}"));
        } else if self.layout.is_cut() {
            self.note(Reason::Size, format!("more than {} bytes", grouped(LONGEST_IMAGE as u64)));
        }
    }

    /// The fields of the header.
    fn header(&mut self, header: &Header) {
        let Header { revolutions, start, end, width, heads, .. } = *header;
        let sign = self.layout.array::<3>(0).unwrap_or_default();
        if sign != *b"SCP" {
            let other = if self.layout.bytes.starts_with(b"MV - CPC") { " (a DSK image?)" } else { "" };
            self.note(Reason::Sign, format!("the first three bytes are {}{other}, not SCP", hexadecimal(&sign)));
        }
        if width != 0 && width != 16 {
            self.note(Reason::Width, format!("byte 0x09 is {width}, not 0 or 16"));
        }
        if revolutions == 0 {
            self.note(Reason::Revolutions, "byte 0x05 is 0, not 1 to 255".to_string());
        } else if header.is_read_write() && revolutions > 1 {
            self.note(Reason::Revolutions, format!("byte 0x05 is {revolutions}, but a read/write image (FLAGS bit 4) has 1"));
        }
        if start > end {
            self.note(Reason::Span, format!("the start track {start} is above the end track {end}"));
        }
        if u32::from(end) >= self.layout.edition.tracks() {
            self.note(Reason::Span, format!("the end track {end} is above {}", self.layout.edition.tracks() - 1));
        }
        if heads > 2 {
            self.note(Reason::Heads, format!("byte 0x0A is {heads}, not 0, 1 or 2"));
        }
    }

    /// The footer, and its strings where it is one.
    fn footer(&mut self, header: &Header) {
        let Some((footer, sign)) = self.layout.footer() else {
            if self.layout.has_footer() {
                let (flags, size, least) = (header.flags, self.layout.len(), self.layout.least_with_footer());
                self.note(Reason::Footer, format!("FLAGS 0x{flags:02X} announces one, but {size} bytes are fewer than {least}"));
            }
            return;
        };
        let Footer { strings, versions: [.., format], .. } = footer;
        if sign != FOOTER_SIGN {
            self.note(Reason::Footer, format!("the last four bytes are {}, not FPCS", hexadecimal(&sign)));
        }
        if format < FOOTER_FORMAT {
            self.note(Reason::Footer, format!("the format version 0x{format:02X} is below 0x{FOOTER_FORMAT:02X}"));
        }
        if sign == FOOTER_SIGN {
            let present = (0..).zip(STRING_NAMES.into_iter().zip(strings)).filter(|(_, (_, offset))| *offset != 0);
            present.for_each(|(number, (name, offset))| self.string(number, name, offset.into()));
        }
    }

    /// A string that is there; the text is looked at where the string is right.
    fn string(&mut self, number: u32, name: &str, offset: u64) {
        match self.text(offset) {
            Err(wrong) => self.note_at(Reason::String, number, format!("{name}: {wrong}")),
            Ok(text) => {
                if let Some(wrong) = text::fault(text, offset + 2) {
                    self.note_at(Reason::Text, number, format!("{name} (string {number} at {}): {wrong}", grouped(offset)));
                }
            }
        }
    }

    /// The text of the string at an offset, or what is wrong with the string.
    fn text(&self, offset: u64) -> Result<&'a [u8], String> {
        let (start, end) = (self.layout.table_end(), self.layout.end());
        if offset < start {
            return Err(format!("its offset {offset} is below {start}"));
        }
        if offset + 2 > end {
            return Err(format!("its length at {} ends past {}", grouped(offset), grouped(end)));
        }
        let size = u64::from(u16::from_le_bytes(self.layout.array(offset).unwrap_or_default()));
        let past = offset + 2 + size + 1;
        if past > end {
            let (size, offset) = (grouped(size), grouped(offset));
            return Err(format!("2 + {size} + 1 bytes at {offset} end at {}, past {}", grouped(past), grouped(end)));
        }
        let (text, last) = (self.layout.part(offset + 2, size).unwrap_or_default(), self.layout.array::<1>(past - 1).unwrap_or_default());
        match text.iter().position(|&byte| byte == 0) {
            Some(zero) => Err(format!("the byte at {}, within its {}, is 0", grouped(offset + 2 + zero as u64), counted(size, "byte"))),
            None if last == [0] => Ok(text),
            None => {
                Err(format!("the byte at {}, after its {}, is {}, not 0", grouped(past - 1), counted(size, "byte"), hexadecimal(&last)))
            }
        }
    }

    /// A track with an entry.
    fn track(&mut self, header: &Header, track: u32, entry: u64) {
        self.slot(header, track);
        if self.track_header(track, entry) {
            self.flux(track, entry);
        }
    }

    /// Whether a track may be there; a span or side that is refused itself says nothing of it.
    fn slot(&mut self, header: &Header, track: u32) {
        let (start, end) = (u32::from(header.start), u32::from(header.end));
        if start <= end && end < self.layout.edition.tracks() && !(start..=end).contains(&track) {
            self.note_at(Reason::Slot, track, format!("track {track} has an entry, but the tracks are {start} to {end}"));
        }
        let held = match header.heads {
            1 => 0,
            2 => 1,
            _ => return,
        };
        if track % 2 != held {
            self.note_at(Reason::Slot, track, format!("track {track} has an entry, but only side {held} is held (heads {})", header.heads));
        }
    }

    /// The track data header; whether there is one, so that its records can be read.
    fn track_header(&mut self, track: u32, entry: u64) -> bool {
        let (at, end) = (grouped(entry), grouped(self.layout.end()));
        let text = match self.layout.track_header(entry) {
            TrackHeader::Of(number) if u32::from(number) == track => return true,
            TrackHeader::Of(number) => format!("its header at {at} is that of track {number}"),
            TrackHeader::TooLow => format!("its header at {at} is below {}", self.layout.table_end()),
            TrackHeader::TooHigh(past) => {
                let size = grouped(self.layout.track_header_size());
                format!("its header of {size} bytes at {at} ends at {}, past {end}", grouped(past))
            }
            TrackHeader::Other(sign) => format!("the three bytes at {at} are {}, not TRK", hexadecimal(&sign)),
        };
        self.note_at(Reason::Track, track, format!("track {track}: {text}"));
        matches!(self.layout.track_header(entry), TrackHeader::Of(_))
    }

    /// The flux of each revolution of a track.
    fn flux(&mut self, track: u32, entry: u64) {
        let end = self.layout.end();
        for revolution in 0..self.layout.revolutions() {
            let Some(found) = self.layout.revolution(entry, revolution) else { return };
            let past = found.offset + 2 * u64::from(found.words);
            if past > end {
                let (words, at) = (grouped(found.words.into()), grouped(found.offset));
                let text = format!("2 x {words} bytes at {at} end at {}, past {}", grouped(past), grouped(end));
                self.note_at(Reason::Flux, track, format!("track {track}, revolution {revolution}: {text}"));
            }
        }
    }

    /// The checksum, where the table is whole.
    fn sum(&mut self, header: &Header) {
        if self.layout.len() < self.layout.table_end() {
            return;
        }
        let (stored, sum) = (header.checksum, self.layout.sum());
        if header.is_read_write() {
            if stored != 0 {
                self.note(Reason::Sum, format!("stored {}, but a read/write image (FLAGS bit 4) stores 0", grouped(stored.into())));
            }
        } else if stored != sum {
            self.note(Reason::Sum, format!("stored {}, the bytes add up to {}", grouped(stored.into()), grouped(sum.into())));
        }
    }
}
