//! Images from parts: what the parts are, and how they are laid out.

use crate::random::Random;
use scp::Edition;
use std::ops::Range;

/// How long a footer is.
pub const FOOTER_SIZE: usize = 48;

/// Where the checksum stands.
pub const CHECKSUM: Range<usize> = 12..16;

/// Where the table has the entry of a track.
pub fn entry_at(track: usize) -> usize {
    16 + 4 * track
}

/// Where the track data header at a place has a revolution's duration; its count and its distance follow.
pub fn duration_at(header: usize, revolution: usize) -> usize {
    header + 4 + 12 * revolution
}

/// The little-endian number at a place of the image, 0 where it is not there.
pub fn number_at(image: &[u8], place: usize) -> u32 {
    image.get(place..place + 4).map_or(0, |bytes| u32::from_le_bytes([bytes[0], bytes[1], bytes[2], bytes[3]]))
}

/// The bytes of flux words.
pub fn flux_bytes(words: &[u16]) -> Vec<u8> {
    words.iter().flat_map(|word| word.to_be_bytes()).collect()
}

/// A revolution: its duration and its words.
#[derive(Clone)]
pub struct RevolutionPart {
    pub duration: u32,
    pub words: Vec<u16>,
}

/// A track: its number and its revolutions.
#[derive(Clone)]
pub struct TrackPart {
    pub number: u8,
    pub revolutions: Vec<RevolutionPart>,
}

/// A footer: six strings or none, two times, four version bytes.
#[derive(Clone)]
pub struct FooterPart {
    pub strings: [Option<Vec<u8>>; 6],
    pub created: i64,
    pub modified: i64,
    pub versions: [u8; 4],
}

/// How the parts come in the file.
#[derive(Clone, Copy, PartialEq)]
pub enum Layout {
    /// Header, flux, header, flux .. from the end of the table on, as drives' tools write it.
    InOrder,
    /// As in order, with bytes of no meaning between the parts.
    Gaps,
    /// Any order and gaps; a track's flux is still above its header, since a distance has no sign.
    Shuffled,
}

/// All parts of an image.
#[derive(Clone)]
pub struct Parts {
    /// The edition whose table the image has.
    pub edition: Edition,
    pub version: u8,
    pub disk: u8,
    pub revolutions: u8,
    pub start: u8,
    pub end: u8,
    pub flags: u8,
    pub width: u8,
    pub heads: u8,
    pub tracks: Vec<TrackPart>,
    /// The footer, whatever FLAGS bit 5 says.
    pub footer: Option<FooterPart>,
    /// Bytes after the tracks, as a timestamp.
    pub trailer: Vec<u8>,
    pub layout: Layout,
}

/// A piece of the file: where it is to be noted, and its bytes.
enum Piece {
    TrackHeader { track: usize },
    Flux { track: usize, revolution: usize },
    Text { string: usize },
}

/// Where every piece came to lie.
pub struct Placed {
    pub image: Vec<u8>,
    /// By track: the place of its header.
    pub headers: Vec<usize>,
    /// By track and revolution: the place of its flux.
    pub flux: Vec<Vec<usize>>,
    /// The places of the strings; 0 is absent.
    pub strings: [u32; 6],
}

/// Sets the bytes from a place on, as far as they lie in the image.
pub fn set(image: &mut [u8], place: usize, bytes: &[u8]) {
    if let Some(part) = image.get_mut(place..place + bytes.len()) {
        part.copy_from_slice(bytes);
    }
}

/// Whether FLAGS bit 4, read/write, is set.
pub fn is_read_write(image: &[u8]) -> bool {
    image.get(8).is_some_and(|flags| flags & 0x10 != 0)
}

/// The sum of all bytes from 0x10 on, modulo 2^32.
fn byte_sum(image: &[u8]) -> u32 {
    image.iter().skip(16).fold(0, |sum, &byte| sum.wrapping_add(byte.into()))
}

/// Stores the checksum that the image is to have: 0 on a read/write image, else the byte sum.
pub fn store_checksum(image: &mut [u8]) {
    let sum = if is_read_write(image) { 0 } else { byte_sum(image) };
    set(image, CHECKSUM.start, &sum.to_le_bytes());
}

/// What every rewrite keeps of the checksum: on a read/write image what is stored, else that less the byte sum.
pub fn checksum_kept(image: &[u8]) -> u32 {
    let stored = number_at(image, CHECKSUM.start);
    stored.wrapping_sub(if is_read_write(image) { 0 } else { byte_sum(image) })
}

impl Parts {
    /// The image, with its checksum.
    pub fn build(&self, random: &mut Random) -> Placed {
        let mut placed = Placed {
            image: self.header(),
            headers: vec![0; self.tracks.len()],
            flux: self.tracks.iter().map(|track| vec![0; track.revolutions.len()]).collect(),
            strings: [0; 6],
        };
        if self.layout != Layout::InOrder && random.once_in(2) {
            // room for the two entries that revision 1.4 does not have
            placed.image.resize(Edition::V1_6.table_end(), 0);
        }
        for piece in self.pieces(random) {
            if self.layout != Layout::InOrder && random.once_in(2) {
                let gap = random.below(6);
                placed.image.extend(random.bytes(gap));
            }
            let place = placed.image.len();
            match piece {
                Piece::TrackHeader { track } => placed.headers[track] = place,
                Piece::Flux { track, revolution } => placed.flux[track][revolution] = place,
                Piece::Text { string } => placed.strings[string] = place as u32,
            }
            placed.image.extend(self.bytes_of(&piece));
        }
        placed.image.extend(&self.trailer);
        if let Some(footer) = &self.footer {
            placed.image.extend(footer_bytes(footer, &placed.strings));
        }
        self.note_places(&mut placed);
        store_checksum(&mut placed.image);
        placed
    }

    /// The header and an empty table, without the checksum.
    fn header(&self) -> Vec<u8> {
        let mut image = vec![0; self.edition.table_end()];
        let fields = [self.version, self.disk, self.revolutions, self.start, self.end, self.flags, self.width, self.heads];
        set(&mut image, 0, b"SCP");
        set(&mut image, 3, &fields);
        image
    }

    /// The pieces in the order of the layout: a track's flux after its header.
    fn pieces(&self, random: &mut Random) -> Vec<Piece> {
        let mut pieces = Vec::new();
        for (track, part) in self.tracks.iter().enumerate() {
            pieces.push((0.0, Piece::TrackHeader { track }));
            pieces.extend((0..part.revolutions.len()).map(|revolution| (0.0, Piece::Flux { track, revolution })));
        }
        if let Some(footer) = &self.footer {
            let present = (0..6).filter(|&string| footer.strings[string].is_some());
            pieces.extend(present.map(|string| (0.0, Piece::Text { string })));
        }
        if self.layout == Layout::Shuffled {
            let unit = |random: &mut Random| random.below(1 << 20) as f64 / (1 << 20) as f64;
            let headers: Vec<f64> = self.tracks.iter().map(|_| unit(random)).collect();
            for (key, piece) in &mut pieces {
                *key = match piece {
                    Piece::TrackHeader { track } => headers[*track],
                    Piece::Flux { track, .. } => headers[*track] + unit(random),
                    Piece::Text { .. } => 2.0 * unit(random),
                };
            }
            pieces.sort_by(|a, b| a.0.total_cmp(&b.0));
        }
        pieces.into_iter().map(|(_, piece)| piece).collect()
    }

    /// The bytes of a piece; a track data header gets its distances later.
    fn bytes_of(&self, piece: &Piece) -> Vec<u8> {
        match *piece {
            Piece::TrackHeader { track } => {
                let part = &self.tracks[track];
                let mut bytes = [b"TRK", &[part.number][..]].concat();
                for revolution in &part.revolutions {
                    bytes.extend(revolution.duration.to_le_bytes());
                    bytes.extend((revolution.words.len() as u32).to_le_bytes());
                    bytes.extend([0; 4]);
                }
                bytes
            }
            Piece::Flux { track, revolution } => flux_bytes(&self.tracks[track].revolutions[revolution].words),
            Piece::Text { string } => {
                let text = self.footer.as_ref().and_then(|footer| footer.strings[string].clone()).unwrap_or_default();
                [&(text.len() as u16).to_le_bytes()[..], &text, &[0]].concat()
            }
        }
    }

    /// Puts the table's entries and the distances of the flux.
    fn note_places(&self, placed: &mut Placed) {
        for (track, part) in self.tracks.iter().enumerate() {
            let header = placed.headers[track];
            set(&mut placed.image, entry_at(part.number.into()), &(header as u32).to_le_bytes());
            for revolution in 0..part.revolutions.len() {
                let distance = (placed.flux[track][revolution] - header) as u32;
                set(&mut placed.image, duration_at(header, revolution) + 8, &distance.to_le_bytes());
            }
        }
    }
}

/// The bytes of a footer.
pub fn footer_bytes(footer: &FooterPart, strings: &[u32; 6]) -> Vec<u8> {
    let mut bytes: Vec<u8> = strings.iter().flat_map(|offset| offset.to_le_bytes()).collect();
    bytes.extend(footer.created.to_le_bytes());
    bytes.extend(footer.modified.to_le_bytes());
    bytes.extend(footer.versions);
    bytes.extend(b"FPCS");
    bytes
}
