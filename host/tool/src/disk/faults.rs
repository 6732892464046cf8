//! The faults of a DSK image, in the order of the rules: the first one is what the library refuses.

use std::fmt::Debug;

use dsk::{Block, Geometry, Reason, Refusal};

use super::layout::{sector_size, Layout, Place, GREATEST_CODE, INFORMATION, MOST_SECTORS, NAME, SIGN};
use crate::faults::{Refused, Rules};
use crate::numbers::{counted, grouped, hexadecimal};

/// A fault of a DSK image.
pub type Fault = crate::faults::Fault<Refusal>;

impl Refused for Refusal {
    fn reason(&self) -> (u8, &dyn Debug) {
        (self.reason.number(), &self.reason)
    }
}

/// The rules of standard DSK images.
#[derive(Clone, Copy)]
pub struct Standard;

impl Rules for Standard {
    type Refusal = Refusal;

    fn validate(self, image: &[u8]) -> Result<(), Refusal> {
        dsk::validate(image)
    }

    fn faults(self, image: &[u8]) -> Vec<Fault> {
        let mut search = Search { layout: Layout(image), found: Vec::new() };
        search.sign();
        search.least_length();
        search.geometry();
        if let Some(geometry) = search.layout.right_geometry() {
            search.length(geometry);
            let size = search.layout.len();
            Place::all(geometry).take_while(|place| place.end <= size).for_each(|place| search.block(&place));
        }
        search.found
    }
}

/// A search for faults.
struct Search<'a> {
    layout: Layout<'a>,
    found: Vec<Fault>,
}

impl Search<'_> {
    /// Notes a fault of the image as a whole.
    fn note(&mut self, reason: Reason, text: String) {
        self.found.push(Fault { refusal: Refusal { reason, position: 0 }, text });
    }

    /// Notes a fault of a block.
    fn note_at(&mut self, place: &Place, reason: Reason, text: String) {
        let Place { index, track, side, start, .. } = *place;
        let text = format!("track {track}, side {side} (block {index} at {}): {text}", grouped(start));
        self.found.push(Fault { refusal: Refusal { reason, position: index }, text });
    }

    /// What the image opens with.
    fn sign(&mut self) {
        match self.layout.array::<8>(0) {
            Some(SIGN) => {}
            None => self.note(Reason::Sign, format!("{} bytes, fewer than the 8 of \"MV - CPC\"", self.layout.len())),
            Some(sign) => {
                let other = match &sign {
                    b"EXTENDED" => " (an extended DSK image?)",
                    [b'S', b'C', b'P', ..] => " (an SCP image?)",
                    _ => "",
                };
                self.note(Reason::Sign, format!("the first eight bytes are {}{other}, not \"MV - CPC\"", hexadecimal(&sign)));
            }
        }
    }

    /// The length that every image has.
    fn least_length(&mut self) {
        let size = self.layout.len();
        if size < INFORMATION {
            self.note(Reason::Length, format!("{size} bytes, fewer than {INFORMATION}"));
        }
    }

    /// Tracks, sides and track size.
    fn geometry(&mut self) {
        let Some(Geometry { tracks, sides, track_size }) = self.layout.geometry() else { return };
        if tracks == 0 {
            self.note(Reason::Geometry, "byte 0x30 (tracks) is 0, not 1 to 255".to_string());
        }
        if !matches!(sides, 1 | 2) {
            self.note(Reason::Geometry, format!("byte 0x31 (sides) is {sides}, not 1 or 2"));
        }
        if u64::from(track_size) < INFORMATION {
            self.note(Reason::Geometry, format!("bytes 0x32 and 0x33 (track size) are {track_size}, below {INFORMATION}"));
        }
    }

    /// The length that the geometry wants.
    fn length(&mut self, geometry: Geometry) {
        let (size, Geometry { tracks, sides, track_size }) = (self.layout.len(), geometry);
        let due = INFORMATION + u64::from(tracks) * u64::from(sides) * u64::from(track_size);
        if (INFORMATION..due).contains(&size) {
            let (tracks, sides) = (counted(tracks.into(), "track"), counted(sides.into(), "side"));
            let (size, due, track_size) = (grouped(size), grouped(due), counted(track_size.into(), "byte"));
            self.note(Reason::Length, format!("{size} bytes, fewer than {due} ({INFORMATION} + {tracks} x {sides} x {track_size})"));
        }
    }

    /// A block that is whole in the file; without its name, nothing in it counts.
    fn block(&mut self, place: &Place) {
        let name = self.layout.array(place.start).unwrap_or_default();
        if name != NAME {
            self.note_at(place, Reason::Block, format!("the name is {}, not \"Track-Info\\r\\n\"", hexadecimal(&name)));
            return;
        }
        self.numbers(place);
        let Some(block) = self.layout.block(place) else { return };
        let (code, number) = (place.code(), place.code() + 1);
        if block.sectors > MOST_SECTORS {
            let text = format!("the byte at {} is {} sectors, more than {MOST_SECTORS}", grouped(number), block.sectors);
            self.note_at(place, Reason::Sectors, text);
        }
        if block.size_code > GREATEST_CODE {
            let text = format!("the byte at {} is size code {}, above {GREATEST_CODE}", grouped(code), block.size_code);
            self.note_at(place, Reason::Sectors, text);
        } else {
            self.codes(place, &block);
            self.data(place, &block);
        }
    }

    /// The numbers of a block.
    fn numbers(&mut self, place: &Place) {
        let due = [("track", place.track), ("side", place.side)];
        for ((at, found), (name, due)) in (place.numbers()..).zip(self.layout.numbers(place).unwrap_or_default()).zip(due) {
            if found != due {
                self.note_at(place, Reason::Block, format!("the byte at {} is {name} {found}, not {due}", grouped(at)));
            }
        }
    }

    /// The codes of a block's sectors.
    fn codes(&mut self, place: &Place, block: &Block) {
        for (index, sector) in (0..).zip(self.layout.sectors(place, block)) {
            if sector.size_code > block.size_code {
                let (at, code) = (grouped(place.entry(index) + 3), sector.size_code);
                let text = format!("sector {index}: the byte at {at} is size code {code}, above the block's {}", block.size_code);
                self.note_at(place, Reason::Sectors, text);
            }
        }
    }

    /// The room for a block's data; a number of sectors that is refused itself says nothing of it.
    fn data(&mut self, place: &Place, block: &Block) {
        let (sectors, size) = (block.sectors, sector_size(block.size_code).unwrap_or(0));
        let past = place.data() + u64::from(sectors) * size;
        if sectors <= MOST_SECTORS && past > place.end {
            let (size, at, past, end) = (grouped(size), grouped(place.data()), grouped(past), grouped(place.end));
            self.note_at(place, Reason::Data, format!("{sectors} x {size} bytes at {at} end at {past}, past the block's end at {end}"));
        }
    }
}

#[cfg(test)]
mod tests {
    use super::*;
    use scp_compare::dsk_generate::image;
    use scp_compare::random::Random;

    #[test]
    fn the_first_fault_is_what_the_library_refuses() {
        let mut met = [0; 7];
        for number in 0..60_000 {
            let image = image(&mut Random::of_case(9, number));
            let verdict = dsk::validate(&image).err();
            let faults = Standard.faults(&image);
            assert_eq!(faults.first().map(|fault| fault.refusal), verdict, "case {number}: {faults:?}");
            met[verdict.map_or(0, |refusal| usize::from(refusal.reason.number()) - 29)] += 1;
        }
        assert!(met.iter().all(|&met| met > 100), "a number hardly came up: {met:?}");
    }
}
