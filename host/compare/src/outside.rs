//! Images laid out as real tools write them, and the worked examples of the public text.

use crate::image::{set, store_checksum, FooterPart, Layout, Parts, RevolutionPart, TrackPart, FOOTER_SIZE};
use crate::random::Random;
use scp::Edition;

/// Cells of a double-density disk at 25 ns: intervals of 4, 6 and 8 µs with some jitter, now and then a long gap.
pub fn flux_words(random: &mut Random, count: usize) -> Vec<u16> {
    let word = |random: &mut Random| match random.below(2000) {
        0 => 0,
        _ => random.pick(&[160, 240, 320]) - 8 + random.below(17) as u16,
    };
    let mut words: Vec<u16> = (0..count).map(|_| word(random)).collect();
    if let Some(last) = words.last_mut() {
        *last = 160;
    }
    words
}

/// What a tool writes: by which edition, which tracks, how many revolutions, and what comes after the flux.
#[derive(Clone, Copy)]
pub struct Style {
    pub edition: Edition,
    pub version: u8,
    pub disk: u8,
    pub flags: u8,
    pub heads: u8,
    pub revolutions: u8,
    pub last_track: u8,
    pub timestamp: &'static str,
    pub application: &'static str,
}

/// A double-sided capture of five revolutions, with the timestamp after the flux and a footer that names its application.
pub const CAPTURE: Style = Style {
    edition: Edition::V1_6,
    version: 0,
    disk: 0x80,
    flags: 0x23,
    heads: 0,
    revolutions: 5,
    last_track: 159,
    timestamp: "01/05/2026 10:14:27 AM",
    application: "SuperCard Pro software v2.20",
};

/// An older capture without footer, version 1.6 in the header.
pub const OLD_CAPTURE: Style =
    Style { version: 0x16, flags: 0x01, revolutions: 3, timestamp: "07/14/2014 09:00:00 PM", application: "", ..CAPTURE };

/// A capture by revision 1.4: the first track data header at 0x2A8, an Amiga disk, and the timestamp as the last bytes.
pub const CAPTURE_1_4: Style = Style {
    edition: Edition::V1_4,
    version: 0x15,
    disk: 0x04,
    flags: 0x01,
    timestamp: "11/22/2014 5:15:21 PM",
    application: "",
    ..CAPTURE
};

/// As many tracks as revision 1.4 has, of two revolutions, the default of that time, and normalized.
pub const FULL_1_4: Style = Style { last_track: 165, revolutions: 2, flags: 0x0B, ..CAPTURE_1_4 };

/// One side by revision 1.4, read/write, and no timestamp.
pub const READ_WRITE_1_4: Style = Style { heads: 2, revolutions: 1, last_track: 165, flags: 0x11, timestamp: "", ..CAPTURE_1_4 };

/// A single-sided capture: every other entry.
pub const SINGLE_SIDED: Style = Style { heads: 1, revolutions: 2, timestamp: "", application: "Greaseweazle 1.16", flags: 0x61, ..CAPTURE };

/// A read/write image of one revolution, as a drive emulator keeps it.
pub const READ_WRITE: Style = Style { flags: 0x31, revolutions: 1, timestamp: "", application: "HxC", ..CAPTURE };

/// The image of a style, with so many words a revolution.
pub fn image(style: &Style, words: usize) -> Vec<u8> {
    with_strings(style, words, [None, None, None, None, Some(style.application.as_bytes().to_vec()), None])
}

/// The same with other strings, where it has a footer.
pub fn with_strings(style: &Style, words: usize, strings: [Option<Vec<u8>>; 6]) -> Vec<u8> {
    let mut random = Random::new(4711);
    let step = if style.heads == 0 { 1 } else { 2 };
    let first = u8::from(style.heads == 2);
    let revolution =
        |random: &mut Random| RevolutionPart { duration: 8_000_000 + random.below(4000) as u32 - 2000, words: flux_words(random, words) };
    let mut tracks = Vec::new();
    for number in (first..=style.last_track).step_by(step) {
        tracks.push(TrackPart { number, revolutions: (0..style.revolutions).map(|_| revolution(&mut random)).collect() });
    }
    let footer = (style.flags & 0x20 != 0).then_some(FooterPart {
        strings,
        created: 1_767_608_067,
        modified: 1_767_608_067,
        versions: [0x22, 0x12, 0x13, 0x16],
    });
    let parts = Parts {
        edition: style.edition,
        version: style.version,
        disk: style.disk,
        revolutions: style.revolutions,
        start: 0,
        end: style.last_track,
        flags: style.flags,
        width: 0,
        heads: style.heads,
        tracks,
        footer,
        trailer: style.timestamp.as_bytes().to_vec(),
        layout: Layout::InOrder,
    };
    parts.build(&mut random).image
}

/// A string of five characters, one without its closing zero, and one with the byte that the text's example has for "a": ill-formed.
pub const STRING: &[u8; 8] = b"\x05\0Amiga\0";
pub const NO_STRING: &[u8; 8] = b"\x05\0Amigas";
pub const ILL_FORMED: &[u8; 8] = b"\x05\0Amig\x97\0";

/// One track of two revolutions of four words: those of the first are also the fifth string of the footer, if they are a string of
/// well-formed text. If not, the image opens by 1.4 alone.
pub fn string_in_flux(words: &[u8; 8]) -> Vec<u8> {
    let mut image = image(&Style { last_track: 0, revolutions: 2, timestamp: "", ..CAPTURE }, 4);
    let flux = scp::revolution(&image, Edition::V1_4, 0, 0).expect("it is there").offset;
    let slot = image.len() - FOOTER_SIZE + 4 * 4;
    set(&mut image, flux as usize, words);
    set(&mut image, slot, &(flux as u32).to_le_bytes());
    store_checksum(&mut image);
    image
}

/// The images that the programs of the library are run on, each with the name of its file.
pub fn stored_images() -> Vec<(String, Vec<u8>)> {
    let mut images = Vec::new();
    for folder in ["../../crates/scp_test/data", "../../crates/rewrite_test/data"] {
        let files: Vec<_> = std::fs::read_dir(folder).expect("the folder is there").map(|file| file.unwrap().path()).collect();
        assert!(!files.is_empty(), "{folder} has images");
        images.extend(files.into_iter().map(|file| (file.display().to_string(), std::fs::read(&file).expect("it is read"))));
    }
    images
}

/// Image A with other flux, and its checksum.
pub fn image_a_with_flux(flux: &[u8]) -> Vec<u8> {
    let (count, place) = (696, 704);
    let mut image = scp::example::image_a();
    image.truncate(place);
    image.extend_from_slice(flux);
    set(&mut image, count, &(flux.len() as u32 / 2).to_le_bytes());
    store_checksum(&mut image);
    image
}
