//! What the questions answer, each with how it is made of the numbers that the archive gives.

/// The strings of a footer, in the order of [`Footer::strings`].
pub const STRING_NAMES: [&str; 6] = ["maker", "model", "serial", "creator", "application", "comments"];

/// The fields of the header.
#[derive(Clone, Copy, Debug, PartialEq, Eq)]
pub struct Header {
    /// The version byte, any.
    pub version: u8,
    /// The disk type, any.
    pub disk: u8,
    /// Revolutions per track, 1 to 255.
    pub revolutions: u8,
    /// The first track.
    pub start: u8,
    /// The last track, included.
    pub end: u8,
    /// Bits: 0 index, 1 TPI, 2 RPM, 3 type, 4 read/write, 5 footer (revision 1.6 alone).
    pub flags: u8,
    /// The word width: 0 or 16, both for 16 bits.
    pub width: u8,
    /// 0 both heads, 1 side 0, 2 side 1.
    pub heads: u8,
    /// The stored checksum.
    pub checksum: u32,
}

impl Header {
    /// Whether the image is marked read/write (FLAGS bit 4): its checksum is then 0.
    pub fn is_read_write(&self) -> bool {
        self.flags & 0x10 != 0
    }

    /// A header of its 9 numbers.
    pub(crate) fn of_numbers(out: [u64; 9]) -> Header {
        let [version, disk, revolutions, start, end, flags, width, heads] = std::array::from_fn(|i| out[i] as u8);
        Header { version, disk, revolutions, start, end, flags, width, heads, checksum: out[8] as u32 }
    }
}

/// The numbers of the footer.
#[derive(Clone, Copy, Debug, PartialEq, Eq)]
pub struct Footer {
    /// File offsets of maker, model, serial, creator, application and comments; 0 is absent.
    pub strings: [u32; 6],
    /// Seconds from 1970.
    pub created: i64,
    /// Seconds from 1970.
    pub modified: i64,
    /// Versions of software, hardware, firmware and format, a nibble each side of the point.
    pub versions: [u8; 4],
}

impl Footer {
    /// A footer of 13 numbers, of which the first says whether it is there.
    pub(crate) fn of_numbers(out: &[u64; 13]) -> Option<Footer> {
        (out[0] == 1).then(|| Footer {
            strings: std::array::from_fn(|i| out[1 + i] as u32),
            created: out[7] as i64,
            modified: out[8] as i64,
            versions: std::array::from_fn(|i| out[9 + i] as u8),
        })
    }
}

/// A track of the image.
#[derive(Clone, Copy, Debug, PartialEq, Eq)]
pub struct Track {
    /// The track's number / 2.
    pub cylinder: u32,
    /// The track's number's remainder by 2.
    pub head: u32,
    /// The file offset of its header.
    pub offset: u64,
    /// How many revolutions it has.
    pub revolutions: u32,
}

impl Track {
    /// A track of its 4 numbers.
    pub(crate) fn of_numbers([cylinder, head, offset, revolutions]: [u64; 4]) -> Track {
        Track { cylinder: cylinder as u32, head: head as u32, offset, revolutions: revolutions as u32 }
    }
}

/// A revolution of a track.
#[derive(Clone, Copy, Debug, PartialEq, Eq)]
pub struct Revolution {
    /// Ticks of 25 ns from index to index.
    pub duration: u32,
    /// How many flux words it has.
    pub words: u32,
    /// The file offset of its flux.
    pub offset: u64,
}

impl Revolution {
    /// A revolution of its 3 numbers.
    pub(crate) fn of_numbers([duration, words, offset]: [u64; 3]) -> Revolution {
        Revolution { duration: duration as u32, words: words as u32, offset }
    }

    /// How many bytes its flux has.
    pub(crate) fn flux_size(&self) -> usize {
        2 * self.words as usize
    }

    /// Its flux, as that part of the image that it is of.
    pub(crate) fn flux_in<'a>(&self, image: &'a [u8]) -> &'a [u8] {
        let start = self.offset as usize;
        &image[start..start + self.flux_size()]
    }
}

/// The numbers of flux words.
#[derive(Clone, Copy, Debug, PartialEq, Eq)]
pub struct Summary {
    /// How many intervals they stand for.
    pub intervals: u64,
    /// The ticks of the zero words after the last closing word.
    pub open: u64,
    /// The ticks of all words: the intervals and the open time.
    pub total: u64,
}

/// The slowest and the fastest speed of a track, in rpm.
#[derive(Clone, Copy, Debug, PartialEq)]
pub struct TrackSpeeds {
    /// From the longest duration.
    pub slowest: f64,
    /// From the shortest duration that is not 0.
    pub fastest: f64,
}

/// A step over flux words.
#[derive(Clone, Copy, Debug, PartialEq, Eq)]
pub enum Step {
    /// An interval in ticks, the word that closes it, and the word to go on from.
    Interval {
        /// Its length.
        ticks: u64,
        /// The number of its closing word, counted from 0 in the flux.
        closing: u64,
        /// The number of the word after its closing word.
        next: u64,
    },
    /// No closing word is left: the open time in ticks.
    Open {
        /// 65,536 ticks for each zero word that is left.
        ticks: u64,
    },
}
