//! Refusals: a reason with its number, and a position.

use crate::answers::STRING_NAMES;
use std::fmt;

/// Why a call is refused. The number of a reason is its discriminant, 1 to 19.
#[derive(Clone, Copy, Debug, PartialEq, Eq, Hash)]
#[repr(u8)]
pub enum Reason {
    /// The image's length.
    Size = 1,
    /// No "SCP" at the start.
    Sign,
    /// The word width.
    Width,
    /// The number of revolutions per track.
    Revolutions,
    /// Start and end track.
    Span,
    /// The heads byte.
    Heads,
    /// The footer; never by revision 1.4.
    Footer,
    /// A string of the footer; the position is its number, 0 to 5. Never by revision 1.4.
    String,
    /// An entry of the table; the position is the track.
    Slot,
    /// A track data header; the position is the track.
    Track,
    /// A revolution's flux; the position is the track.
    Flux,
    /// The checksum.
    Sum,
    /// The track asked for.
    Absent,
    /// The revolution asked for.
    Revolution,
    /// The places lent for the answer.
    Places,
    /// A time that no words express; the position is its index.
    Time,
    /// The flux given.
    Words,
    /// A byte claimed twice.
    Shared,
    /// A string of the footer that is not well-formed UTF-8; the position is its number, 0 to 5. Never by revision 1.4.
    Text,
}

impl Reason {
    /// All reasons, by number.
    pub const ALL: [Reason; 19] = [
        Reason::Size,
        Reason::Sign,
        Reason::Width,
        Reason::Revolutions,
        Reason::Span,
        Reason::Heads,
        Reason::Footer,
        Reason::String,
        Reason::Slot,
        Reason::Track,
        Reason::Flux,
        Reason::Sum,
        Reason::Absent,
        Reason::Revolution,
        Reason::Places,
        Reason::Time,
        Reason::Words,
        Reason::Shared,
        Reason::Text,
    ];

    /// The number of the reason, 1 to 19.
    pub fn number(self) -> u8 {
        self as u8
    }

    /// The reason of a number.
    pub fn of_number(number: u64) -> Option<Reason> {
        Reason::ALL.into_iter().find(|reason| u64::from(reason.number()) == number)
    }

    /// What the reason means, in a line.
    pub fn meaning(self) -> &'static str {
        match self {
            Reason::Size => "the image is shorter than 688 bytes (680 by revision 1.4) or longer than 268,435,456",
            Reason::Sign => "the image does not start with \"SCP\"",
            Reason::Width => "the word width is neither 0 nor 16",
            Reason::Revolutions => "the number of revolutions is 0, or more than 1 on a read/write image",
            Reason::Span => "the start track is above the end track, or the end track above 167 (165 by revision 1.4)",
            Reason::Heads => "the heads byte is above 2",
            Reason::Footer => "the footer is flagged, but too short, without \"FPCS\" or older than 0x16",
            Reason::String => "a string of the footer is misplaced or malformed",
            Reason::Slot => "a track lies outside start to end, or on a side that the image does not hold",
            Reason::Track => "a track data header is misplaced, without \"TRK\" or with another number",
            Reason::Flux => "the flux of a revolution runs past the end",
            Reason::Sum => "the stored checksum is not the one that the bytes have",
            Reason::Absent => "the track asked for is not in the image",
            Reason::Revolution => "the revolution asked for is not in the image",
            Reason::Places => "the answer needs more places than were lent",
            Reason::Time => "a time cannot be expressed: 0, a multiple of 65,536, or above 4,294,967,295",
            Reason::Words => "the flux has an odd number of bytes, is too long, or has more words than the revolution",
            Reason::Shared => "a byte that the rewrite stands on is claimed by something else too",
            Reason::Text => "a string of the footer is not well-formed UTF-8",
        }
    }

    /// What the position of such a refusal counts, or nothing where it is always 0.
    pub fn position_counts(self) -> Option<&'static str> {
        match self {
            Reason::String | Reason::Text => Some("string"),
            Reason::Slot | Reason::Track | Reason::Flux => Some("track"),
            Reason::Time => Some("time"),
            _ => None,
        }
    }
}

/// A refusal: why, and where (a string, track or time number; 0 for the other reasons).
#[derive(Clone, Copy, PartialEq, Eq, Hash)]
pub struct Refusal {
    /// Why.
    pub reason: Reason,
    /// Where.
    pub position: u64,
}

impl Refusal {
    /// What a code of the archive says: nothing for 0, else its lowest byte is the number, the bits above it the position.
    ///
    /// ```
    /// use scp::{Reason, Refusal};
    ///
    /// assert_eq!(Refusal::of_code(0), Ok(()));
    /// assert_eq!(Refusal::of_code(10 + 256 * 3), Err(Refusal { reason: Reason::Track, position: 3 }));
    /// ```
    pub fn of_code(code: u64) -> Result<(), Refusal> {
        Refusal::of_pair(code % 256, code / 256)
    }

    /// What a number and a position say: nothing for number 0. The archive gives no number above 19.
    pub(crate) fn of_pair(number: u64, position: u64) -> Result<(), Refusal> {
        match (number, Reason::of_number(number)) {
            (0, _) => Ok(()),
            (_, Some(reason)) => Err(Refusal { reason, position }),
            (_, None) => unreachable!("the archive gave a refusal of number {number}"),
        }
    }
}

impl fmt::Display for Refusal {
    /// Number, name, position and meaning, and what the position counts.
    ///
    /// ```
    /// use scp::{Reason, Refusal};
    ///
    /// let refusal = Refusal { reason: Reason::String, position: 2 };
    /// assert!(refusal.to_string().ends_with("a string of the footer is misplaced or malformed (string 2, the serial)"));
    /// let refusal = Refusal { reason: Reason::Text, position: 5 };
    /// assert!(refusal.to_string().ends_with("a string of the footer is not well-formed UTF-8 (string 5, the comments)"));
    /// ```
    fn fmt(&self, f: &mut fmt::Formatter<'_>) -> fmt::Result {
        let (number, reason, position) = (self.reason.number(), self.reason, self.position);
        write!(f, "refused {number} ({reason:?}) at {position}: {}", reason.meaning())?;
        let string = STRING_NAMES.iter().zip(0..).find(|(_, place)| *place == position);
        match (reason.position_counts(), string) {
            (Some(kind @ "string"), Some((name, _))) => write!(f, " ({kind} {position}, the {name})"),
            (Some(kind), _) => write!(f, " ({kind} {position})"),
            (None, _) => Ok(()),
        }
    }
}

impl fmt::Debug for Refusal {
    /// As [`fmt::Display`], so that a failed `unwrap` says what is wrong, too.
    ///
    /// ```
    /// let refusal = scp::track(&scp::example::image_a(), scp::Edition::V1_6, 1).unwrap_err();
    /// assert_eq!(format!("{refusal:?}"), "refused 13 (Absent) at 0: the track asked for is not in the image");
    /// ```
    fn fmt(&self, f: &mut fmt::Formatter<'_>) -> fmt::Result {
        fmt::Display::fmt(self, f)
    }
}

impl std::error::Error for Refusal {}
