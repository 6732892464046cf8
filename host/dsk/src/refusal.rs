//! Refusals: a reason with its number, and a position.

use std::fmt;

/// Why a call is refused. The number of a reason is its discriminant, 13 to 15, 30 to 35 or 41.
#[derive(Clone, Copy, Debug, PartialEq, Eq, Hash)]
#[repr(u8)]
pub enum Reason {
    /// The track or side asked for.
    Absent = 13,
    /// The sector asked for.
    Sector = 14,
    /// The places lent for the answer.
    Places = 15,
    /// No "MV - CPC" at the start.
    Sign = 30,
    /// Tracks, sides and track size.
    Geometry = 31,
    /// The image's length.
    Length = 32,
    /// The name or the numbers of a block; the position is its index, track x sides + side.
    Block = 33,
    /// The number or the codes of a block's sectors; the position is the block's index.
    Sectors = 34,
    /// The data of a block's sectors; the position is the block's index.
    Data = 35,
    /// What an image is to be written of: its creator, its numbers, how many bytes of data.
    Layout = 41,
}

impl Reason {
    /// All reasons, by number.
    ///
    /// ```
    /// assert_eq!(dsk::Reason::ALL.map(dsk::Reason::number), [13, 14, 15, 30, 31, 32, 33, 34, 35, 41]);
    /// ```
    pub const ALL: [Reason; 10] = [
        Reason::Absent,
        Reason::Sector,
        Reason::Places,
        Reason::Sign,
        Reason::Geometry,
        Reason::Length,
        Reason::Block,
        Reason::Sectors,
        Reason::Data,
        Reason::Layout,
    ];

    /// The number of the reason, 13 to 15, 30 to 35 or 41.
    pub fn number(self) -> u8 {
        self as u8
    }

    /// The reason of a number.
    pub fn of_number(number: u64) -> Option<Reason> {
        Reason::ALL.into_iter().find(|reason| u64::from(reason.number()) == number)
    }

    /// What the reason means, in a line.
    pub fn meaning(self) -> &'static str {
        match self {
            Reason::Absent => "the track or side asked for is not in the image",
            Reason::Sector => "the sector asked for is not in the image",
            Reason::Places => "the answer needs more places than were lent",
            Reason::Sign => "the image does not start with \"MV - CPC\"",
            Reason::Geometry => "the number of sides is neither 1 nor 2, there is no track, or the track size is below 256",
            Reason::Length => "the image is shorter than 256 bytes, or than its tracks, sides and track size want",
            Reason::Block => "a block is without \"Track-Info\", or with another track or side number",
            Reason::Sectors => "a block has more than 29 sectors, a size code above 6, or a sector of a larger code",
            Reason::Data => "the data of the sectors do not fit in their block",
            Reason::Layout => "no image is written of such a creator, of such numbers, or of so many bytes of data",
        }
    }

    /// What the position of such a refusal counts, or nothing where it is always 0.
    pub fn position_counts(self) -> Option<&'static str> {
        match self {
            Reason::Block | Reason::Sectors | Reason::Data => Some("block"),
            _ => None,
        }
    }
}

/// A refusal: why, and where (the index of a block; 0 for the other reasons).
#[derive(Clone, Copy, PartialEq, Eq, Hash)]
pub struct Refusal {
    /// Why.
    pub reason: Reason,
    /// Where.
    pub position: u64,
}

impl Refusal {
    /// What a code of the archive says: nothing for 0, else its lowest byte is the number, the bits above it the position. The archive
    /// gives no other number than those of the reasons.
    ///
    /// ```
    /// use dsk::{Reason, Refusal};
    ///
    /// assert_eq!(Refusal::of_code(0), Ok(()));
    /// assert_eq!(Refusal::of_code(34 + 256 * 3), Err(Refusal { reason: Reason::Sectors, position: 3 }));
    /// ```
    pub fn of_code(code: u64) -> Result<(), Refusal> {
        let (number, position) = (code % 256, code / 256);
        match (number, Reason::of_number(number)) {
            (0, _) => Ok(()),
            (_, Some(reason)) => Err(Refusal { reason, position }),
            (_, None) => unreachable!("the archive gave a refusal of number {number}"),
        }
    }
}

impl fmt::Display for Refusal {
    /// Number, name, position and meaning, and what the position counts.
    ///
    /// ```
    /// use dsk::{Reason, Refusal};
    ///
    /// let refusal = Refusal { reason: Reason::Data, position: 5 };
    /// assert_eq!(refusal.to_string(), "refused 35 (Data) at 5: the data of the sectors do not fit in their block (block 5)");
    /// ```
    fn fmt(&self, f: &mut fmt::Formatter<'_>) -> fmt::Result {
        let (number, reason, position) = (self.reason.number(), self.reason, self.position);
        write!(f, "refused {number} ({reason:?}) at {position}: {}", reason.meaning())?;
        match reason.position_counts() {
            Some(kind) => write!(f, " ({kind} {position})"),
            None => Ok(()),
        }
    }
}

impl fmt::Debug for Refusal {
    /// As [`fmt::Display`], so that a failed `unwrap` says what is wrong, too.
    ///
    /// ```
    /// let refusal = dsk::block(&dsk::example::image(), 2, 0).unwrap_err();
    /// assert_eq!(format!("{refusal:?}"), "refused 13 (Absent) at 0: the track or side asked for is not in the image");
    /// ```
    fn fmt(&self, f: &mut fmt::Formatter<'_>) -> fmt::Result {
        fmt::Display::fmt(self, f)
    }
}

impl std::error::Error for Refusal {}
