//! The editions of the text that images are read by.

use std::fmt;

/// The edition of the text that an image is read by, which the caller names in every call on an image: no byte of an image says it.
///
/// The editions differ in the table and in the footer: how many tracks there are, where tracks and flux may start, and how short an image may
/// be; and whether FLAGS bit 5 means anything. All else is the same.
///
/// ```
/// use scp::{Edition, Reason};
///
/// let old = scp::example::image_a_1_4();
/// assert_eq!(scp::validate(&old, Edition::V1_4), Ok(()));
/// // Revision 1.6 still has entries of the table where this track stands.
/// assert_eq!(scp::validate(&old, Edition::V1_6).unwrap_err().reason, Reason::Track);
/// ```
#[derive(Clone, Copy, Debug, PartialEq, Eq, Hash)]
pub enum Edition {
    /// Revision 1.4: tracks 0 to 165, and no footer, whatever FLAGS bit 5 is.
    V1_4,
    /// Revision 1.6: tracks 0 to 167, and a footer where FLAGS bit 5 is set.
    V1_6,
}

impl Edition {
    /// Both editions, the older one first.
    pub const ALL: [Edition; 2] = [Edition::V1_4, Edition::V1_6];

    /// The number that names the edition to the archive: 14 or 16. To the archive every number but 14 is revision 1.6.
    ///
    /// ```
    /// assert_eq!(scp::Edition::ALL.map(scp::Edition::number), [14, 16]);
    /// ```
    pub fn number(self) -> u32 {
        match self {
            Edition::V1_4 => 14,
            Edition::V1_6 => 16,
        }
    }

    /// How many tracks the table has: their numbers are 0 to 165, or 0 to 167.
    ///
    /// ```
    /// assert_eq!(scp::Edition::ALL.map(scp::Edition::tracks), [166, 168]);
    /// ```
    pub fn tracks(self) -> u32 {
        match self {
            Edition::V1_4 => 166,
            Edition::V1_6 => 168,
        }
    }

    /// Where the table ends: no image is shorter, and tracks, flux and strings start here or later.
    ///
    /// ```
    /// assert_eq!(scp::Edition::ALL.map(scp::Edition::table_end), [0x2A8, 0x2B0]);
    /// ```
    pub fn table_end(self) -> usize {
        0x10 + 4 * self.tracks() as usize
    }

    /// Whether FLAGS bit 5 announces a footer.
    ///
    /// ```
    /// assert_eq!(scp::Edition::ALL.map(scp::Edition::has_footer), [false, true]);
    /// ```
    pub fn has_footer(self) -> bool {
        self == Edition::V1_6
    }

    /// The other edition.
    ///
    /// ```
    /// assert!(scp::Edition::ALL.into_iter().map(scp::Edition::other).eq([scp::Edition::V1_6, scp::Edition::V1_4]));
    /// ```
    pub fn other(self) -> Edition {
        match self {
            Edition::V1_4 => Edition::V1_6,
            Edition::V1_6 => Edition::V1_4,
        }
    }

    /// The edition of a name, as it is displayed.
    ///
    /// ```
    /// use scp::Edition;
    ///
    /// assert_eq!(["1.4", "1.6", "1.5"].map(Edition::of_name), [Some(Edition::V1_4), Some(Edition::V1_6), None]);
    /// ```
    pub fn of_name(name: &str) -> Option<Edition> {
        Edition::ALL.into_iter().find(|edition| edition.name() == name)
    }

    /// Its name.
    fn name(self) -> &'static str {
        match self {
            Edition::V1_4 => "1.4",
            Edition::V1_6 => "1.6",
        }
    }
}

impl fmt::Display for Edition {
    /// The number of the revision.
    ///
    /// ```
    /// assert_eq!(scp::Edition::ALL.map(|edition| edition.to_string()), ["1.4", "1.6"]);
    /// ```
    fn fmt(&self, f: &mut fmt::Formatter<'_>) -> fmt::Result {
        f.pad(self.name())
    }
}
