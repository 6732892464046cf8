//! The edition of the text by which an image is read, and what it decides.

/// The rules, Q-6: revision 1.4 or 1.6 of the text; the caller names it.
#[derive(Clone, Copy, Debug, PartialEq, Eq)]
pub enum Edition {
    V1_4,
    V1_6,
}

impl Edition {
    /// The rules, Q-6: how many entries the table has; every track number is below that.
    pub(crate) fn entries(self) -> u32 {
        match self {
            Edition::V1_4 => 166,
            Edition::V1_6 => 168,
        }
    }

    /// The rules, Q-6: header and table take the bytes below this place; nothing else lies there.
    pub(crate) fn table_end(self) -> u64 {
        match self {
            Edition::V1_4 => 680,
            Edition::V1_6 => 688,
        }
    }

    /// The rules, Q-6: whether FLAGS bit 5 announces a footer; under 1.4 it is ignored.
    pub(crate) fn knows_footer(self) -> bool {
        match self {
            Edition::V1_4 => false,
            Edition::V1_6 => true,
        }
    }
}
