//! What an image that is written is to have.

/// The numbers of an image that is to be written. Any may be asked for; [`crate::write`] refuses what it does not write.
#[derive(Clone, Copy, Debug, PartialEq, Eq)]
pub struct Layout {
    /// How many tracks, 1 to 255.
    pub tracks: u32,
    /// How many sides, 1 or 2.
    pub sides: u32,
    /// How many sectors each block has, 0 to 29.
    pub sectors: u32,
    /// The size code N of every sector, 0 to 5: it has 128 x 2^N bytes of data.
    pub size_code: u32,
    /// The length of GAP#3, 0 to 255.
    pub gap: u32,
    /// The filler byte, 0 to 255.
    pub filler: u32,
}

impl Layout {
    /// How many bytes of data all sectors of one block have, where such a number can be held.
    fn block_data(&self) -> Option<usize> {
        let sector = 2_usize.checked_pow(self.size_code)?.checked_mul(128)?;
        sector.checked_mul(self.sectors as usize)
    }

    /// How many blocks there are.
    fn blocks(&self) -> Option<usize> {
        (self.tracks as usize).checked_mul(self.sides as usize)
    }

    /// How many bytes of data all sectors have: so many are to be given. Nothing where that is past all counting.
    ///
    /// ```
    /// let layout = dsk::Layout { tracks: 40, sides: 1, sectors: 9, size_code: 2, gap: 0x4E, filler: 0xE5 };
    /// assert_eq!(layout.data_size(), Some(184_320));
    /// assert_eq!(dsk::Layout { size_code: 64, ..layout }.data_size(), None);
    /// ```
    pub fn data_size(&self) -> Option<usize> {
        self.blocks()?.checked_mul(self.block_data()?)
    }

    /// How many bytes the image has: so many are to be lent. Nothing where that is past all counting.
    ///
    /// ```
    /// let layout = dsk::Layout { tracks: 40, sides: 1, sectors: 9, size_code: 2, gap: 0x4E, filler: 0xE5 };
    /// assert_eq!(layout.image_size(), Some(194_816));
    /// ```
    pub fn image_size(&self) -> Option<usize> {
        self.blocks()?.checked_mul(self.block_data()?.checked_add(256)?)?.checked_add(256)
    }
}
