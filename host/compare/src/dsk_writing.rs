//! Writing an image over old bytes, put to the library, across the boundary and through its wrapper, and to the independent writer; and
//! reading back what was written.

use crate::boundary::{fill_two, BYTE};
use crate::difference::{over, same, Difference};
use crate::dsk_cases::all_there;
use crate::dsk_image::{block_size, file_order, sector_size, INFORMATION};
use crate::dsk_question::{ask, plain, same_answer};
use crate::guarded::Guarded;
use crate::shrink::dump;
use dsk::{raw, Block, Geometry, Layout, Refusal, Sector};
use dsk_reader as reader;
use std::fmt::{self, Debug};

/// What an image is written of, and how many places are lent for its length.
#[derive(Clone, PartialEq, Eq)]
pub struct Writing {
    pub creator: Vec<u8>,
    pub layout: Layout,
    pub data: Vec<u8>,
    pub places: usize,
}

impl Debug for Writing {
    fn fmt(&self, f: &mut fmt::Formatter<'_>) -> fmt::Result {
        let Writing { creator, layout, data, places } = self;
        write!(f, "creator {creator:?}, {layout:?}, places {places}, data of {}", dump(data).trim_end())
    }
}

impl Writing {
    /// Writes over the old bytes, and reads back what was written, by all; gives the number that all give.
    pub fn compare(&self, old: &[u8]) -> Result<u32, Difference> {
        let (number, written) = self.write(old)?;
        if let Some(image) = written {
            all_there(&image).iter().try_for_each(|question| ask(&image, question).map(|_| ()))?;
        }
        Ok(number)
    }

    /// Writes over the old bytes by all: the code, every byte of what is lent, the wrapper's answer, and what the library makes of the
    /// image. Gives the number that all give, and what the old bytes became, where the wrapper wrote over them.
    pub fn write(&self, old: &[u8]) -> Result<(u32, Option<Vec<u8>>), Difference> {
        let Writing { ref creator, layout, ref data, places } = *self;
        let (lent_creator, lent_data) = (Guarded::new(creator, BYTE), Guarded::new(data, BYTE));
        let expected = reader::write(creator, of_reader(layout), data, old.len());
        let made = expected.clone().map(|image| (vec![image.len() as u64], image));
        let number = fill_two(made, (old, BYTE), places, |image, out| {
            raw::write(lent_creator.contents(), layout, lent_data.contents(), image, out)
        })?;
        same("the creator", &lent_creator, creator)?;
        same("the data", &lent_data, data)?;
        let mut image = Guarded::new(old, BYTE);
        let answer = plain(dsk::write(creator, layout, data, image.lent()));
        same_answer("the wrapper's length", &expected.as_ref().map(Vec::len).map_err(|&refusal| refusal), &answer)?;
        same("the wrapper's image", &image, &over(old, expected.as_deref().unwrap_or_default()))?;
        let Ok(length) = answer else { return Ok((number, None)) };
        self.foresees(length)?;
        self.reads_back(image.contents())?;
        Ok((number, Some(image.contents().to_vec())))
    }

    /// Whether these bytes are too few for the image, and whether there is no place for its length.
    pub fn lacks(&self, old: &[u8]) -> (bool, bool) {
        (self.layout.image_size().is_none_or(|size| old.len() < size), self.places == 0)
    }

    /// Whether the wrapper's layout knows how many bytes of data there are to be, and how many the image has.
    fn foresees(&self, length: usize) -> Result<(), Difference> {
        let sizes = (self.layout.data_size(), self.layout.image_size());
        same_answer("the sizes of the layout", &Ok((Some(self.data.len()), Some(length))), &Ok(sizes))
    }

    /// Whether the library reads the image as it was to be written: geometry, every block, every sector, and the data of all.
    fn reads_back(&self, image: &[u8]) -> Result<(), Difference> {
        let [tracks, sides, sectors, size_code, gap, filler] = numbers(self.layout).map(|number| number as u8);
        let (block, track_size) = (Block { sectors, size_code, gap, filler }, block_size(size_code, sectors.into()));
        read("the geometry", Geometry { tracks, sides, track_size: track_size as u16 }, dsk::geometry(image))?;
        let mut data = Vec::new();
        for (index, (track, side)) in file_order(tracks, sides).enumerate() {
            read("a block", block, dsk::block(image, track.into(), side.into()))?;
            data.extend(sector_data(image, (track, side), &block, INFORMATION + index * track_size)?);
        }
        read("the data of all sectors", &self.data, Ok(&data))
    }

    /// Smaller ones: with a lower number and so much less data, or with plain bytes.
    pub fn smaller(&self) -> Vec<Writing> {
        let lower = |number: u32| [0, number / 2, number.saturating_sub(1)];
        let now = numbers(self.layout).into_iter().enumerate();
        let mut smaller: Vec<Writing> = now.flat_map(|(at, number)| lower(number).map(|lower| self.with(at, lower))).collect();
        smaller.push(Writing { creator: vec![0; self.creator.len()], ..self.clone() });
        smaller.push(Writing { data: vec![0; self.data.len()], ..self.clone() });
        smaller.retain(|writing| writing != self);
        smaller
    }

    /// The same with a lower number at a place of the layout, and so much less data.
    fn with(&self, at: usize, lower: u32) -> Writing {
        let mut numbers = numbers(self.layout);
        numbers[at] = lower;
        let mut less = Writing { layout: of_numbers(numbers), ..self.clone() };
        if let (Some(due), Some(now_due)) = (self.layout.data_size(), less.layout.data_size()) {
            less.data.truncate(self.data.len().saturating_sub(due - now_due));
        }
        less
    }
}

/// The data of the sectors of a block at a place, one after another, where each sector is as it was to be written.
fn sector_data(image: &[u8], (track, side): (u8, u8), block: &Block, place: usize) -> Result<Vec<u8>, Difference> {
    let (size_code, size) = (block.size_code, sector_size(block.size_code));
    let mut data = Vec::new();
    for index in 0..block.sectors {
        let (offset, length) = ((place + INFORMATION + usize::from(index) * size) as u64, size as u64);
        let wanted = Sector { cylinder: track, head: side, id: index + 1, size_code, status1: 0, status2: 0, offset, length };
        let [track, side, index] = [track, side, index].map(u32::from);
        read("a sector", wanted, dsk::sector(image, track, side, index))?;
        data.extend(dsk::data(image, track, side, index).unwrap_or_default());
    }
    Ok(data)
}

/// Whether what is read back is what was to be written.
fn read<T: PartialEq + Debug>(what: &str, wanted: T, got: Result<T, Refusal>) -> Result<(), Difference> {
    same_answer(&format!("{what} read back"), &Ok(wanted), &plain(got))
}

/// The numbers of a layout.
pub fn numbers(layout: Layout) -> [u32; 6] {
    let Layout { tracks, sides, sectors, size_code, gap, filler } = layout;
    [tracks, sides, sectors, size_code, gap, filler]
}

/// The layout of its numbers.
pub fn of_numbers([tracks, sides, sectors, size_code, gap, filler]: [u32; 6]) -> Layout {
    Layout { tracks, sides, sectors, size_code, gap, filler }
}

/// A layout as the independent writer has it.
fn of_reader(layout: Layout) -> reader::Layout {
    let Layout { tracks, sides, sectors, size_code, gap, filler } = layout;
    reader::Layout { tracks, sides, sectors, size_code, gap, filler }
}
