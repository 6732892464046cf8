//! One question about a DSK image, put to the library, across the boundary and through its wrapper, and to the reader.

use crate::ask::Ask;
use crate::boundary::{fill, BYTE, NUMBER};
use crate::count::Kind;
use crate::difference::{after, same, same_code, Difference};
use crate::dsk_writing::Writing;
use crate::guarded::Guarded;
use dsk::raw;
use dsk_reader as reader;
use std::fmt::Debug;

/// A call with its arguments; `places` is the size of the buffer lent for numbers. What is written is written over the image.
#[derive(Clone, Debug, PartialEq, Eq)]
pub enum Question {
    Validate,
    Geometry { places: usize },
    Block { track: u32, side: u32, places: usize },
    Sector { track: u32, side: u32, index: u32, places: usize },
    Data { track: u32, side: u32, index: u32 },
    Write(Writing),
}

/// A kind of calls that uses these numbers.
const fn kind(all: &'static str, one: &'static str, numbers: &'static [u32]) -> Kind {
    Kind { all, one, numbers, never: &[] }
}

impl Ask for Question {
    type Agreed = u32;

    const KINDS: &'static [Kind] = &[
        kind("calls of validate", "call of validate", &[0, 30, 31, 32, 33, 34, 35]),
        kind("calls of geometry", "call of geometry", &[0, 15, 30, 31, 32, 33, 34, 35]),
        kind("calls of block", "call of block", &[0, 13, 15, 30, 31, 32, 33, 34, 35]),
        kind("calls of sector", "call of sector", &[0, 13, 14, 15, 30, 31, 32, 33, 34, 35]),
        kind("calls of data", "call of data", &[0, 13, 14, 30, 31, 32, 33, 34, 35]),
        kind("calls of write lent enough", "call of write lent enough", &[0, 41]),
        kind("calls of write lent too short an image", "call of write lent too short an image", &[15, 41]),
        kind("calls of write lent no place for the length", "call of write lent no place for the length", &[15, 41]),
        kind("calls of write lent neither", "call of write lent neither", &[15, 41]),
    ];

    fn compare(&self, bytes: &[u8]) -> Result<u32, Difference> {
        let lent = Guarded::new(bytes, BYTE);
        let number = ask(lent.contents(), self)?;
        same("the image", &lent, bytes)?;
        Ok(number)
    }

    fn counted(&self, bytes: &[u8], &number: &u32) -> Vec<(usize, u32)> {
        let kind = match self {
            Question::Validate => 0,
            Question::Geometry { .. } => 1,
            Question::Block { .. } => 2,
            Question::Sector { .. } => 3,
            Question::Data { .. } => 4,
            Question::Write(writing) => match writing.lacks(bytes) {
                (false, false) => 5,
                (true, false) => 6,
                (false, true) => 7,
                (true, true) => 8,
            },
        };
        vec![(kind, number)]
    }

    /// What is written, made smaller in one way.
    fn without(&self, part: usize) -> Option<Question> {
        match self {
            Question::Write(writing) => writing.smaller().into_iter().nth(part).map(Question::Write),
            _ => None,
        }
    }
}

/// The number of the refusal that all give, 0 for none.
pub fn ask(image: &[u8], question: &Question) -> Result<u32, Difference> {
    match *question {
        Question::Validate => {
            let expected = reader::validate(image);
            let number = fill(expected.map(|()| Vec::new()), 0, NUMBER, |_| raw::validate(image))?;
            same_answer("the wrapper's validate", &expected, &plain(dsk::validate(image)))?;
            Ok(number)
        }
        Question::Geometry { places } => {
            let expected = reader::geometry(image);
            let numbers = expected.map(|found| vec![found.tracks.into(), found.sides.into(), found.track_size.into()]);
            let number = fill(numbers, places, NUMBER, |out| raw::geometry(image, out))?;
            same_answer("the wrapper's geometry", &expected, &plain(dsk::geometry(image)).map(geometry))?;
            Ok(number)
        }
        Question::Block { track, side, places } => {
            let expected = reader::block(image, track, side);
            let numbers = expected.map(|found| [found.sectors, found.size_code, found.gap, found.filler].map(u64::from).to_vec());
            let number = fill(numbers, places, NUMBER, |out| raw::block(image, track, side, out))?;
            same_answer("the wrapper's block", &expected, &plain(dsk::block(image, track, side)).map(block))?;
            Ok(number)
        }
        Question::Sector { track, side, index, places } => {
            let expected = reader::sector(image, track, side, index);
            let numbers = expected.map(|found| sector_numbers(&found).to_vec());
            let number = fill(numbers, places, NUMBER, |out| raw::sector(image, track, side, index, out))?;
            same_answer("the wrapper's sector", &expected, &plain(dsk::sector(image, track, side, index)).map(sector))?;
            Ok(number)
        }
        Question::Data { track, side, index } => data(image, track, side, index),
        Question::Write(ref writing) => writing.compare(image),
    }
}

/// The data of a sector: the part of the image that the numbers of the boundary name, and the wrapper's slice, which is that same part.
fn data(image: &[u8], track: u32, side: u32, index: u32) -> Result<u32, Difference> {
    let (sector, expected) = (reader::sector(image, track, side, index), reader::data(image, track, side, index));
    let numbers = sector.map_or(Vec::new(), |found| sector_numbers(&found).to_vec());
    let mut out = Guarded::new(&[NUMBER; 8], NUMBER);
    let number = same_code(&expected, raw::sector(image, track, side, index, out.lent()))?;
    same("the buffer lent", &out, &after(NUMBER, 8, &numbers))?;
    let [offset, length] = [out.contents()[6], out.contents()[7]].map(|number| number as usize);
    let named = expected.as_ref().map(|_| image.get(offset..).and_then(|rest| rest.get(..length)).unwrap_or_default());
    same_answer("the data named", &expected, &named.map(<[u8]>::to_vec).map_err(|&refusal| refusal))?;
    let slice = plain(dsk::data(image, track, side, index));
    same_answer("the wrapper's data", &expected, &slice.map(<[u8]>::to_vec))?;
    let place = |part: &[u8]| (part.as_ptr() as usize).wrapping_sub(image.as_ptr() as usize);
    same_answer("the place of the wrapper's data", &sector.map(|found| found.offset as usize), &slice.map(place))?;
    Ok(number)
}

/// Whether two answers or refusals are the same.
pub fn same_answer<T: PartialEq + Debug>(
    what: &str,
    expected: &Result<T, reader::Refusal>,
    got: &Result<T, reader::Refusal>,
) -> Result<(), Difference> {
    if expected == got {
        return Ok(());
    }
    let tell = |answer: &Result<T, reader::Refusal>| format!("{answer:?}").chars().take(200).collect();
    Err(Difference { what: what.to_string(), wanted: tell(expected), library: tell(got) })
}

// ---- what the wrapper and the boundary have, beside what the reader has

/// A refusal of the wrapper as number and position.
pub fn plain<T>(answer: Result<T, dsk::Refusal>) -> Result<T, reader::Refusal> {
    answer.map_err(|refusal| reader::Refusal { number: refusal.reason.number().into(), position: refusal.position })
}

fn geometry(found: dsk::Geometry) -> reader::Geometry {
    let dsk::Geometry { tracks, sides, track_size } = found;
    reader::Geometry { tracks, sides, track_size }
}

fn block(found: dsk::Block) -> reader::Block {
    let dsk::Block { sectors, size_code, gap, filler } = found;
    reader::Block { sectors, size_code, gap, filler }
}

fn sector(found: dsk::Sector) -> reader::Sector {
    let dsk::Sector { cylinder, head, id, size_code, status1, status2, offset, length } = found;
    reader::Sector { cylinder, head, id, size_code, status1, status2, offset, length }
}

fn sector_numbers(found: &reader::Sector) -> [u64; 8] {
    let bytes = [found.cylinder, found.head, found.id, found.size_code, found.status1, found.status2];
    let [c, h, r, n, status1, status2] = bytes.map(u64::from);
    [c, h, r, n, status1, status2, found.offset, found.length]
}

#[cfg(test)]
mod tests {
    use super::*;
    use std::collections::BTreeSet;

    /// The numbers of a kind of calls.
    fn numbers(kind: usize) -> BTreeSet<u32> {
        Question::KINDS[kind].numbers.iter().copied().collect()
    }

    /// An answer, and the refusals that the comment of a function of dsk.h lists, such as "30 to 35, 13, 15".
    fn listed(function: &str) -> BTreeSet<u32> {
        let header = std::fs::read_to_string("../../include/dsk.h").expect("the header is there");
        let (before, _) = header.split_once(&format!("uint64_t dsk_{function}(")).expect("the header has the function");
        let (_, comment) = before.rsplit_once("/*").expect("the function has a comment");
        let (_, list) = comment.split_once("efusals ").expect("the comment lists the refusals");
        let (list, _) = list.split_once('.').expect("the list ends");
        let range = |part: &str| {
            let (first, last) = part.split_once(" to ").unwrap_or((part, part));
            first.parse().unwrap()..=last.parse().unwrap()
        };
        list.split(", ").flat_map(range).chain([0]).collect()
    }

    #[test]
    fn each_call_has_the_numbers_that_the_header_lists() {
        for (kind, function) in ["validate", "geometry", "block", "sector"].into_iter().enumerate() {
            assert_eq!(Question::KINDS[kind].one, format!("call of {function}"));
            assert_eq!(numbers(kind), listed(function), "{function}");
        }
        // the data of a sector, which is always lent its places
        assert_eq!(numbers(4), &listed("sector") - &BTreeSet::from([15]));
        // writing, which has 15 exactly where too little is lent
        assert_eq!(numbers(5), &listed("write") - &BTreeSet::from([15]));
        (6..9).for_each(|kind| assert_eq!(numbers(kind), &listed("write") - &BTreeSet::from([0])));
        assert!(Question::KINDS.len() == 9 && Question::KINDS.iter().all(|kind| kind.never.is_empty()));
    }

    #[test]
    fn all_calls_have_every_number() {
        let all: BTreeSet<u32> = (0..Question::KINDS.len()).flat_map(numbers).collect();
        assert_eq!(all, dsk::Reason::ALL.into_iter().map(|reason| reason.number().into()).chain([0]).collect());
    }
}
