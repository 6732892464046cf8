//! Cases of DSK images by number: an image by chance, and the questions that are put to both; or bytes that images are written over.

use crate::ask::{agree_on, Case};
use crate::cases::places;
use crate::dsk_generate;
use crate::dsk_image::{file_order, geometry, sectors};
use crate::dsk_layouts::{layout, lent, writing};
use crate::dsk_question::Question;
use crate::random::Random;

/// Numbers that no image has: past a byte, and where a product with a size would wrap.
pub const FAR: [u32; 8] = [255, 256, 257, 1 << 16, 1 << 24, 1 << 29, 1 << 31, u32::MAX];

/// The case of a number, under a seed: an image and questions about it, or bytes and what is written over them.
pub fn case(seed: u64, number: u64) -> Case<Question> {
    let mut random = Random::of_case(seed, number);
    match number % 4 {
        0..=2 => image_case(&mut random),
        _ => write_case(&mut random),
    }
}

/// An image, and questions about it and some of its blocks and sectors.
fn image_case(random: &mut Random) -> Case<Question> {
    let bytes = dsk_generate::image(random);
    let [tracks, sides, _] = geometry(&bytes);
    let mut questions = vec![Question::Validate, Question::Geometry { places: places(random, 3) }];
    for _ in 0..3 {
        let (track, side) = (some_number(tracks as u32, random), some_number(sides as u32, random));
        questions.push(Question::Block { track, side, places: places(random, 4) });
        for _ in 0..2 {
            let index = some_number(sectors(&bytes, track, side), random);
            questions.push(Question::Sector { track, side, index, places: places(random, 8) });
            questions.push(Question::Data { track, side, index });
        }
    }
    Case { bytes, questions }
}

/// Bytes, and images that they have about as many places as are needed for.
fn write_case(random: &mut Random) -> Case<Question> {
    let layout = layout(random);
    let bytes = lent(random, layout);
    let questions = (0..3).map(|_| Question::Write(writing(random, layout))).collect();
    Case { bytes, questions }
}

/// A number to ask for, where so many are there: mostly one of them, else one past the last, one that is or nearly is it after a cut, or a
/// far one.
fn some_number(count: u32, random: &mut Random) -> u32 {
    let last = count.saturating_sub(1);
    let there = random.below(count.max(1) as usize) as u32;
    match random.below(20) {
        0 => count,
        1 => random.pick(&FAR),
        2 => there + random.pick(&[255, 256, 1 << 16, 1 << 24, 1 << 29, 1 << 31]),
        3 => random.pick(&[count + 1, 28, 29, 30]),
        4..=6 => last,
        7..=9 => 0,
        _ => there,
    }
}

/// Every question about an image: of all blocks and sectors, and of some that are not there, with as many places as needed.
pub fn every_question(image: &[u8]) -> Vec<Question> {
    let [tracks, sides, _] = geometry(image).map(|number| number as u32);
    let mut questions = vec![Question::Validate, Question::Geometry { places: 3 }];
    for track in (0..tracks).chain([tracks]).chain(FAR) {
        for side in (0..sides).chain([sides]).chain(FAR) {
            if track >= tracks && side >= sides && track != side {
                continue;
            }
            questions.extend(of_block(image, track, side));
        }
    }
    questions
}

/// Every question about a block.
pub fn of_block(image: &[u8], track: u32, side: u32) -> Vec<Question> {
    let count = sectors(image, track, side);
    let far = if count > 0 { &FAR[..] } else { &FAR[7..] };
    of_sectors(track, side, (0..=count).chain(far.iter().copied()))
}

/// The questions about a block and the sectors of these indices.
fn of_sectors(track: u32, side: u32, indices: impl Iterator<Item = u32>) -> Vec<Question> {
    let mut questions = vec![Question::Block { track, side, places: 4 }];
    for index in indices {
        questions.extend([Question::Sector { track, side, index, places: 8 }, Question::Data { track, side, index }]);
    }
    questions
}

/// The questions about all that is there, with as many places as needed.
pub fn all_there(image: &[u8]) -> Vec<Question> {
    let [tracks, sides, _] = geometry(image).map(|number| number as u8);
    let blocks = file_order(tracks, sides).map(|(track, side)| (u32::from(track), u32::from(side)));
    let questions = blocks.flat_map(|(track, side)| of_sectors(track, side, 0..sectors(image, track, side)));
    [Question::Validate, Question::Geometry { places: 3 }].into_iter().chain(questions).collect()
}

/// Puts every question on the image to both; panics where they differ.
pub fn agree(name: &str, image: &[u8]) {
    agree_on(name, image, every_question(image));
}
