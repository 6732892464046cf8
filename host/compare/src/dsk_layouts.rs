//! What is written by chance: right layouts of every shape, numbers at each limit and past it, and data of right and wrong lengths.

use crate::cases::places;
use crate::dsk_cases::FAR;
use crate::dsk_generate::{room, shape, tracks};
use crate::dsk_image::sector_size;
use crate::dsk_writing::{numbers, of_numbers, Writing};
use crate::random::Random;
use dsk::Layout;

/// The most bytes of data that are made.
const MOST_DATA: usize = 1 << 17;

/// The greatest numbers that an image can have, in the order of a layout.
const MOST: [u32; 6] = [255, 2, 29, 5, 255, 255];

/// What a program may lose of a number by a cut, or of a size code in a shift.
const LOST: [u32; 8] = [32, 64, 256, 512, 1 << 16, 1 << 24, 1 << 29, 1 << 31];

/// A layout that an image can have, now and then with the largest block.
pub fn layout(random: &mut Random) -> Layout {
    if random.once_in(400) {
        return Layout { tracks: 1, sides: 1, sectors: 15, size_code: 5, gap: 0x4E, filler: 0xE5 };
    }
    let (tracks, sides) = (tracks(random), random.between(1, 2));
    let room = room(random, usize::from(tracks) * sides);
    let (size_code, sectors) = shape(random, room, 5);
    let (gap, filler) = (random.byte().into(), random.byte().into());
    Layout { tracks: tracks.into(), sides: sides as u32, sectors: sectors as u32, size_code: size_code.into(), gap, filler }
}

/// Bytes to write over: as many as the image of a layout needs, or some more or fewer, or none.
pub fn lent(random: &mut Random, layout: Layout) -> Vec<u8> {
    let needed = layout.image_size().unwrap_or(0);
    let size = match random.below(12) {
        0 => 0,
        1 => needed + random.below(700),
        _ => places(random, needed),
    };
    random.bytes(size)
}

/// What is written by a layout, or by one near it: mostly all is as it should be.
pub fn writing(random: &mut Random, layout: Layout) -> Writing {
    let near = match random.below(8) {
        0 | 1 => changed(random, layout),
        2 => {
            let once = changed(random, layout);
            changed(random, once)
        }
        _ => layout,
    };
    let size = data_size(random, layout, near);
    Writing { creator: creator(random), layout: near, data: random.bytes(size), places: places(random, 1) }
}

/// 14 bytes, now and then more or fewer.
fn creator(random: &mut Random) -> Vec<u8> {
    let size = match random.below(20) {
        0 => random.between(0, 16),
        1 => random.pick(&[13, 15]),
        _ => 14,
    };
    random.bytes(size)
}

/// A layout with one other number: at its limit or past it, one more or less, one that a cut makes what it was, or a far one. Now and then
/// one of a block that just is or just is not too large.
fn changed(random: &mut Random, layout: Layout) -> Layout {
    if random.once_in(16) {
        return Layout { tracks: 1, sides: 1, sectors: random.pick(&[15, 16, 16, 17, 29]), size_code: 5, ..layout };
    }
    let mut numbers = numbers(layout);
    let at = random.below(numbers.len());
    let now = numbers[at];
    numbers[at] = match random.below(7) {
        0 => 0,
        1 => MOST[at],
        2 => MOST[at] + 1,
        3 => now.saturating_sub(1),
        4 => now + 1,
        5 => now.wrapping_add(random.pick(&LOST)),
        _ => random.pick(&FAR),
    };
    of_numbers(numbers)
}

/// How many bytes of data: as many as a layout asks for, one more or fewer, 128 more or fewer, none, or as many as another layout asks for,
/// the one that it was made of or one near it.
fn data_size(random: &mut Random, former: Layout, layout: Layout) -> usize {
    let former = asked(former).unwrap_or(0);
    let due = asked(layout).unwrap_or(former);
    match random.below(16) {
        0 => due + 1,
        1 => due.saturating_sub(1),
        2 => random.pick(&[0, due + 128, due.saturating_sub(128), 2 * due]),
        3 => asked(changed(random, layout)).unwrap_or(former),
        4 | 5 => former,
        // what sectors of code 6 have where they are read
        6..=9 if layout.size_code == 6 => due / 0x2000 * sector_size(6),
        _ => due,
    }
}

/// How many bytes of data a layout asks for, if they are not too many.
fn asked(layout: Layout) -> Option<usize> {
    layout.data_size().filter(|&size| size <= MOST_DATA)
}
