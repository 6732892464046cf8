//! DSK images by chance: valid ones of every shape, and faults put into them.

use crate::dsk_image::{
    block_size, geometry, sector_code_at, sector_size, whole, BlockPart, Ground, Parts, INFORMATION, NUMBERS, OPENING, SECTORS, SIDES,
    SIGN, SIZE_CODE, TRACKS, TRACK_SIZE,
};
use crate::generate::{spoil_byte, spoil_field};
use crate::image::set;
use crate::random::Random;

/// The most sectors of a block, and the largest track size.
const MOST_SECTORS: usize = 29;
const LARGEST: usize = 65_535;

/// An image by chance: valid, or with a fault or two, or none at all.
pub fn image(random: &mut Random) -> Vec<u8> {
    if random.once_in(60) {
        return noise(random);
    }
    let parts = parts(random);
    let mut image = parts.build(random);
    let faults = random.pick(&[0, 0, 0, 1, 1, 1, 1, 2, 2]);
    let mut block = some_block(&parts, random);
    for _ in 0..faults {
        spoil(&parts, block, &mut image, random);
        if random.once_in(2) {
            block = some_block(&parts, random);
        }
    }
    image
}

/// Any bytes, mostly after the sign.
fn noise(random: &mut Random) -> Vec<u8> {
    let size = random.pick(&[3, 8, 9, 60, 256, 257, 600, 2000]);
    let size = random.between(0, size);
    let mut image = random.bytes(size);
    if !random.once_in(4) {
        let part = SIGN.len().min(size);
        set(&mut image, 0, &SIGN[..part]);
    }
    image
}

// ---- shapes

/// Parts of an image: valid but where its data are a little too long for their block.
fn parts(random: &mut Random) -> Parts {
    let (tracks, sides) = (tracks(random), random.between(1, 2) as u8);
    let count = usize::from(tracks) * usize::from(sides);
    let room = room(random, count);
    let blocks = blocks(random, count, room);
    let needed = blocks.iter().map(BlockPart::size).max().unwrap_or(INFORMATION);
    Parts {
        opening: opening(random),
        tracks,
        sides,
        track_size: track_size(random, needed, count) as u16,
        blocks,
        ground: random.pick(&[Ground::Noise, Ground::Noise, Ground::Clean, Ground::Zeros]),
        trailer: random.pick(&[0, 0, 0, 0, 1, 128, 255, 256, 257, 1000]),
    }
}

/// How many tracks: mostly a few, now and then many.
pub fn tracks(random: &mut Random) -> u8 {
    match random.below(400) {
        0 => random.pick(&[127, 128, 129, 254, 255, 255]),
        1..=8 => random.pick(&[10, 35, 40, 42, 80]),
        _ => random.pick(&[1, 1, 1, 2, 2, 3, 4, 5]),
    }
}

/// How many bytes the data of each of so many blocks take at most.
pub fn room(random: &mut Random, count: usize) -> usize {
    let budget = match random.below(60) {
        0 => 130_000,
        1..=6 => 26_000,
        _ => random.pick(&[1000, 3000, 6000, 6000]),
    };
    (budget / count).min(LARGEST - INFORMATION)
}

/// The first 34 bytes, as tools write them or with no more than the sign, and a creator.
fn opening(random: &mut Random) -> Vec<u8> {
    let text = if random.once_in(3) { SIGN } else { OPENING };
    let creator = if random.once_in(2) { b"some creator..".to_vec() } else { random.bytes(14) };
    match random.below(3) {
        0 => text.to_vec(),
        _ => [text, &random.bytes(OPENING.len() - text.len()), &creator].concat(),
    }
}

/// So many blocks, alike or of any shape, whose data take at most so many bytes.
fn blocks(random: &mut Random, count: usize, room: usize) -> Vec<BlockPart> {
    let alike = random.once_in(2);
    let first = shape(random, room, 6);
    let plain = random.once_in(3);
    let mut blocks = Vec::new();
    for index in 0..count {
        let (code, sectors) = if alike { first } else { shape(random, room, 6) };
        let entry = |at: usize, random: &mut Random| if plain { [index as u8, 0, at as u8, code, 0, 0, 0, 0] } else { entry(random, code) };
        let entries = (0..sectors).map(|at| entry(at, random)).collect();
        blocks.push(BlockPart { size_code: code, gap: random.byte(), filler: random.byte(), entries });
    }
    blocks
}

/// A size code, at most this one, and a number of sectors whose data take at most so many bytes.
pub fn shape(random: &mut Random, room: usize, most_code: u8) -> (u8, usize) {
    let largest = (0..=most_code).rev().find(|&code| sector_size(code) <= room).unwrap_or(0);
    let code = if random.once_in(3) { largest } else { random.between(0, largest.into()) as u8 };
    let most = (room / sector_size(code)).min(MOST_SECTORS);
    let sectors = match random.below(6) {
        0 => 0,
        1 => most,
        _ => random.between(0, most),
    };
    (code, sectors)
}

/// An entry of any identity and status, with the block's code or a smaller one.
fn entry(random: &mut Random, code: u8) -> [u8; 8] {
    let mut entry = random.number().to_le_bytes();
    entry[3] = if random.once_in(2) { code } else { random.between(0, code.into()) as u8 };
    entry
}

/// A track size: as needed, or with some room, or the largest; now and then a byte short, or a few.
fn track_size(random: &mut Random, needed: usize, count: usize) -> usize {
    let size = match random.below(24) {
        0..=3 => needed + random.pick(&[1, 2, 127, 128, 129, 255, 256]),
        4 => needed + random.below(700),
        5 | 6 => needed - 1,
        7 => needed.saturating_sub(random.below(300)),
        8 => needed.next_multiple_of(256),
        9 if count <= 2 && random.once_in(8) => LARGEST,
        _ => needed,
    };
    size.clamp(INFORMATION, LARGEST)
}

// ---- faults

/// A block: the first, the last, or any.
fn some_block(parts: &Parts, random: &mut Random) -> usize {
    let last = parts.blocks.len() - 1;
    let any = random.below(last + 1);
    random.pick(&[0, last, any, any])
}

/// Puts one fault of some kind into the image, in this block if it is one of a block; some leave it valid.
fn spoil(parts: &Parts, block: usize, image: &mut Vec<u8>, random: &mut Random) {
    let place = parts.block_at(block);
    match random.below(14) {
        0 => resize(image, random),
        1 => spoil_sign(image, random),
        2 => spoil_field(image, SIDES, &[0, 1, 2, 3, 129, 255], random),
        3 => spoil_tracks(image, random),
        4 => spoil_track_size(image, random),
        5 => spoil_name(image, place, random),
        6 => spoil_numbers(image, place, random),
        7 => reorder(parts, image, random),
        8 | 9 => spoil_sectors(parts, block, image, random),
        10 => spoil_code(parts, block, image, random),
        11 | 12 => spoil_entry(parts, block, image, random),
        _ => flip_bytes(image, place, random),
    }
}

/// Another length: at an edge, a byte more or less than the whole, or any.
fn resize(image: &mut Vec<u8>, random: &mut Random) {
    let due = whole(image);
    let size = match random.below(5) {
        0 => random.below(9),
        1 => random.between(255, 257),
        2 => due.saturating_sub(random.below(2)),
        3 => random.pick(&[due + 1, due - INFORMATION, due.saturating_sub(INFORMATION + 1), 0x34]),
        _ => random.below(image.len() + 2),
    };
    image.resize(size.min(1 << 18), 0);
}

/// A letter of the sign changed, or another case of it; the sign of the extended kind; or the letters after it.
fn spoil_sign(image: &mut [u8], random: &mut Random) {
    match random.below(5) {
        0 | 1 => spoil_byte(image, 0, SIGN.len(), random),
        2 => change_case(image, 0, SIGN.len(), random),
        3 => set(image, 0, b"EXTENDED CPC DSK File\r\n"),
        _ => spoil_byte(image, SIGN.len(), OPENING.len(), random),
    }
}

/// The other case of one of n letters from a place on.
fn change_case(image: &mut [u8], place: usize, n: usize, random: &mut Random) {
    if let Some(letter) = image.get_mut(place + random.below(n)) {
        *letter ^= 0x20;
    }
}

/// Another number of tracks: none, one more or less, or many.
fn spoil_tracks(image: &mut [u8], random: &mut Random) {
    let [tracks, ..] = geometry(image);
    let near = tracks as u8;
    spoil_field(image, TRACKS, &[0, 1, near.wrapping_sub(1), near.wrapping_add(1), 128, 255], random);
}

/// Another track size: by a byte, at the least and the largest, or with its bytes exchanged.
fn spoil_track_size(image: &mut [u8], random: &mut Random) {
    let [_, _, now] = geometry(image);
    let now = now as u16;
    let sizes = [0, 1, 255, 256, 257, now.wrapping_sub(1), now.wrapping_add(1), now.swap_bytes(), now & 0xFF00, now & 0xFF, 65_535];
    set(image, TRACK_SIZE, &random.pick(&sizes).to_le_bytes());
}

/// A letter of a block's name, or one of the bytes after it.
fn spoil_name(image: &mut [u8], place: usize, random: &mut Random) {
    match random.below(4) {
        0 => change_case(image, place, 12, random),
        1 => spoil_byte(image, place + 12, 4, random),
        _ => spoil_byte(image, place, 12, random),
    }
}

/// Other track and side numbers: exchanged, or one of them a little or much off.
fn spoil_numbers(image: &mut [u8], place: usize, random: &mut Random) {
    let Some(&[track, side]) = image.get(place + NUMBERS..place + NUMBERS + 2) else { return };
    let numbers = match random.below(6) {
        0 => [side, track],
        1 => [track.wrapping_add(1), side],
        2 => [track.wrapping_sub(1), side],
        3 => [track, side ^ 1],
        4 => [track, random.pick(&[2, 255])],
        _ => [random.byte(), side],
    };
    set(image, place + NUMBERS, &numbers);
}

/// Blocks in another order: all of side 0, then those of side 1, or two of them exchanged.
fn reorder(parts: &Parts, image: &mut [u8], random: &mut Random) {
    let mut order: Vec<usize> = (0..parts.blocks.len()).collect();
    if random.once_in(2) {
        order.sort_by_key(|index| index % usize::from(parts.sides));
    } else {
        order.swap(some_block(parts, random), some_block(parts, random));
    }
    let former = image.to_vec();
    let size = usize::from(parts.track_size);
    for (to, from) in order.into_iter().enumerate() {
        let from = parts.block_at(from);
        if let Some(block) = former.get(from..from + size) {
            set(image, parts.block_at(to), block);
        }
    }
}

/// Another number of sectors: around 29, or one that just fits or does not; their codes mostly as the block's.
fn spoil_sectors(parts: &Parts, block: usize, image: &mut [u8], random: &mut Random) {
    let (place, part) = (parts.block_at(block), &parts.blocks[block]);
    let (now, code) = (part.entries.len(), part.size_code);
    let fitting = (usize::from(parts.track_size) - INFORMATION) / sector_size(code);
    let sectors = match random.below(3) {
        0 => random.pick(&[0, 28, 29, 30, 31, 32, 127, 128, 255]),
        1 => random.pick(&[fitting, fitting + 1, fitting + 1]).min(30),
        _ => random.pick(&[now + 1, now.saturating_sub(1)]),
    };
    set(image, place + SECTORS, &[sectors as u8]);
    if !random.once_in(4) {
        (now..sectors.min(32)).for_each(|index| set(image, place + sector_code_at(index), &[code]));
    }
}

/// Another size code of a block, around the least, its own, and 6.
fn spoil_code(parts: &Parts, block: usize, image: &mut [u8], random: &mut Random) {
    let (place, part) = (parts.block_at(block), &parts.blocks[block]);
    let code = part.size_code;
    let codes = [0, code.wrapping_sub(1), code + 1, 5, 6, 6, 7, 7, 8, 128, 255];
    set(image, place + SIZE_CODE, &[random.pick(&codes)]);
    // none, or as many as 0x1800 bytes each leave room for
    let most = (usize::from(parts.track_size) - INFORMATION) / (block_size(6, 1) - INFORMATION);
    match random.below(4) {
        0 => set(image, place + SECTORS, &[0]),
        1 => set(image, place + SECTORS, &[most.min(part.entries.len()) as u8]),
        _ => {}
    }
}

/// Another code of a sector: its block's or around it; in the first, the last, one past the last, or any entry.
fn spoil_entry(parts: &Parts, block: usize, image: &mut [u8], random: &mut Random) {
    let (place, part) = (parts.block_at(block), &parts.blocks[block]);
    let (count, code) = (part.entries.len(), part.size_code);
    let any = random.below(count.max(1));
    let index = random.pick(&[0, count.saturating_sub(1), any, any, count, count + 1, 28]);
    let value = random.pick(&[code, code + 1, code + 1, code.saturating_sub(1), 6, 7, 128, 255]);
    set(image, place + sector_code_at(index), &[value]);
}

/// A few bits of the disc information block, or of a block.
fn flip_bytes(image: &mut [u8], place: usize, random: &mut Random) {
    for _ in 0..random.between(1, 4) {
        match random.below(3) {
            0 => spoil_byte(image, 0, 0x34, random),
            1 => spoil_byte(image, place, 0x18, random),
            _ => spoil_byte(image, place, INFORMATION, random),
        }
    }
}
