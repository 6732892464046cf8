//! DSK images: validating, asking for a sector, and writing.

use crate::{beside, code, plain_dsk, ratio};
use dsk::{raw, Layout};
use std::hint::black_box;

/// What an image has: tracks, sides, sectors a block, and their size code.
#[derive(Clone, Copy)]
struct Disk {
    tracks: u8,
    sides: u8,
    sectors: u8,
    code: u8,
}

/// A whole disk of 40 tracks, as the CPC formats it.
const CPC: Disk = Disk { tracks: 40, sides: 1, sectors: 9, code: 2 };

/// A whole disk of 80 tracks and two sides.
const DOUBLE: Disk = Disk { tracks: 80, sides: 2, ..CPC };

/// The most blocks and sectors that an image may have.
const FULLEST: Disk = Disk { tracks: 255, sides: 2, sectors: 29, code: 0 };

/// The most bytes of blocks that end on a multiple of 256, as programs write them: blocks of 65,280.
const LARGEST: Disk = Disk { tracks: 255, sides: 2, sectors: 15, code: 5 };

impl Disk {
    fn name(&self) -> String {
        format!("{} x {} blocks of {} sectors, code {}", self.tracks, self.sides, self.sectors, self.code)
    }

    fn layout(&self) -> Layout {
        let [tracks, sides, sectors, size_code] = [self.tracks, self.sides, self.sectors, self.code].map(u32::from);
        Layout { tracks, sides, sectors, size_code, gap: 0x4E, filler: 0xE5 }
    }

    /// The image; its blocks are as large as their data want, or of 65,280 bytes.
    fn image(&self, widest: bool) -> Vec<u8> {
        let data = usize::from(self.sectors) * (128 << self.code);
        let size = if widest { 0xFF00 } else { 256 + data };
        let mut image = vec![0; 256];
        image[..8].copy_from_slice(b"MV - CPC");
        image[0x30] = self.tracks;
        image[0x31] = self.sides;
        image[0x32..0x34].copy_from_slice(&(size as u16).to_le_bytes());
        for track in 0..self.tracks {
            for side in 0..self.sides {
                image.extend(self.block(track, side));
                image.resize(image.len() + size - 256, 0xE5);
            }
        }
        image
    }

    /// The Track Information Block of a track and side.
    fn block(&self, track: u8, side: u8) -> [u8; 256] {
        let mut block = [0; 256];
        block[..12].copy_from_slice(b"Track-Info\r\n");
        block[0x10..0x12].copy_from_slice(&[track, side]);
        block[0x14..0x18].copy_from_slice(&[self.code, self.sectors, 0x4E, 0xE5]);
        for (entry, id) in block[0x18..].chunks_exact_mut(8).zip(1..=self.sectors) {
            entry[..4].copy_from_slice(&[track, side, id, self.code]);
        }
        block
    }
}

/// Validating whole disks.
pub fn validate(rounds: usize) {
    for (disk, widest, times) in [(CPC, false, 2000), (DOUBLE, false, 500), (FULLEST, false, 100), (LARGEST, true, 50)] {
        let image = disk.image(widest);
        let library = || raw::validate(black_box(&image));
        let plain = || code(plain_dsk::validate(black_box(&image)));
        ratio(&format!("validate a DSK image: {}", disk.name()), rounds, times, library, plain);
    }
}

/// The creator of the images that are written.
const CREATOR: &[u8] = b"a yardstick   ";

/// What is written of a disk: its layout, its data, and room for its image.
struct Written {
    layout: Layout,
    data: Vec<u8>,
    image: Vec<u8>,
}

impl Written {
    fn new(disk: &Disk) -> Written {
        let layout = disk.layout();
        let data = (0..layout.data_size().expect("a small number")).map(|i| (i % 251) as u8).collect();
        Written { layout, data, image: vec![0; layout.image_size().expect("a small number")] }
    }

    /// The library writes it.
    fn by_library(&mut self) -> u64 {
        let mut out = [0];
        raw::write(CREATOR, self.layout, black_box(&self.data), black_box(&mut self.image), &mut out) + out[0]
    }

    /// Plain Rust writes it.
    fn plainly(&mut self) -> u64 {
        match plain_dsk::write(CREATOR, self.layout, black_box(&self.data), black_box(&mut self.image)) {
            Ok(length) => length as u64,
            refused => code(refused),
        }
    }
}

/// Writing whole disks.
pub fn write(rounds: usize) {
    for (disk, times) in [(CPC, 500), (DOUBLE, 100), (FULLEST, 50), (LARGEST, 1)] {
        let [mut library, mut plain] = [Written::new(&disk), Written::new(&disk)];
        ratio(&format!("write a DSK image: {}", disk.name()), rounds, times, || library.by_library(), || plain.plainly());
        assert!(library.image == plain.image, "the two write the same image");
    }
}

/// Asking for the last sector.
pub fn question(rounds: usize) {
    for (disk, times) in [(CPC, 2000), (FULLEST, 100)] {
        let image = disk.image(false);
        let (track, side, index) = (u32::from(disk.tracks - 1), u32::from(disk.sides - 1), u32::from(disk.sectors - 1));
        let library = || {
            let mut out = [0; 8];
            raw::sector(black_box(&image), track, side, index, &mut out) + out.iter().sum::<u64>()
        };
        let plain = || match plain_dsk::sector(black_box(&image), track, side, index) {
            Ok((entry, offset, length)) => entry.iter().map(|&byte| u64::from(byte)).sum::<u64>() + (offset + length) as u64,
            Err((number, position)) => u64::from(number) + 256 * position,
        };
        ratio(&format!("ask for the last sector: {}", disk.name()), rounds, times, library, plain);
    }
}

/// Validating and writing fewer blocks, as many times as make for the same number in all.
pub fn growth(rounds: usize) {
    let (most, mut written, times) = (FULLEST.image(false), Written::new(&FULLEST), 100);
    for (tracks, sides) in [(1, 1), (17, 2), (85, 2), (255, 1)] {
        let fewer = Disk { tracks, sides, ..FULLEST };
        let image = fewer.image(false);
        let more_times = times * 510 / (usize::from(tracks) * usize::from(sides));
        let first = (more_times, || raw::validate(black_box(&image)));
        let second = (times, || raw::validate(black_box(&most)));
        beside(&format!("validate a DSK image: {}", fewer.name()), rounds, first, second);
        let mut less = Written::new(&fewer);
        assert_eq!(less.by_library(), less.image.len() as u64, "the image is written");
        let (first, second) = ((more_times, || less.by_library()), (times, || written.by_library()));
        beside(&format!("write a DSK image: {}", fewer.name()), rounds, first, second);
    }
}
