//! DSK images written at the edges: the largest ones, every shape once, and each number, the data and what is lent at their limits and past
//! them.

use dsk::Layout;
use scp_compare::dsk_cases::FAR;
use scp_compare::dsk_writing::{numbers, of_numbers, Writing};
use scp_compare::random::Random;

/// One track of one side with one sector of 128 bytes; and with none.
const ONE: Layout = Layout { tracks: 1, sides: 1, sectors: 1, size_code: 0, gap: 0x4E, filler: 0xE5 };
const NONE: Layout = Layout { sectors: 0, ..ONE };

/// How many bytes the image of one sector has.
const SIZE: usize = 640;

/// So many bytes of data to write, with so many places for the length.
fn writing(layout: Layout, data: usize, places: usize) -> Writing {
    Writing { creator: b"fourteen bytes".to_vec(), layout, data: Random::new(7).bytes(data), places }
}

/// The number that all give where this is written over so many bytes.
fn number(writing: &Writing, size: usize) -> u32 {
    let (layout, data) = (writing.layout, writing.data.len());
    let told = |difference| panic!("{layout:?}, {data} bytes of data, over {size} bytes: {difference:?}");
    writing.write(&Random::new(8).bytes(size)).map_or_else(told, |(number, _)| number)
}

/// The number where as many data are written as the layout asks for, over as many bytes as its image has and some more.
fn number_of(layout: Layout, more: usize) -> u32 {
    number(&writing(layout, layout.data_size().unwrap(), 1), layout.image_size().unwrap() + more)
}

/// The number for what an image has, and 41 for what none has.
fn due(right: bool, number: u32) -> u32 {
    if right {
        number
    } else {
        41
    }
}

#[test]
fn the_largest_images_are_written_and_read_back() {
    let most = [(0, 29, 2_023_936), (1, 29, 3_917_056), (2, 29, 7_703_296), (3, 29, 15_275_776), (4, 29, 30_420_736), (5, 15, 31_465_216)];
    for (size_code, sectors, size) in most {
        let layout = Layout { tracks: 255, sides: 2, sectors, size_code, ..ONE };
        assert_eq!(layout.image_size(), Some(size));
        let writing = writing(layout, size - 256 - 510 * 256, 1);
        assert_eq!([size - 1, size + 1].map(|size| number(&writing, size)), [15, 0], "{layout:?}");
    }
}

#[test]
fn every_number_of_sectors_of_every_size_is_written_or_refused() {
    for size_code in 0..=8 {
        for sectors in 0..=33 {
            let layout = Layout { sectors, size_code, ..ONE };
            let right = sectors <= 29 && size_code <= 5 && 256 + sectors * (128 << size_code) <= 65_535;
            assert_eq!(number_of(layout, 5), due(right, 0), "{layout:?}");
        }
    }
}

#[test]
fn a_block_has_15_sectors_of_4096_bytes_and_not_16() {
    for (tracks, sides) in [(1, 1), (1, 2), (2, 1), (7, 2)] {
        for (sectors, right) in [(15, true), (16, false), (17, false), (29, false)] {
            let layout = Layout { tracks, sides, sectors, size_code: 5, ..ONE };
            let (data, size) = (layout.data_size().unwrap(), layout.image_size().unwrap());
            // as many as there would be if a block's were cut to 16 bits
            let cut = (tracks * sides * (sectors * 4096 % 65_536)) as usize;
            assert_eq!([data, cut].map(|data| number(&writing(layout, data, 1), size)), [due(right, 0); 2], "{layout:?}");
            // so it is with nothing lent
            assert_eq!(number(&writing(layout, data, 0), 0), due(right, 15), "{layout:?}");
        }
    }
}

#[test]
fn every_number_of_tracks_and_sides_is_written_or_refused() {
    for tracks in 0..=257 {
        for sides in 0..=3 {
            let layout = Layout { tracks, sides, ..ONE };
            let right = (1..=255).contains(&tracks) && (1..=2).contains(&sides);
            assert_eq!(number_of(layout, 0), due(right, 0), "{layout:?}");
            assert_eq!(number_of(Layout { sectors: 0, ..layout }, 1), due(right, 0), "{layout:?} without sectors");
        }
    }
}

#[test]
fn every_gap_and_filler_is_written_or_refused() {
    for value in 0..=260 {
        for layout in [Layout { gap: value, ..ONE }, Layout { filler: value, ..ONE }, Layout { gap: value, filler: value / 2, ..ONE }] {
            assert_eq!(number_of(layout, 0), due(value <= 255, 0), "{layout:?}");
        }
    }
}

#[test]
fn numbers_far_outside_are_refused_before_what_is_lent_is_looked_at() {
    for (at, most) in [255, 2, 29, 5, 255, 255].into_iter().enumerate() {
        for layout in [ONE, NONE] {
            let now = numbers(layout)[at];
            let cut = [32, 64, 128, 256, 512, 1 << 16, 1 << 24, 1 << 30, 1 << 31].map(|lost| now.wrapping_add(lost));
            for far in FAR.into_iter().chain(cut).chain([most + 1]).filter(|&far| far > most) {
                let mut numbers = numbers(layout);
                numbers[at] = far;
                for (data, size, places) in [(128, SIZE, 1), (0, SIZE, 1), (128, 0, 1), (0, SIZE, 0), (0, 0, 0), (128, 1 << 17, 2)] {
                    assert_eq!(number(&writing(of_numbers(numbers), data, places), size), 41, "{far} at {at}");
                }
            }
        }
    }
}

#[test]
fn a_creator_has_14_bytes() {
    for length in (0..=30).chain([256 + 14, 65_536 + 14]) {
        let writing = Writing { creator: Random::new(9).bytes(length), ..writing(ONE, 128, 1) };
        assert_eq!([SIZE, SIZE - 1].map(|size| number(&writing, size)), [0, 15].map(|number| due(length == 14, number)), "{length}");
    }
}

#[test]
fn data_have_their_length_to_the_byte() {
    let several = Layout { tracks: 3, sides: 2, sectors: 4, size_code: 1, ..ONE };
    for layout in [NONE, ONE, several, Layout { sides: 1, size_code: 5, ..several }, Layout { sectors: 0, ..several }] {
        let (right, size) = (layout.data_size().unwrap(), layout.image_size().unwrap());
        let others = [0, 1, 128, right / 2, right.saturating_sub(128), right.saturating_sub(1), right, right + 1, right + 128, 2 * right];
        for data in others {
            assert_eq!(number(&writing(layout, data, 1), size), due(data == right, 0), "{layout:?}, {data}");
            // so it is with nothing lent
            assert_eq!(number(&writing(layout, data, 0), 0), due(data == right, 15), "{layout:?}, {data}");
        }
    }
}

#[test]
fn what_is_lent_suffices_to_the_byte() {
    for layout in [NONE, ONE, Layout { tracks: 2, sides: 2, sectors: 9, size_code: 2, ..ONE }] {
        let (data, size) = (layout.data_size().unwrap(), layout.image_size().unwrap());
        for short in [0, 1, 34, 255, 256, 257, size - 256, size - 1] {
            assert_eq!([0, 1, 2].map(|places| number(&writing(layout, data, places), short)), [15; 3], "{layout:?} over {short}");
        }
        for enough in [size, size + 1, size + 256, 3 * size] {
            assert_eq!(
                [0, 1, 2, 9].map(|places| number(&writing(layout, data, places), enough)),
                [15, 0, 0, 0],
                "{layout:?} over {enough}"
            );
        }
    }
}
