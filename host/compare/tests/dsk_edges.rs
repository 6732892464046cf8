//! DSK images at the edges: the smallest and the largest, one byte too short, and numbers far outside.

use scp_compare::ask::{agree_on, Ask};
use scp_compare::dsk_cases::{agree, of_block, FAR};
use scp_compare::dsk_image::{sector_code_at, Parts, NUMBERS, SECTORS, SIGN, SIZE_CODE, TRACKS};
use scp_compare::dsk_question::Question;
use scp_compare::image::set;
use scp_compare::random::Random;

/// The number that both give.
fn number(image: &[u8], question: &Question) -> u32 {
    question.compare(image).unwrap_or_else(|difference| panic!("{} bytes, {question:?}: {difference:?}", image.len()))
}

/// What both say of an image, number and position.
fn verdict(image: &[u8]) -> (u32, u64) {
    let number = number(image, &Question::Validate);
    (number, dsk::validate(image).map_or_else(|refusal| refusal.position, |()| 0))
}

fn sector(track: u32, side: u32, index: u32) -> Question {
    Question::Sector { track, side, index, places: 8 }
}

fn build(parts: &Parts) -> Vec<u8> {
    parts.build(&mut Random::new(6))
}

#[test]
fn the_smallest_image_is_accepted_and_shorter_ones_are_refused() {
    let image = build(&Parts::plain(1, 1, 256, (0, 0)));
    assert_eq!((image.len(), verdict(&image)), (512, (0, 0)));
    for size in 0..512 {
        assert_eq!(verdict(&image[..size]), (if size < SIGN.len() { 30 } else { 32 }, 0), "{size} bytes");
    }
    agree("the smallest", &image);
}

#[test]
fn a_length_below_256_comes_before_the_geometry_and_after_the_sign() {
    let mut image = build(&Parts::plain(1, 1, 256, (0, 0)));
    for geometry in [[0, 1, 0, 1], [1, 0, 0, 1], [1, 3, 0, 1], [1, 1, 255, 0]] {
        set(&mut image, TRACKS, &geometry);
        assert_eq!([8, 52, 255, 256, 257, 512].map(|size| verdict(&image[..size]).0), [32, 32, 32, 31, 31, 31], "{geometry:?}");
    }
    set(&mut image, 7, b"c");
    assert_eq!([0, 7, 8, 255, 256, 512].map(|size| verdict(&image[..size]).0), [30; 6]);
}

#[test]
fn the_whole_is_to_the_byte() {
    for (tracks, sides, track_size, shape) in [(1, 1, 384, (0, 1)), (3, 2, 257, (0, 0)), (2, 2, 6400, (6, 1)), (1, 2, 65_535, (4, 29))] {
        let mut image = build(&Parts::plain(tracks, sides, track_size, shape));
        assert_eq!(image.len(), 256 + usize::from(tracks) * usize::from(sides) * usize::from(track_size));
        agree("the whole", &image);
        image.pop();
        assert_eq!(verdict(&image), (32, 0));
        // also before a fault of the first block
        set(&mut image, 256, b"t");
        assert_eq!(verdict(&image), (32, 0));
        image.push(0);
        assert_eq!(verdict(&image), (33, 0));
    }
}

#[test]
fn data_fit_to_the_byte() {
    for (code, most, size) in [(0, 29, 128), (1, 29, 256), (2, 29, 512), (3, 29, 1024), (4, 29, 2048), (5, 15, 4096), (6, 10, 0x1800)] {
        for sectors in [1, most] {
            let needed = 256 + u16::from(sectors) * size;
            for (track_size, due) in [(needed - 1, 35), (needed, 0), (needed + 1, 0)] {
                let image = build(&Parts { trailer: 9000, ..Parts::plain(1, 2, track_size, (code, sectors)) });
                assert_eq!(verdict(&image), (due, 0), "{sectors} of code {code} in {track_size}");
                agree_on("data that fit to the byte", &image, of_block(&image, 0, 1));
            }
        }
    }
    // one more of code 5 or 6 fits in no block
    for (code, sectors) in [(5, 16), (6, 11)] {
        assert_eq!(verdict(&build(&Parts::plain(1, 1, 65_535, (code, sectors)))), (35, 0));
    }
}

#[test]
fn a_block_of_29_sectors_and_one_of_30() {
    for code in 0..5 {
        let mut image = build(&Parts::plain(1, 1, 65_535, (code, 29)));
        agree("29 sectors", &image);
        set(&mut image, 256 + sector_code_at(29), &[code]);
        for (sectors, due) in [(30, 34), (31, 34), (128, 34), (255, 34), (29, 0)] {
            set(&mut image, 256 + SECTORS, &[sectors]);
            assert_eq!(verdict(&image), (due, 0), "{sectors} of code {code}");
        }
    }
}

#[test]
fn the_largest_image_is_read_to_its_last_sector() {
    let mut image = build(&Parts::plain(255, 2, 65_535, (6, 10)));
    assert_eq!((image.len(), verdict(&image)), (33_423_106, (0, 0)));
    for (track, side, index) in [(0, 0, 0), (0, 1, 9), (128, 0, 0), (254, 0, 9), (254, 1, 0), (254, 1, 9)] {
        let offset = 256 + (2 * u64::from(track) + u64::from(side)) * 65_535 + 256 + u64::from(index) * 0x1800;
        assert_eq!(number(&image, &Question::Data { track, side, index }), 0);
        let found = dsk::sector(&image, track, side, index).unwrap();
        assert_eq!((found.cylinder, u32::from(found.id), found.offset, found.length), (track as u8, index + 1, offset, 0x1800));
        assert_eq!(dsk::data(&image, track, side, index).unwrap(), &image[offset as usize..][..0x1800]);
    }
    for (asked, due) in [(sector(255, 0, 0), 13), (sector(254, 2, 0), 13), (sector(254, 1, 10), 14), (sector(510, 0, 0), 13)] {
        assert_eq!(number(&image, &asked), due);
    }
    // the last block is looked at
    let last = 256 + 509 * 65_535;
    for (place, value, due) in [(last + 3, 0, 33), (last + NUMBERS, 253, 33), (last + SIZE_CODE, 5, 34), (last + SECTORS, 11, 35)] {
        let former = std::mem::replace(&mut image[place], value);
        assert_eq!(verdict(&image), (due, 509), "{value} at {place}");
        image[place] = former;
    }
    image.pop();
    assert_eq!(verdict(&image), (32, 0));
}

#[test]
fn the_most_tracks_of_the_most_sectors() {
    let image = build(&Parts::plain(255, 2, 3968, (0, 29)));
    assert_eq!((image.len(), verdict(&image)), (256 + 510 * 3968, (0, 0)));
    for (track, side) in [(0, 0), (127, 1), (128, 0), (254, 1)] {
        agree_on("255 tracks of 29 sectors", &image, of_block(&image, track, side));
        assert_eq!(number(&image, &Question::Data { track, side, index: 28 }), 0);
    }
    agree_on("no such track", &image, of_block(&image, 255, 0));
}

#[test]
fn numbers_far_outside_are_not_there() {
    let image = build(&Parts { trailer: 100_000, ..Parts::plain(3, 2, 1024, (1, 3)) });
    for far in FAR.into_iter().chain([3, 4, 1 << 30, 3 << 30, (1 << 31) - 1, (1 << 16) + 1]) {
        for near in [0, 1] {
            assert_eq!(number(&image, &sector(far, near, near)), 13);
            assert_eq!(number(&image, &sector(near, far, near)), 13);
            assert_eq!(number(&image, &sector(near, near, far)), 14);
            // a track or side comes before a sector
            assert_eq!(number(&image, &sector(far, near, far)), 13);
            assert_eq!(number(&image, &sector(near, far, far)), 13);
            assert_eq!(number(&image, &Question::Block { track: far, side: near, places: 0 }), 13);
            assert_eq!(number(&image, &Question::Sector { track: near, side: near, index: far, places: 0 }), 14);
        }
    }
    // places are looked at last
    for (places, due) in [(0, 15), (7, 15), (8, 0), (9, 0), (1000, 0)] {
        assert_eq!(number(&image, &Question::Sector { track: 2, side: 1, index: 2, places }), due);
    }
}

#[test]
fn an_image_may_be_of_any_length() {
    let mut image = build(&Parts::plain(1, 1, 384, (0, 1)));
    image.resize((1 << 28) + 1, 0);
    assert_eq!(verdict(&image), (0, 0));
    assert_eq!(dsk::data(&image, 0, 0, 0).unwrap(), &image[512..640]);
}
