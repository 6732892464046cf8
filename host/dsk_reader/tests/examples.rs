//! Examples by hand from Q-10 and the document: every refusal with its position, and its edges on both sides.

use dsk_reader::*;

/// Sets bytes of an image.
fn put(image: &mut [u8], place: usize, bytes: &[u8]) {
    image[place..place + bytes.len()].copy_from_slice(bytes);
}

/// An image of this geometry; every byte that no rule looks at is 0xE7, and no block has a sector.
/// Each block has code 0, its index as gap, and filler 0xE5.
fn empty(tracks: u8, sides: u8, track_size: u16) -> Vec<u8> {
    let blocks = usize::from(tracks) * usize::from(sides);
    let mut image = vec![0xE7; 256 + blocks * usize::from(track_size)];
    put(&mut image, 0, b"MV - CPC");
    put(&mut image, 0x30, &[tracks, sides]);
    put(&mut image, 0x32, &track_size.to_le_bytes());
    let mut place = 256;
    for track in 0..tracks {
        for side in 0..sides {
            put(&mut image, place, b"Track-Info\r\n");
            put(&mut image, place + 0x10, &[track, side]);
            let index = (place - 256) / usize::from(track_size);
            put(&mut image, place + 0x14, &[0, 0, index as u8, 0xE5]);
            place += usize::from(track_size);
        }
    }
    image
}

/// One track of one side, whose block at 256 has these sectors of this code, all with the block's code.
fn one_block(track_size: u16, code: u8, sectors: u8) -> Vec<u8> {
    let mut image = empty(1, 1, track_size);
    put(&mut image, 256 + 0x14, &[code, sectors]);
    for index in 0..usize::from(sectors).min(29) {
        put(&mut image, 256 + 0x18 + 8 * index + 3, &[code]);
    }
    image
}

/// Two tracks of two sides with track size 1024: blocks at 256, 1280, 2304 and 3328.
/// Each has three sectors of code 1, whose data are at 256, 512 and 768 in the block.
/// The data of sector s of block b are 255 bytes 0x10 x b + s, and then 0xFF.
fn small() -> Vec<u8> {
    let mut image = empty(2, 2, 1024);
    for block in 0..4_u8 {
        let place = 256 + 1024 * usize::from(block);
        put(&mut image, place + 0x14, &[1, 3]);
        for index in 0..3_u8 {
            let entry = [40 + block, 9, 0xC1 + index, 1, 0x80 + block, 0x40 + index, 0xE7, 0xE7];
            put(&mut image, place + 0x18 + 8 * usize::from(index), &entry);
            let start = place + 256 + 256 * usize::from(index);
            put(&mut image, start, &[16 * block + index; 255]);
            put(&mut image, start + 255, &[0xFF]);
        }
    }
    image
}

/// The small image with some bytes changed.
fn small_with(place: usize, bytes: &[u8]) -> Vec<u8> {
    let mut image = small();
    put(&mut image, place, bytes);
    image
}

/// A refusal.
fn refused<T>(number: u32, position: u64) -> Result<T, Refusal> {
    Err(Refusal { number, position })
}

/// The judgement and all questions refuse alike, also where 13 or 14 would be right.
fn all_refuse(image: &[u8], number: u32, position: u64) {
    assert_eq!(validate(image), refused(number, position));
    assert_eq!(geometry(image), refused(number, position));
    for (track, side, index) in [(0, 0, 0), (0, 0, u32::MAX), (u32::MAX, u32::MAX, u32::MAX)] {
        assert_eq!(block(image, track, side), refused(number, position));
        assert_eq!(sector(image, track, side, index), refused(number, position));
        assert_eq!(data(image, track, side, index), refused(number, position));
    }
}

#[test]
fn the_small_image_is_sound() {
    let image = small();
    assert_eq!(image.len(), 4352);
    assert_eq!(validate(&image), Ok(()));
    assert_eq!(geometry(&image), Ok(Geometry { tracks: 2, sides: 2, track_size: 1024 }));
}

#[test]
fn blocks_are_ordered_by_track_and_then_by_side() {
    let image = small();
    for (track, side, index) in [(0, 0, 0), (0, 1, 1), (1, 0, 2), (1, 1, 3)] {
        assert_eq!(block(&image, track, side), Ok(Block { sectors: 3, size_code: 1, gap: index, filler: 0xE5 }));
    }
    // All tracks of side 0 first: the second block is not track 0 side 1.
    let mut other = small_with(256 + 1024 + 0x10, &[1, 0]);
    put(&mut other, 256 + 2048 + 0x10, &[0, 1]);
    all_refuse(&other, 33, 1);
}

#[test]
fn a_block_is_answered_as_stored() {
    let image = small_with(2304 + 0x14, &[6, 0, 0x4E, 0xA5]);
    assert_eq!(block(&image, 1, 0), Ok(Block { sectors: 0, size_code: 6, gap: 0x4E, filler: 0xA5 }));
}

#[test]
fn a_sector_has_identity_status_and_place() {
    let image = small();
    let first = Sector { cylinder: 40, head: 9, id: 0xC1, size_code: 1, status1: 0x80, status2: 0x40, offset: 512, length: 256 };
    assert_eq!(sector(&image, 0, 0, 0), Ok(first));
    let last = Sector { cylinder: 43, head: 9, id: 0xC3, size_code: 1, status1: 0x83, status2: 0x42, offset: 4096, length: 256 };
    assert_eq!(sector(&image, 1, 1, 2), Ok(last));
    let middle = Sector { cylinder: 41, head: 9, id: 0xC2, size_code: 1, status1: 0x81, status2: 0x41, offset: 1792, length: 256 };
    assert_eq!(sector(&image, 0, 1, 1), Ok(middle));
}

#[test]
fn identity_and_status_may_be_anything() {
    let image = small_with(256 + 0x18, &[0xFF, 0xFE, 0xFD, 0x00, 0xFC, 0xFB, 0xFA, 0xF9]);
    let expected = Sector { cylinder: 0xFF, head: 0xFE, id: 0xFD, size_code: 0, status1: 0xFC, status2: 0xFB, offset: 512, length: 256 };
    assert_eq!(sector(&image, 0, 0, 0), Ok(expected));
}

#[test]
fn data_lie_256_into_the_block_one_after_another() {
    let image = small();
    for (track, side, index, value) in [(0, 0, 0, 0x00), (0, 0, 2, 0x02), (0, 1, 0, 0x10), (1, 0, 1, 0x21), (1, 1, 2, 0x32)] {
        let mut expected = vec![value; 255];
        expected.push(0xFF);
        assert_eq!(data(&image, track, side, index), Ok(expected));
    }
}

#[test]
fn data_are_the_bytes_at_the_offset() {
    let image = small();
    for number in 0..12 {
        let (track, side, index) = (number / 6, number / 3 % 2, number % 3);
        let found = sector(&image, track, side, index).unwrap();
        let (start, length) = (found.offset as usize, found.length as usize);
        assert_eq!(data(&image, track, side, index).unwrap(), image[start..start + length]);
    }
}

#[test]
fn a_sector_of_a_smaller_code_takes_the_size_of_the_block() {
    let image = small_with(256 + 0x18 + 3, &[0]);
    let found = sector(&image, 0, 0, 0).unwrap();
    assert_eq!((found.size_code, found.offset, found.length), (0, 512, 256));
    assert_eq!(data(&image, 0, 0, 0).unwrap().len(), 256);
    assert_eq!(sector(&image, 0, 0, 1).unwrap().offset, 768);
}

#[test]
fn each_block_has_its_own_code() {
    let mut image = small_with(256 + 0x14, &[0, 2]);
    put(&mut image, 256 + 0x18 + 3, &[0]);
    put(&mut image, 256 + 0x20 + 3, &[0]);
    put(&mut image, 1280 + 0x14, &[2, 1]);
    let places = [(0, 0, 0), (0, 0, 1), (0, 1, 0), (1, 0, 0)].map(|(track, side, index)| {
        let found = sector(&image, track, side, index).unwrap();
        (found.offset, found.length)
    });
    assert_eq!(places, [(512, 128), (640, 128), (1536, 512), (2560, 256)]);
    assert_eq!(sector(&image, 0, 0, 2), refused(14, 0));
}

#[test]
fn sign_needs_8_bytes() {
    all_refuse(b"", 30, 0);
    all_refuse(b"MV - CP", 30, 0);
    all_refuse(b"MV - CPC", 32, 0);
    all_refuse(b"MV - CPc", 30, 0);
    all_refuse(b"EXTENDED CPC DSK File\r\nDisk-Info\r\n", 30, 0);
}

#[test]
fn sign_is_8_characters_and_the_rest_is_anything() {
    for place in 0..8 {
        let other = small()[place] ^ 0x20;
        all_refuse(&small_with(place, &[other]), 30, 0);
    }
    let full = b"MV - CPCEMU Disk-File\r\nDisk-Info\r\nfourteen bytes";
    assert_eq!(full.len(), 0x30);
    assert_eq!(validate(&small_with(0, full)), Ok(()));
    assert_eq!(validate(&small_with(8, &[0; 40])), Ok(()));
    assert_eq!(validate(&small_with(0x34, &[0; 204])), Ok(()));
}

#[test]
fn length_below_256_comes_before_the_geometry() {
    let image = small_with(0x30, &[0, 0, 0, 0]);
    all_refuse(&image[..255], 32, 0);
    all_refuse(&image[..256], 31, 0);
    all_refuse(&small()[..255], 32, 0);
    all_refuse(&small()[..256], 32, 0);
}

#[test]
fn every_beginning_is_refused_by_its_length() {
    let image = small();
    for length in 0..image.len() {
        all_refuse(&image[..length], if length < 8 { 30 } else { 32 }, 0);
    }
}

#[test]
fn sides_are_1_or_2() {
    assert_eq!(geometry(&empty(3, 1, 256)), Ok(Geometry { tracks: 3, sides: 1, track_size: 256 }));
    assert_eq!(geometry(&empty(3, 2, 256)), Ok(Geometry { tracks: 3, sides: 2, track_size: 256 }));
    all_refuse(&empty(3, 0, 256), 31, 0);
    all_refuse(&empty(3, 3, 256), 31, 0);
    all_refuse(&small_with(0x31, &[0]), 31, 0);
    all_refuse(&small_with(0x31, &[255]), 31, 0);
    // With one side, the second block should be track 1 side 0.
    all_refuse(&small_with(0x31, &[1]), 33, 1);
}

#[test]
fn tracks_are_1_to_255() {
    all_refuse(&empty(0, 1, 256), 31, 0);
    all_refuse(&small_with(0x30, &[0]), 31, 0);
    assert_eq!(validate(&empty(1, 1, 256)), Ok(()));
    let image = empty(255, 2, 256);
    assert_eq!(image.len(), 256 + 510 * 256);
    assert_eq!(geometry(&image), Ok(Geometry { tracks: 255, sides: 2, track_size: 256 }));
    assert_eq!(block(&image, 254, 1), Ok(Block { sectors: 0, size_code: 0, gap: 253, filler: 0xE5 }));
    assert_eq!(block(&image, 255, 0), refused(13, 0));
    all_refuse(&image[..image.len() - 1], 32, 0);
    let mut other = image;
    put(&mut other, 256 + 509 * 256 + 0x11, &[0]);
    all_refuse(&other, 33, 509);
}

#[test]
fn track_size_is_at_least_256_and_has_its_low_byte_first() {
    all_refuse(&small_with(0x32, &[0xFF, 0x00]), 31, 0);
    all_refuse(&small_with(0x32, &[0x00, 0x00]), 31, 0);
    assert_eq!(geometry(&empty(1, 1, 256)), Ok(Geometry { tracks: 1, sides: 1, track_size: 256 }));
    assert_eq!(geometry(&empty(1, 1, 257)), Ok(Geometry { tracks: 1, sides: 1, track_size: 257 }));
    assert_eq!(geometry(&empty(1, 1, 65535)), Ok(Geometry { tracks: 1, sides: 1, track_size: 65535 }));
    assert_eq!(empty(1, 1, 0x1300)[0x32..0x34], [0x00, 0x13]);
    assert_eq!(geometry(&empty(1, 1, 0x1300)).unwrap().track_size, 4864);
}

#[test]
fn the_greatest_geometry_does_not_wrap() {
    let mut image = vec![0; 256];
    put(&mut image, 0, b"MV - CPC");
    put(&mut image, 0x30, &[255, 2, 0xFF, 0xFF]);
    all_refuse(&image, 32, 0);
    let image = empty(255, 2, 65535);
    assert_eq!(image.len(), 33_423_106);
    assert_eq!(validate(&image), Ok(()));
    assert_eq!(validate(&image[..33_423_105]), refused(32, 0));
}

#[test]
fn the_whole_may_be_longer_but_not_shorter() {
    let mut image = small();
    all_refuse(&image[..4351], 32, 0);
    assert_eq!(validate(&image), Ok(()));
    image.push(0);
    assert_eq!(validate(&image), Ok(()));
    image.extend(vec![0xE7; 100_000]);
    assert_eq!(geometry(&image), geometry(&small()));
    assert_eq!(data(&image, 1, 1, 2), data(&small(), 1, 1, 2));
    assert_eq!(block(&image, 2, 0), refused(13, 0));
}

#[test]
fn the_name_is_12_characters_and_the_13th_is_anything() {
    for (index, place) in [(0, 256), (1, 1280), (2, 2304), (3, 3328)] {
        for character in 0..12 {
            let other = small()[place + character] ^ 0x20;
            all_refuse(&small_with(place + character, &[other]), 33, index);
        }
    }
    for thirteenth in 0..=255 {
        assert_eq!(validate(&small_with(256 + 12, &[thirteenth])), Ok(()));
    }
    assert_eq!(validate(&small_with(256 + 12, &[0, 0, 0, 0])), Ok(()));
    assert_eq!(validate(&small_with(256 + 0x12, &[0, 0])), Ok(()));
}

#[test]
fn a_block_has_its_own_numbers() {
    all_refuse(&small_with(256 + 0x10, &[1]), 33, 0);
    all_refuse(&small_with(256 + 0x11, &[1]), 33, 0);
    all_refuse(&small_with(1280 + 0x10, &[1]), 33, 1);
    all_refuse(&small_with(1280 + 0x11, &[0]), 33, 1);
    all_refuse(&small_with(2304 + 0x10, &[0]), 33, 2);
    all_refuse(&small_with(2304 + 0x10, &[2]), 33, 2);
    all_refuse(&small_with(3328 + 0x11, &[0]), 33, 3);
    all_refuse(&small_with(3328 + 0x11, &[2]), 33, 3);
    all_refuse(&small_with(3328 + 0x10, &[255, 255]), 33, 3);
}

#[test]
fn at_most_29_sectors() {
    // 29 x 128 = 3712 and 30 x 128 = 3840 bytes both fit in the block.
    let image = one_block(4096, 0, 29);
    assert_eq!(block(&image, 0, 0).unwrap().sectors, 29);
    assert_eq!(sector(&image, 0, 0, 28).unwrap().offset, 512 + 28 * 128);
    assert_eq!(sector(&image, 0, 0, 29), refused(14, 0));
    let mut other = one_block(4096, 0, 30);
    all_refuse(&other, 34, 0);
    put(&mut other, 512, &[0; 8]);
    all_refuse(&other, 34, 0);
    all_refuse(&one_block(65535, 0, 255), 34, 0);
}

#[test]
fn a_block_without_sectors_is_sound() {
    let image = empty(1, 1, 256);
    assert_eq!(block(&image, 0, 0), Ok(Block { sectors: 0, size_code: 0, gap: 0, filler: 0xE5 }));
    assert_eq!(sector(&image, 0, 0, 0), refused(14, 0));
    assert_eq!(data(&image, 0, 0, 0), refused(14, 0));
    assert_eq!(validate(&one_block(256, 6, 0)), Ok(()));
    all_refuse(&one_block(256, 7, 0), 34, 0);
}

#[test]
fn the_code_of_a_block_is_up_to_6() {
    assert_eq!(block(&one_block(65535, 6, 1), 0, 0).unwrap().size_code, 6);
    for code in 7..=255 {
        all_refuse(&one_block(65535, code, 1), 34, 0);
    }
    all_refuse(&small_with(3328 + 0x14, &[7]), 34, 3);
}

#[test]
fn no_sector_has_a_larger_code_than_its_block() {
    for index in 0..3 {
        let place = 2304 + 0x18 + 8 * index + 3;
        assert_eq!(validate(&small_with(place, &[0])), Ok(()));
        assert_eq!(validate(&small_with(place, &[1])), Ok(()));
        all_refuse(&small_with(place, &[2]), 34, 2);
        all_refuse(&small_with(place, &[255]), 34, 2);
    }
}

#[test]
fn only_the_first_entries_are_looked_at() {
    // The list goes on with 0xE7 in the small image.
    assert_eq!(small()[256 + 0x30 + 3], 0xE7);
    assert_eq!(validate(&small()), Ok(()));
    // With one sector fewer, the third entry is not looked at.
    let mut image = small_with(256 + 0x28 + 3, &[9]);
    all_refuse(&image, 34, 0);
    put(&mut image, 256 + 0x15, &[2]);
    assert_eq!(validate(&image), Ok(()));
    assert_eq!(sector(&image, 0, 0, 2), refused(14, 0));
    assert_eq!(sector(&image, 0, 0, 1), sector(&small(), 0, 0, 1));
}

#[test]
fn sizes_by_code() {
    for (code, size) in [(0, 128), (1, 256), (2, 512), (3, 1024), (4, 2048), (5, 4096), (6, 0x1800)] {
        let fits = one_block(256 + 2 * size, code, 2);
        let second = sector(&fits, 0, 0, 1).unwrap();
        assert_eq!((second.offset, second.length), (512 + u64::from(size), u64::from(size)));
        assert_eq!(data(&fits, 0, 0, 1), Ok(vec![0xE7; usize::from(size)]));
        all_refuse(&one_block(256 + 2 * size - 1, code, 2), 35, 0);
        all_refuse(&one_block(256 + 2 * size, code, 3), 35, 0);
    }
}

#[test]
fn data_that_just_fit_and_by_one_sector_do_not() {
    // 9 sectors of 512 bytes take 4608 bytes: the track size 0x1300.
    assert_eq!(validate(&one_block(0x1300, 2, 9)), Ok(()));
    all_refuse(&one_block(0x1300, 2, 10), 35, 0);
    all_refuse(&one_block(0x12FF, 2, 9), 35, 0);
    // 10 sectors of code 6 take 61440 of 65279 bytes, 11 would take 67584, which is 2048 in 16 bits.
    assert_eq!(validate(&one_block(65535, 6, 10)), Ok(()));
    all_refuse(&one_block(65535, 6, 11), 35, 0);
    // 29 sectors of code 6 take 178176 bytes.
    all_refuse(&one_block(65535, 6, 29), 35, 0);
    all_refuse(&one_block(256, 0, 1), 35, 0);
}

#[test]
fn data_do_not_reach_into_the_next_block_or_past_the_last() {
    for (index, place) in [(0, 256), (1, 1280), (2, 2304), (3, 3328)] {
        let mut image = small_with(place + 0x15, &[4]);
        put(&mut image, place + 0x30 + 3, &[1]);
        image.extend([0; 4096]);
        all_refuse(&image, 35, index);
    }
}

#[test]
fn the_first_of_two_refusals_counts() {
    // 30 before 32 and 31.
    let mut image = small_with(0, b"mv");
    put(&mut image, 0x30, &[0, 0]);
    all_refuse(&image, 30, 0);
    all_refuse(&image[..100], 30, 0);
    // 31 before 32 for the whole, and before 33.
    let image = small_with(0x31, &[3]);
    all_refuse(&image[..256], 31, 0);
    all_refuse(&small_with(0x31, &[0; 1000]), 31, 0);
    // 32 for the whole before 33, 34 and 35.
    for (place, value) in [(256, 0), (256 + 0x15, 30), (256 + 0x15, 4)] {
        all_refuse(&small_with(place, &[value])[..4351], 32, 0);
    }
}

#[test]
fn within_a_block_33_then_34_then_35() {
    let mut image = small_with(1280 + 0x14, &[7, 30]);
    all_refuse(&image, 34, 1);
    put(&mut image, 1280 + 0x10, &[9]);
    all_refuse(&image, 33, 1);
    // Four sectors do not fit, and the fourth has the code 0xE7.
    let mut image = small_with(1280 + 0x15, &[4]);
    all_refuse(&image, 34, 1);
    put(&mut image, 1280 + 0x30 + 3, &[1]);
    all_refuse(&image, 35, 1);
    put(&mut image, 1280 + 0x11, &[9]);
    all_refuse(&image, 33, 1);
    // The codes 7 and 6: neither would fit.
    all_refuse(&small_with(2304 + 0x14, &[7]), 34, 2);
    all_refuse(&small_with(2304 + 0x14, &[6]), 35, 2);
}

#[test]
fn a_former_block_comes_before_a_later_one() {
    let mut image = small_with(3328, b"t");
    all_refuse(&image, 33, 3);
    put(&mut image, 2304 + 0x15, &[30]);
    all_refuse(&image, 34, 2);
    put(&mut image, 1280 + 0x14, &[6]);
    all_refuse(&image, 35, 1);
    put(&mut image, 256 + 0x14, &[0]);
    all_refuse(&image, 34, 0);
}

#[test]
fn a_track_or_side_that_is_not_there() {
    let image = small();
    let absent = [2, 255, 256, 257, 65536, 0x0100_0000, 0x8000_0000, u32::MAX];
    for number in absent {
        for (track, side) in [(number, 0), (number, 1), (0, number), (1, number), (number, number)] {
            assert_eq!(block(&image, track, side), refused(13, 0));
            for index in [0, 3, u32::MAX] {
                assert_eq!(sector(&image, track, side, index), refused(13, 0));
                assert_eq!(data(&image, track, side, index), refused(13, 0));
            }
        }
    }
    assert_eq!(block(&empty(3, 1, 256), 0, 1), refused(13, 0));
    assert_eq!(block(&empty(3, 1, 256), 2, 0).unwrap().gap, 2);
}

#[test]
fn a_sector_that_is_not_there() {
    let image = small();
    assert!(sector(&image, 1, 1, 2).is_ok());
    for index in [3, 29, 255, 256, 258, 65536, 0x2000_0000, 0x8000_0000, u32::MAX] {
        assert_eq!(sector(&image, 1, 1, index), refused(14, 0));
        assert_eq!(data(&image, 1, 1, index), refused(14, 0));
    }
}

#[test]
fn any_change_of_a_byte_gets_one_answer_everywhere() {
    let places = (0..512).chain(1280..1536);
    for place in places {
        for value in [0, 1, 2, 6, 7, 29, 30, 127, 128, 255] {
            let other = small_with(place, &[value]);
            match validate(&other) {
                // Only the number of tracks may change, from 2 to 1.
                Ok(()) => assert_eq!(geometry(&other), Ok(Geometry { tracks: other[0x30], sides: 2, track_size: 1024 })),
                Err(Refusal { number, position }) => all_refuse(&other, number, position),
            }
        }
    }
}
