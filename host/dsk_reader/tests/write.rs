//! Examples by hand from Q-12 and the document: whole images, every refusal on both sides of its edges, and round trips.

use dsk_reader::*;

/// A creator's name of 14 bytes.
const CREATOR: &[u8] = b"fourteen bytes";

/// One track of one side with one sector of 128 bytes.
const ONE: Layout = Layout { tracks: 1, sides: 1, sectors: 1, size_code: 0, gap: 0x4E, filler: 0xE5 };

/// The data of that sector, in rows of 16 bytes.
const ONE_DATA: [[u8; 16]; 8] = [
    *b"\x01This is the sec",
    *b"tor 1 of a disc\x02",
    *b"of one track and",
    *b" one side.\r\n\0\0\0\0",
    *b"\xE5\xE5\xE5\xE5\xE5\xE5\xE5\xE5\xE5\xE5\xE5\xE5\xE5\xE5\xE5\xE5",
    *b"\0\0\0\0\0\0\0\0\0\0\0\0\0\0\0\0",
    *b"Track-Info\r\n\0\0\0\0",
    *b"\xFF\xFE\xFD\xFC\xFB\xFA\xF9\xF8\x80\x7F\x7E\x7D\x7C\x7B\x7A\x79",
];

/// The image of that sector, in rows of 16 bytes: the track size is 256 + 128 = 0x0180.
const ONE_IMAGE: [[u8; 16]; 40] = [
    *b"MV - CPCEMU Disk",
    *b"-File\r\nDisk-Info",
    *b"\r\nfourteen bytes",
    *b"\x01\x01\x80\x01\0\0\0\0\0\0\0\0\0\0\0\0",
    *b"\0\0\0\0\0\0\0\0\0\0\0\0\0\0\0\0",
    *b"\0\0\0\0\0\0\0\0\0\0\0\0\0\0\0\0",
    *b"\0\0\0\0\0\0\0\0\0\0\0\0\0\0\0\0",
    *b"\0\0\0\0\0\0\0\0\0\0\0\0\0\0\0\0",
    *b"\0\0\0\0\0\0\0\0\0\0\0\0\0\0\0\0",
    *b"\0\0\0\0\0\0\0\0\0\0\0\0\0\0\0\0",
    *b"\0\0\0\0\0\0\0\0\0\0\0\0\0\0\0\0",
    *b"\0\0\0\0\0\0\0\0\0\0\0\0\0\0\0\0",
    *b"\0\0\0\0\0\0\0\0\0\0\0\0\0\0\0\0",
    *b"\0\0\0\0\0\0\0\0\0\0\0\0\0\0\0\0",
    *b"\0\0\0\0\0\0\0\0\0\0\0\0\0\0\0\0",
    *b"\0\0\0\0\0\0\0\0\0\0\0\0\0\0\0\0",
    *b"Track-Info\r\n\0\0\0\0",
    *b"\0\0\0\0\0\x01\x4E\xE5\0\0\x01\0\0\0\0\0",
    *b"\0\0\0\0\0\0\0\0\0\0\0\0\0\0\0\0",
    *b"\0\0\0\0\0\0\0\0\0\0\0\0\0\0\0\0",
    *b"\0\0\0\0\0\0\0\0\0\0\0\0\0\0\0\0",
    *b"\0\0\0\0\0\0\0\0\0\0\0\0\0\0\0\0",
    *b"\0\0\0\0\0\0\0\0\0\0\0\0\0\0\0\0",
    *b"\0\0\0\0\0\0\0\0\0\0\0\0\0\0\0\0",
    *b"\0\0\0\0\0\0\0\0\0\0\0\0\0\0\0\0",
    *b"\0\0\0\0\0\0\0\0\0\0\0\0\0\0\0\0",
    *b"\0\0\0\0\0\0\0\0\0\0\0\0\0\0\0\0",
    *b"\0\0\0\0\0\0\0\0\0\0\0\0\0\0\0\0",
    *b"\0\0\0\0\0\0\0\0\0\0\0\0\0\0\0\0",
    *b"\0\0\0\0\0\0\0\0\0\0\0\0\0\0\0\0",
    *b"\0\0\0\0\0\0\0\0\0\0\0\0\0\0\0\0",
    *b"\0\0\0\0\0\0\0\0\0\0\0\0\0\0\0\0",
    *b"\x01This is the sec",
    *b"tor 1 of a disc\x02",
    *b"of one track and",
    *b" one side.\r\n\0\0\0\0",
    *b"\xE5\xE5\xE5\xE5\xE5\xE5\xE5\xE5\xE5\xE5\xE5\xE5\xE5\xE5\xE5\xE5",
    *b"\0\0\0\0\0\0\0\0\0\0\0\0\0\0\0\0",
    *b"Track-Info\r\n\0\0\0\0",
    *b"\xFF\xFE\xFD\xFC\xFB\xFA\xF9\xF8\x80\x7F\x7E\x7D\x7C\x7B\x7A\x79",
];

/// Sets bytes of an image.
fn put(image: &mut [u8], place: usize, bytes: &[u8]) {
    image[place..place + bytes.len()].copy_from_slice(bytes);
}

/// The image of a layout with this number of data bytes 0xA7, if there are places enough.
fn write_with(layout: Layout, length: usize) -> Result<Vec<u8>, Refusal> {
    write(CREATOR, layout, &vec![0xA7; length], usize::MAX)
}

/// A refusal at position 0.
fn refused(number: u32) -> Result<Vec<u8>, Refusal> {
    Err(Refusal { number, position: 0 })
}

/// A layout is refused with 41, whichever of these lengths its data have, with many places and with none.
fn geometry_is_refused(layout: Layout, lengths: &[usize]) {
    for &length in lengths {
        let data = vec![0xA7; length];
        assert_eq!(write(CREATOR, layout, &data, usize::MAX), refused(41), "{layout:?} with {length}");
        assert_eq!(write(CREATOR, layout, &data, 0), refused(41), "{layout:?} with {length}");
    }
}

/// Bytes in which no sector is like another.
fn noise(length: usize) -> Vec<u8> {
    let mut state = 1_u32;
    let mut bytes = Vec::new();
    for _ in 0..length {
        state = state.wrapping_mul(1_664_525).wrapping_add(1_013_904_223);
        bytes.push((state >> 24) as u8);
    }
    bytes
}

#[test]
fn one_sector_byte_by_byte() {
    let image = write(CREATOR, ONE, &ONE_DATA.concat(), 640).unwrap();
    assert_eq!(image.len(), 640);
    for (row, expected) in ONE_IMAGE.iter().enumerate() {
        assert_eq!(image[16 * row..16 * row + 16], *expected, "at {:#x}", 16 * row);
    }
}

#[test]
fn two_sides_byte_by_byte() {
    // 3 tracks, 2 sides, 2 sectors of 512 bytes: the track size is 256 + 1024 = 0x0500, the whole 0x100 + 6 x 0x500 = 0x1F00.
    // The data of the sector k, from 1 to 12, are 511 bytes k, and then 0xFF.
    let mut data = Vec::new();
    for k in 1..=12 {
        data.extend([k; 511]);
        data.push(0xFF);
    }
    let mut expected = vec![0; 0x1F00];
    put(&mut expected, 0, b"MV - CPCEMU Disk-File\r\nDisk-Info\r\nfourteen bytes");
    put(&mut expected, 0x30, &[3, 2, 0x00, 0x05]);
    for (place, track, side, first) in
        [(0x100, 0, 0, 1), (0x600, 0, 1, 3), (0xB00, 1, 0, 5), (0x1000, 1, 1, 7), (0x1500, 2, 0, 9), (0x1A00, 2, 1, 11)]
    {
        put(&mut expected, place, b"Track-Info\r\n");
        put(&mut expected, place + 0x10, &[track, side]);
        put(&mut expected, place + 0x14, &[2, 2, 0x2A, 0x6D]);
        put(&mut expected, place + 0x18, &[track, side, 1, 2]);
        put(&mut expected, place + 0x20, &[track, side, 2, 2]);
        put(&mut expected, place + 0x100, &[first; 511]);
        put(&mut expected, place + 0x2FF, &[0xFF]);
        put(&mut expected, place + 0x300, &[first + 1; 511]);
        put(&mut expected, place + 0x4FF, &[0xFF]);
    }
    let layout = Layout { tracks: 3, sides: 2, sectors: 2, size_code: 2, gap: 0x2A, filler: 0x6D };
    assert_eq!(data.len(), 6144);
    assert!(write(CREATOR, layout, &data, 0x1F00).unwrap() == expected);
}

#[test]
fn one_side_has_the_tracks_one_after_another() {
    // 3 tracks of one sector of 256 bytes: the track size is 0x0200, the blocks are at 0x100, 0x300 and 0x500.
    let mut data = vec![0x11; 256];
    data.extend([0x22; 256]);
    data.extend([0x33; 256]);
    let image = write(CREATOR, Layout { tracks: 3, size_code: 1, ..ONE }, &data, 0x700).unwrap();
    assert_eq!(image.len(), 0x700);
    assert_eq!(image[0x30..0x35], [3, 1, 0x00, 0x02, 0]);
    assert_eq!(image[0x110..0x120], [0, 0, 0, 0, 1, 1, 0x4E, 0xE5, 0, 0, 1, 1, 0, 0, 0, 0]);
    assert_eq!(image[0x310..0x320], [1, 0, 0, 0, 1, 1, 0x4E, 0xE5, 1, 0, 1, 1, 0, 0, 0, 0]);
    assert_eq!(image[0x510..0x520], [2, 0, 0, 0, 1, 1, 0x4E, 0xE5, 2, 0, 1, 1, 0, 0, 0, 0]);
    assert_eq!(image[0x200..0x300], [0x11; 256]);
    assert_eq!(image[0x400..0x500], [0x22; 256]);
    assert_eq!(image[0x600..0x700], [0x33; 256]);
}

#[test]
fn no_sectors_leave_the_information_blocks() {
    // The track size is 256 = 0x0100.
    let mut expected = vec![0; 768];
    put(&mut expected, 0, b"MV - CPCEMU Disk-File\r\nDisk-Info\r\nfourteen bytes");
    put(&mut expected, 0x30, &[1, 2, 0x00, 0x01]);
    put(&mut expected, 256, b"Track-Info\r\n");
    put(&mut expected, 256 + 0x16, &[0x4E, 0xE5]);
    put(&mut expected, 512, b"Track-Info\r\n");
    put(&mut expected, 512 + 0x11, &[1]);
    put(&mut expected, 512 + 0x16, &[0x4E, 0xE5]);
    for code in 0..=5 {
        expected[256 + 0x14] = code;
        expected[512 + 0x14] = code;
        let layout = Layout { sides: 2, sectors: 0, size_code: u32::from(code), ..ONE };
        assert_eq!(write(CREATOR, layout, b"", 768).as_ref(), Ok(&expected));
    }
}

#[test]
fn the_list_of_29_sectors_ends_with_its_block() {
    // 29 x 128 = 3712: the track size is 3968 = 0x0F80, the whole 4224.
    let mut data = Vec::new();
    for number in 101..=129 {
        data.extend([number; 128]);
    }
    let image = write(CREATOR, Layout { sectors: 29, ..ONE }, &data, 4224).unwrap();
    assert_eq!(image.len(), 4224);
    assert_eq!(image[0x30..0x34], [1, 1, 0x80, 0x0F]);
    assert_eq!(image[0x110..0x118], [0, 0, 0, 0, 0, 29, 0x4E, 0xE5]);
    assert_eq!(image[0x118..0x120], [0, 0, 1, 0, 0, 0, 0, 0]);
    assert_eq!(image[0x120..0x128], [0, 0, 2, 0, 0, 0, 0, 0]);
    assert_eq!(image[0x1F0..0x1F8], [0, 0, 28, 0, 0, 0, 0, 0]);
    assert_eq!(image[0x1F8..0x200], [0, 0, 29, 0, 0, 0, 0, 0]);
    assert_eq!(image[0x200..0x280], [101; 128]);
    assert_eq!(image[0x280..0x300], [102; 128]);
    assert_eq!(image[4224 - 128..], [129; 128]);
}

#[test]
fn the_track_size_is_256_plus_the_data_with_its_low_byte_first() {
    for (sectors, size_code, length, low, high) in [
        (0, 5, 0, 0x00, 0x01),
        (1, 0, 128, 0x80, 0x01),
        (2, 0, 256, 0x00, 0x02),
        (9, 2, 4608, 0x00, 0x13),
        (16, 1, 4096, 0x00, 0x11),
        (29, 0, 3712, 0x80, 0x0F),
        (29, 1, 7424, 0x00, 0x1E),
        (29, 2, 14848, 0x00, 0x3B),
        (29, 3, 29696, 0x00, 0x75),
        (29, 4, 59392, 0x00, 0xE9),
        (1, 5, 4096, 0x00, 0x11),
        (14, 5, 57344, 0x00, 0xE1),
        (15, 5, 61440, 0x00, 0xF1),
    ] {
        let image = write_with(Layout { sectors, size_code, ..ONE }, length).unwrap();
        assert_eq!(image[0x32..0x34], [low, high], "{sectors} sectors of code {size_code}");
        assert_eq!(image.len(), 512 + length);
        assert_eq!(image[512..], vec![0xA7; length]);
    }
}

#[test]
fn only_16_sectors_or_more_of_code_5_make_the_track_too_long() {
    // 15 x 4096 + 256 = 61696; 16 x 4096 + 256 = 65792, which is 256 in 16 bits.
    assert_eq!(write_with(Layout { sectors: 15, size_code: 5, ..ONE }, 61440).unwrap().len(), 61952);
    geometry_is_refused(Layout { sectors: 16, size_code: 5, ..ONE }, &[65536, 65279, 61440, 0]);
    // 17 x 4096 = 69632 is 4096 in 16 bits, 29 x 4096 = 118784 is 53248.
    geometry_is_refused(Layout { sectors: 17, size_code: 5, ..ONE }, &[69632, 4096]);
    geometry_is_refused(Layout { sectors: 29, size_code: 5, ..ONE }, &[118_784, 53248]);
    for (size_code, size) in [(0, 128), (1, 256), (2, 512), (3, 1024), (4, 2048), (5, 4096)] {
        for sectors in 0..=29_u32 {
            let written = write_with(Layout { sectors, size_code, ..ONE }, size * sectors as usize);
            if size_code == 5 && sectors >= 16 {
                assert_eq!(written, refused(41));
            } else {
                assert_eq!(written.unwrap().len(), 512 + size * sectors as usize);
            }
        }
    }
}

#[test]
fn tracks_are_1_to_255() {
    assert_eq!(write_with(ONE, 128).unwrap().len(), 640);
    // 255 x 128 = 32640 bytes of data; the last block is at 256 + 254 x 384 = 97792, the whole has 98176 bytes.
    let image = write_with(Layout { tracks: 255, ..ONE }, 32640).unwrap();
    assert_eq!(image.len(), 98176);
    assert_eq!(image[0x30..0x34], [255, 1, 0x80, 0x01]);
    assert_eq!(image[97792..97804], *b"Track-Info\r\n");
    assert_eq!(image[97808..97824], [254, 0, 0, 0, 0, 1, 0x4E, 0xE5, 254, 0, 1, 0, 0, 0, 0, 0]);
    geometry_is_refused(Layout { tracks: 0, ..ONE }, &[0, 128]);
    geometry_is_refused(Layout { tracks: 256, ..ONE }, &[32768, 0, 128]);
    geometry_is_refused(Layout { tracks: 257, ..ONE }, &[32896, 128]);
    // With 0 sectors the data have no part in it.
    assert_eq!(write_with(Layout { tracks: 255, sectors: 0, ..ONE }, 0).unwrap().len(), 65536);
    for tracks in [0, 256, 257, 65536, 65537, 0x0100_0001, 0x8000_0000, 0x8000_0001, u32::MAX] {
        geometry_is_refused(Layout { tracks, sectors: 0, ..ONE }, &[0]);
        geometry_is_refused(Layout { tracks, ..ONE }, &[0, 128, 32640]);
        geometry_is_refused(Layout { tracks, sides: 2, ..ONE }, &[0, 256]);
    }
}

#[test]
fn sides_are_1_or_2() {
    assert_eq!(write_with(ONE, 128).unwrap()[0x31], 1);
    // The block of side 1 is at 256 + 384 = 640.
    let image = write_with(Layout { sides: 2, ..ONE }, 256).unwrap();
    assert_eq!(image.len(), 1024);
    assert_eq!(image[0x30..0x34], [1, 2, 0x80, 0x01]);
    assert_eq!(image[640..652], *b"Track-Info\r\n");
    assert_eq!(image[656..672], [0, 1, 0, 0, 0, 1, 0x4E, 0xE5, 0, 1, 1, 0, 0, 0, 0, 0]);
    geometry_is_refused(Layout { sides: 0, ..ONE }, &[0, 128]);
    geometry_is_refused(Layout { sides: 3, ..ONE }, &[384, 128, 256]);
    for sides in [0, 3, 4, 255, 256, 257, 258, 65537, 65538, 0x0100_0001, 0x8000_0000, 0x8000_0002, u32::MAX] {
        geometry_is_refused(Layout { sides, sectors: 0, ..ONE }, &[0]);
        geometry_is_refused(Layout { sides, ..ONE }, &[0, 128, 256]);
    }
}

#[test]
fn sectors_are_0_to_29() {
    assert_eq!(write_with(Layout { sectors: 0, ..ONE }, 0).unwrap().len(), 512);
    assert_eq!(write_with(Layout { sectors: 29, ..ONE }, 3712).unwrap().len(), 4224);
    // 30 x 128 = 3840 and 31 x 2048 = 63488 would be within the track size.
    geometry_is_refused(Layout { sectors: 30, ..ONE }, &[3840, 3712]);
    geometry_is_refused(Layout { sectors: 31, size_code: 4, ..ONE }, &[63488]);
    geometry_is_refused(Layout { sectors: 255, ..ONE }, &[32640]);
    geometry_is_refused(Layout { sectors: 256, ..ONE }, &[32768, 0]);
    geometry_is_refused(Layout { sectors: 257, ..ONE }, &[32896, 128]);
    // 2^25 x 128 and 2^20 x 4096 are 0 in 32 bits.
    for sectors in [65536, 65537, 0x0010_0000, 0x0010_0001, 0x0200_0000, 0x0200_0001, 0x8000_0000, 0x8000_0001, u32::MAX] {
        for (size_code, size) in [(0, 128), (1, 256), (2, 512), (3, 1024), (4, 2048), (5, 4096)] {
            geometry_is_refused(Layout { sectors, size_code, ..ONE }, &[0, size, 29 * size]);
        }
    }
}

#[test]
fn codes_are_0_to_5() {
    for (size_code, size) in [(0, 128), (1, 256), (2, 512), (3, 1024), (4, 2048), (5, 4096)] {
        let image = write_with(Layout { size_code, ..ONE }, size).unwrap();
        assert_eq!(image.len(), 512 + size);
        assert_eq!((u32::from(image[0x114]), u32::from(image[0x11B])), (size_code, size_code));
    }
    // The code 6 may be read, but not written: neither with 8192 nor with 0x1800 bytes.
    geometry_is_refused(Layout { size_code: 6, ..ONE }, &[8192, 0x1800, 4096, 128]);
    geometry_is_refused(Layout { size_code: 6, sectors: 0, ..ONE }, &[0]);
    geometry_is_refused(Layout { size_code: 7, ..ONE }, &[16384]);
    // Those that a shift or a byte would take for a smaller one, or for no bytes at all.
    for size_code in [7, 8, 25, 31, 32, 33, 57, 63, 64, 65, 128, 255, 256, 257, 261, 65536, 0x0100_0000, 0x8000_0000, u32::MAX] {
        geometry_is_refused(Layout { size_code, sectors: 0, ..ONE }, &[0]);
        geometry_is_refused(Layout { size_code, ..ONE }, &[0, 128, 256, 4096]);
    }
}

#[test]
fn gap_and_filler_are_0_to_255() {
    for (gap, filler) in [(0, 0), (0, 255), (255, 0), (255, 255), (1, 2)] {
        let image = write_with(Layout { gap, filler, ..ONE }, 128).unwrap();
        assert_eq!((u32::from(image[0x116]), u32::from(image[0x117])), (gap, filler));
        // The filler is only stored: the data are those that were lent.
        assert_eq!(image[512..], [0xA7; 128]);
    }
    for number in [256, 257, 0x14E, 0x1E5, 65535, 65536, 0x0100_0000, 0x8000_0000, u32::MAX] {
        geometry_is_refused(Layout { gap: number, ..ONE }, &[128]);
        geometry_is_refused(Layout { filler: number, ..ONE }, &[128]);
        geometry_is_refused(Layout { gap: number, filler: number, ..ONE }, &[128]);
        geometry_is_refused(Layout { gap: number, sectors: 0, ..ONE }, &[0]);
        geometry_is_refused(Layout { filler: number, sectors: 0, ..ONE }, &[0]);
    }
}

#[test]
fn the_creator_has_14_bytes_and_they_may_be_anything() {
    for creator in [[0; 14], [0xFF; 14], *b"MV - CPCEMU Di", *b"\r\n\0\x01\x80 creator\xFF"] {
        let mut expected = ONE_IMAGE.concat();
        put(&mut expected, 0x22, &creator);
        assert_eq!(write(&creator, ONE, &ONE_DATA.concat(), 640), Ok(expected));
    }
    for length in [0, 1, 12, 13, 15, 16, 34, 48, 255, 256, 270, 65550] {
        assert_eq!(write(&vec![b'c'; length], ONE, &ONE_DATA.concat(), 640), refused(41));
        assert_eq!(write(&vec![b'c'; length], ONE, &ONE_DATA.concat(), 0), refused(41));
    }
}

#[test]
fn data_have_the_very_length() {
    geometry_is_refused(ONE, &[0, 1, 127, 129, 256, 128 + 256, 128 + 65536]);
    geometry_is_refused(Layout { sectors: 0, ..ONE }, &[1, 128, 256, 65536]);
    // 2 x 2 x 3 x 256 = 3072.
    let layout = Layout { tracks: 2, sides: 2, sectors: 3, size_code: 1, ..ONE };
    assert_eq!(write_with(layout, 3072).unwrap().len(), 4352);
    geometry_is_refused(layout, &[0, 256, 768, 1536, 2816, 3071, 3073, 3328, 4096, 4352, 6144]);
    // 255 x 2 x 15 x 4096 = 31334400.
    let layout = Layout { tracks: 255, sides: 2, sectors: 15, size_code: 5, ..ONE };
    geometry_is_refused(layout, &[31_334_399, 31_334_401, 31_334_400 - 4096, 31_334_400 + 4096]);
}

#[test]
fn all_numbers_wrong_at_once() {
    for number in [256, 65536, 0x8000_0000, u32::MAX - 1, u32::MAX] {
        let layout = Layout { tracks: number, sides: number, sectors: number, size_code: number, gap: number, filler: number };
        geometry_is_refused(layout, &[0, 1, 128, 65536]);
        assert_eq!(write(b"", layout, b"", 0), refused(41));
    }
    geometry_is_refused(Layout { tracks: 0, sides: 0, sectors: 0, size_code: 0, gap: 0, filler: 0 }, &[0, 128]);
}

#[test]
fn places_suffice_or_lack_by_one() {
    let data = ONE_DATA.concat();
    for places in [0, 1, 34, 128, 255, 256, 511, 512, 639] {
        assert_eq!(write(CREATOR, ONE, &data, places), refused(15));
    }
    for places in [640, 641, 768, 65536, usize::MAX] {
        assert_eq!(write(CREATOR, ONE, &data, places), Ok(ONE_IMAGE.concat()));
    }
    // 0 sectors: 512 bytes.
    assert_eq!(write(CREATOR, Layout { sectors: 0, ..ONE }, b"", 511), refused(15));
    assert_eq!(write(CREATOR, Layout { sectors: 0, ..ONE }, b"", 512).unwrap().len(), 512);
    // 255 tracks of 2 sides without sectors: 256 + 510 x 256 = 130816.
    let layout = Layout { tracks: 255, sides: 2, sectors: 0, ..ONE };
    assert_eq!(write(CREATOR, layout, b"", 130_815), refused(15));
    assert_eq!(write(CREATOR, layout, b"", 130_816).unwrap().len(), 130_816);
}

#[test]
fn wrong_numbers_come_before_too_few_places() {
    let data = ONE_DATA.concat();
    for places in [0, 639, 640] {
        assert_eq!(write(&CREATOR[..13], ONE, &data, places), refused(41));
        assert_eq!(write(CREATOR, ONE, &data[..127], places), refused(41));
        assert_eq!(write(CREATOR, Layout { tracks: 0, ..ONE }, &data, places), refused(41));
        assert_eq!(write(CREATOR, Layout { sides: 3, ..ONE }, &data, places), refused(41));
        assert_eq!(write(CREATOR, Layout { sectors: 30, ..ONE }, &data, places), refused(41));
        assert_eq!(write(CREATOR, Layout { size_code: 6, ..ONE }, &data, places), refused(41));
        assert_eq!(write(CREATOR, Layout { gap: 256, ..ONE }, &data, places), refused(41));
        assert_eq!(write(CREATOR, Layout { filler: 256, ..ONE }, &data, places), refused(41));
    }
    assert_eq!(write(CREATOR, ONE, &data, 0), refused(15));
}

/// What is written is accepted, and has the numbers of the layout and this track size.
fn reads_as(image: &[u8], layout: Layout, track_size: u16) {
    assert_eq!(validate(image), Ok(()));
    let found = geometry(image).unwrap();
    assert_eq!((u32::from(found.tracks), u32::from(found.sides), found.track_size), (layout.tracks, layout.sides, track_size));
    for (track, side) in [(layout.tracks, 0), (0, layout.sides)] {
        assert_eq!(block(image, track, side), Err(Refusal { number: 13, position: 0 }));
    }
}

/// A block reads as the layout says, and has no more sectors.
fn block_reads_as(image: &[u8], layout: Layout, track: u32, side: u32) {
    let found = block(image, track, side).unwrap();
    let numbers = [found.sectors, found.size_code, found.gap, found.filler].map(u32::from);
    assert_eq!(numbers, [layout.sectors, layout.size_code, layout.gap, layout.filler]);
    assert_eq!(sector(image, track, side, layout.sectors), Err(Refusal { number: 14, position: 0 }));
}

/// A sector has its own track, side, number from 1 and code, no status, and this length.
fn sector_reads_as(image: &[u8], layout: Layout, track: u32, side: u32, index: u32, size: usize) {
    let found = sector(image, track, side, index).unwrap();
    let identity = [found.cylinder, found.head, found.id, found.size_code].map(u32::from);
    assert_eq!(identity, [track, side, index + 1, layout.size_code]);
    assert_eq!((found.status1, found.status2), (0, 0));
    assert_eq!(found.length, size as u64);
}

/// Writes noise in a layout whose sectors have this size, and asks for all of it again.
fn round_trip(layout: Layout, size: usize) {
    let all = (layout.tracks * layout.sides * layout.sectors) as usize;
    let lent = noise(all * size);
    let image = write(CREATOR, layout, &lent, usize::MAX).unwrap();
    reads_as(&image, layout, (256 + layout.sectors as usize * size) as u16);
    let mut joined = Vec::new();
    for track in 0..layout.tracks {
        for side in 0..layout.sides {
            block_reads_as(&image, layout, track, side);
            for index in 0..layout.sectors {
                sector_reads_as(&image, layout, track, side, index, size);
                joined.extend(data(&image, track, side, index).unwrap());
            }
        }
    }
    assert!(joined == lent, "{layout:?}");
}

#[test]
fn round_trips_of_small_layouts() {
    for (size_code, size) in [(0, 128), (1, 256), (2, 512), (3, 1024), (4, 2048), (5, 4096)] {
        for sectors in [0, 1, 2, 9, 15, 28, 29] {
            for (tracks, sides) in [(1, 1), (1, 2), (2, 1), (2, 2), (5, 2)] {
                let layout = Layout { tracks, sides, sectors, size_code, gap: 8 * sectors, filler: 255 - sectors };
                if size_code < 5 || sectors <= 15 {
                    round_trip(layout, size);
                }
            }
        }
    }
}

#[test]
fn round_trips_of_discs() {
    round_trip(Layout { tracks: 40, sides: 1, sectors: 9, size_code: 2, gap: 0x4E, filler: 0xE5 }, 512);
    round_trip(Layout { tracks: 42, sides: 2, sectors: 10, size_code: 2, gap: 0x17, filler: 0xF6 }, 512);
    round_trip(Layout { tracks: 77, sides: 1, sectors: 26, size_code: 0, gap: 0x1B, filler: 0xE5 }, 128);
    round_trip(Layout { tracks: 80, sides: 2, sectors: 5, size_code: 3, gap: 0x74, filler: 0x00 }, 1024);
}

#[test]
fn round_trips_of_255_tracks() {
    round_trip(Layout { tracks: 255, sides: 1, sectors: 0, size_code: 5, gap: 0, filler: 255 }, 4096);
    round_trip(Layout { tracks: 255, sides: 2, sectors: 0, size_code: 0, gap: 255, filler: 0 }, 128);
    round_trip(Layout { tracks: 255, sides: 1, sectors: 2, size_code: 0, gap: 1, filler: 2 }, 128);
    round_trip(Layout { tracks: 255, sides: 2, sectors: 1, size_code: 1, gap: 3, filler: 4 }, 256);
}

#[test]
fn round_trip_of_the_greatest_image() {
    // 255 x 2 x 15 x 4096 = 31334400 bytes of data, 256 + 510 x 61696 = 31465216 in the whole.
    let layout = Layout { tracks: 255, sides: 2, sectors: 15, size_code: 5, gap: 255, filler: 255 };
    let lent = noise(31_334_400);
    assert_eq!(write(CREATOR, layout, &lent, 31_465_215), refused(15));
    let image = write(CREATOR, layout, &lent, 31_465_216).unwrap();
    assert_eq!(image.len(), 31_465_216);
    reads_as(&image, layout, 61696);
    // Each with the number of sectors before it: (2 x track + side) x 15 + index.
    for (track, side, index, before) in [(0, 0, 0, 0), (0, 0, 14, 14), (0, 1, 0, 15), (1, 0, 0, 30), (127, 1, 7, 3832), (254, 1, 14, 7649)]
    {
        block_reads_as(&image, layout, track, side);
        sector_reads_as(&image, layout, track, side, index, 4096);
        assert!(data(&image, track, side, index).unwrap() == lent[4096 * before..4096 * before + 4096]);
    }
    // All data again, block by block.
    let mut joined = Vec::new();
    for block in image[256..].chunks(61696) {
        joined.extend_from_slice(&block[256..]);
    }
    assert!(joined == lent);
}
