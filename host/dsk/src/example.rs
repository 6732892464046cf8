//! The image of the examples.

/// A valid image of 2304 bytes: 2 tracks, 2 sides, and blocks of 512 bytes, each with 2 sectors of 128 bytes.
///
/// The sectors of a block have their track and side, R 0xC1 and 0xC2, and size code 0; the second has ST1 0x20 and ST2 0x40. The gap is
/// 0x4E, the filler 0xE5. Byte k of the data is 32 x s + k % 32, where s counts the sectors of the image from 0 to 7.
///
/// ```
/// let image = dsk::example::image();
/// assert_eq!(image.len(), 2304);
/// assert_eq!(dsk::validate(&image), Ok(()));
/// for s in 0..8 {
///     assert_eq!(dsk::data(&image, s / 4, s / 2 % 2, s % 2)?[33], 32 * s as u8 + 1);
/// }
/// # Ok::<(), dsk::Refusal>(())
/// ```
pub fn image() -> Vec<u8> {
    let mut image = vec![0; 256];
    image[..34].copy_from_slice(b"MV - CPCEMU Disk-File\r\nDisk-Info\r\n");
    image[0x22..0x29].copy_from_slice(b"example");
    image[0x30..0x34].copy_from_slice(&[2, 2, 0x00, 0x02]);
    for (track, side) in [(0, 0), (0, 1), (1, 0), (1, 1)] {
        image.extend_from_slice(&block(track, side));
        let first = 32 * (4 * track + 2 * side);
        image.extend((0..128).map(|k| first + k % 32));
        image.extend((0..128).map(|k| first + 32 + k % 32));
    }
    image
}

/// What stands in a block before its data.
fn block(track: u8, side: u8) -> [u8; 256] {
    let mut block = [0; 256];
    block[..12].copy_from_slice(b"Track-Info\r\n");
    block[0x10..0x12].copy_from_slice(&[track, side]);
    block[0x14..0x18].copy_from_slice(&[0, 2, 0x4E, 0xE5]);
    block[0x18..0x20].copy_from_slice(&[track, side, 0xC1, 0, 0x00, 0x00, 0, 0]);
    block[0x20..0x28].copy_from_slice(&[track, side, 0xC2, 0, 0x20, 0x40, 0, 0]);
    block
}
