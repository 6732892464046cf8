//! Images that the tests share, image A of the rules first, and sequences of calls on them.

use crate::common::{put, put_revolution};
use scp_reader::replay;

/// The track data header and flux of image A, at 0x2B0.
pub const A_TRACK: [u8; 24] = [
    0x54, 0x52, 0x4B, 0x00, 0x00, 0x12, 0x7A, 0x00, 0x04, 0x00, 0x00, 0x00, 0x10, 0x00, 0x00, 0x00, 0x00, 0xA0, 0x00, 0x00, 0x00, 0x01,
    0x00, 0xF0,
];

/// The flux of the rules' rewrite of A.
pub const NEW_FLUX: [u8; 8] = [0x01, 0x40, 0x00, 0x00, 0x00, 0x01, 0x00, 0xF0];

/// Image A of the rules, 712 bytes.
pub fn image_a() -> Vec<u8> {
    let mut image = vec![0; 688];
    put(&mut image, 0, b"SCP\x16\x00\x01\x00\x00\x01");
    put(&mut image, 0x0C, &[0xD4, 0x03, 0x00, 0x00]);
    put(&mut image, 0x10, &[0xB0, 0x02, 0x00, 0x00]);
    image.extend(A_TRACK);
    image
}

/// Image A with some bytes changed.
pub fn a_with(place: usize, bytes: &[u8]) -> Vec<u8> {
    let mut image = image_a();
    put(&mut image, place, bytes);
    image
}

/// Image A laid out for revision 1.4, 704 bytes: the table ends at 680, and there lies the track data header.
/// The entry is A8 02 instead of B0 02, so that the byte sum is 980 - 8 = 972.
pub fn old_a() -> Vec<u8> {
    let mut image = vec![0; 680];
    put(&mut image, 0, b"SCP\x16\x00\x01\x00\x00\x01");
    put(&mut image, 0x0C, &[0xCC, 0x03, 0x00, 0x00]);
    put(&mut image, 0x10, &[0xA8, 0x02, 0x00, 0x00]);
    image.extend(A_TRACK);
    image
}

/// An image of tracks 0 and 3 with R = 2, whose four flux stretches of 4 bytes do not overlap.
/// Track data headers at 688 and 732, flux of track 0 at 716 and 720, of track 3 at 760 and 764.
pub fn two_tracks() -> Vec<u8> {
    let mut image = vec![0; 768];
    put(&mut image, 0, b"SCP\x22\x80\x02\x00\x05\x03\x10\x00\x77");
    put(&mut image, 0x10, &688_u32.to_le_bytes());
    put(&mut image, 0x1C, &732_u32.to_le_bytes());
    put(&mut image, 688, b"TRK\x00");
    put_revolution(&mut image, 692, [8_000_000, 2, 28]);
    put_revolution(&mut image, 704, [6_666_666, 2, 32]);
    put(&mut image, 716, &[0, 1, 0, 2, 0, 3, 0, 4]);
    put(&mut image, 732, b"TRK\x03");
    put_revolution(&mut image, 736, [0, 2, 28]);
    put_revolution(&mut image, 748, [0, 2, 32]);
    put(&mut image, 760, &[0, 5, 0, 6, 0, 7, 0, 0]);
    image
}

/// Runs calls on an image and compares the answers, each given without its closing zeros.
pub fn replays(image: &mut [u8], calls: &[[u64; 7]], words: &[u8], expected: &[&[u64]]) {
    assert_eq!(calls.len(), expected.len());
    let mut answers = vec![7; 16 * calls.len() + 3];
    // Six more numbers are no whole row and are ignored.
    let numbers = [&calls.concat()[..], &[8, 0, 0, 0, 0, 0]].concat();
    assert_eq!(replay(image, &numbers, words, &mut answers), Ok(()));
    for (row, values) in answers.chunks(16).zip(expected) {
        let mut whole = values.to_vec();
        whole.resize(16, 0);
        assert_eq!(row, whole);
    }
    assert_eq!(answers[16 * calls.len()..], [7, 7, 7]);
}
