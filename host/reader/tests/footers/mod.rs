//! Images with a footer, and what all calls make of an image that they refuse.

use crate::common::refused;
use crate::sample::{image_a, replays};
use scp_reader::*;

/// An image with FLAGS bit 5 set, these bytes after it, and a footer with these string offsets.
pub fn with_footer(mut image: Vec<u8>, between: &[u8], offsets: [u32; 6]) -> Vec<u8> {
    image[8] |= 0x20;
    image.extend(between);
    for offset in offsets {
        image.extend(offset.to_le_bytes());
    }
    image.extend([0xFF; 8]);
    image.extend(1_000_000_000_000_i64.to_le_bytes());
    image.extend([0x15, 0x13, 0x12, 0x16]);
    image.extend(b"FPCS");
    image
}

/// Image A with a footer; the bytes after A lie from 712 on.
pub fn a_with_footer(between: &[u8], offsets: [u32; 6]) -> Vec<u8> {
    with_footer(image_a(), between, offsets)
}

/// The answer to the question for the footer of `a_with_footer`, with this offset of the serial.
pub fn footer_row(serial: u64) -> Vec<u64> {
    vec![0, 0, 1, 0, 0, serial, 0, 0, 0, u64::MAX, 1_000_000_000_000, 0x15, 0x13, 0x12, 0x16]
}

/// The judgement and all questions refuse alike, and the rewrite and the replay too.
pub fn all_refuse(image: &[u8], edition: Edition, number: u32, position: u64) {
    assert_eq!(validate(image, edition), refused(number, position));
    assert_eq!(header(image, edition), refused(number, position));
    assert_eq!(footer(image, edition), refused(number, position));
    assert_eq!(track(image, edition, 168), refused(number, position));
    assert_eq!(revolution(image, edition, 0, 9), refused(number, position));
    assert_eq!(flux(image, edition, 0, 0), refused(number, position));
    assert_eq!(speed(image, edition, 0, 0), refused(number, position));
    assert_eq!(track_speed(image, edition, 0), refused(number, position));
    let mut copy = image.to_vec();
    assert_eq!(rewrite(&mut copy, edition, 0, 0, 1, &[1]), refused(number, position));
    let named = if edition == Edition::V1_4 { 14 } else { 16 };
    let calls = [0, 1, 2, 3, 4, 5, 6, 7, 8].map(|kind| [kind, 0, 0, 1, 0, 1, named]);
    replays(&mut copy, &calls, &[1], &[&[u64::from(number), position][..]; 9]);
    assert_eq!(copy, image);
}
