//! The byte sum through the boundary (N-6): as the checksum that is tested and moved, and as a number of a row. Where its total wraps, and
//! around the edges of the blocks that the library sums in.

use scp::Edition::V1_6;
use scp::{Answer, Call, Reason};
use scp_compare::image::{number_at, set};
use scp_compare::outside::image_a_with_flux;
use scp_compare::question::{compare, number, Asked, Question};
use scp_compare::random::Random;
use scp_compare::sequence::{ANSWER, CALL};

/// The bytes of a block.
const BLOCK: usize = 256;

/// The fewest bytes of 0xFF whose sum, 4,294,967,550, is more than 32 bits hold.
const WRAPPING: usize = 16_843_010;

/// Where the checksum stands.
const CHECKSUM: usize = 0x0C;

/// The sum that a row of the flux has, on a valid image.
fn flux_sum(image: &mut [u8]) -> u32 {
    match scp::replay(image, V1_6, &[Call::Flux { track: 0, revolution: 0 }, Call::Validate])[..] {
        [Ok(Answer::Flux { offset: 704, size, sum }), Ok(Answer::Valid)] if 704 + size == image.len() as u64 => sum,
        ref other => panic!("an image of {} bytes: {other:?}", image.len()),
    }
}

/// The reader gives the same rows for the flux and for validating, by edition 0, which is 1.6.
fn agree(image: &[u8]) {
    let mut calls = vec![0; 2 * CALL];
    calls[0] = 5;
    let sequence = Question::Sequence { calls, words: Vec::new(), places: 2 * ANSWER };
    if let Err(difference) = compare(image, &sequence) {
        panic!("an image of {} bytes: {difference:?}", image.len());
    }
}

fn plain_sum(bytes: &[u8]) -> u32 {
    let exact: u64 = bytes.iter().map(|&byte| u64::from(byte)).sum();
    (exact % (1 << 32)) as u32
}

#[test]
fn bytes_0xff_past_32_bits_give_254() {
    let mut image = image_a_with_flux(&vec![0xFF; WRAPPING]);
    assert_eq!(flux_sum(&mut image), 254);
    // the other bytes of image A come to 575, the three of the count to 385
    assert_eq!(scp::header(&image, V1_6).unwrap().checksum, 575 + 385 + 254);
    agree(&image);
}

#[test]
fn a_rewrite_moves_the_checksum_past_32_bits() {
    let mut image = image_a_with_flux(&vec![0; WRAPPING]);
    let full = vec![0xFF; WRAPPING];
    let rewrite = Asked::Rewrite { track: 0, revolution: 0, duration: 8_000_000, words: full.clone() };
    assert_eq!(number(&image, &rewrite.by(V1_6.number())), Ok(0));
    scp::rewrite(&mut image, V1_6, 0, 0, 8_000_000, &full).unwrap();
    assert_eq!((number_at(&image, CHECKSUM), scp::validate(&image, V1_6)), (575 + 385 + 254, Ok(())));
    scp::rewrite(&mut image, V1_6, 0, 0, 8_000_000, &vec![0; WRAPPING]).unwrap();
    assert_eq!((number_at(&image, CHECKSUM), scp::validate(&image, V1_6)), (575 + 385, Ok(())));
}

#[test]
fn flux_around_the_edges_of_blocks_sums_as_plainly() {
    let near_edge = |size: &usize| *size < 4 * BLOCK || (size + 2) % BLOCK <= 4;
    for bytes in [Random::new(4).bytes(256 * BLOCK + 2), vec![0xFF; 256 * BLOCK + 2]] {
        for size in (0..=bytes.len()).step_by(2).filter(near_edge) {
            let mut image = image_a_with_flux(&bytes[..size]);
            assert_eq!(flux_sum(&mut image), plain_sum(&bytes[..size]), "{size} bytes");
            agree(&image);
        }
    }
}

#[test]
fn images_around_the_edges_of_blocks_are_valid_with_their_plain_sum_alone() {
    let bytes = Random::new(5).bytes(4 * BLOCK + 16);
    for size in 0..=bytes.len() {
        let mut image = image_a_with_flux(&[]);
        image.extend_from_slice(&bytes[..size]);
        let sum = plain_sum(&image[0x10..]);
        for (stored, answer) in [(sum, Ok(())), (sum + 1, Err(Reason::Sum)), (sum - 1, Err(Reason::Sum))] {
            set(&mut image, CHECKSUM, &stored.to_le_bytes());
            assert_eq!(scp::validate(&image, V1_6).map_err(|refusal| refusal.reason), answer, "{size} bytes");
            agree(&image);
        }
    }
}
