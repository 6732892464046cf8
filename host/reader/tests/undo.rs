//! Taking a sequence of rewrites back, under both editions; expected values by hand.

mod common;
mod sample;

use common::{put, put_revolution, refused, revolutions_of_track_0};
use sample::{a_with, image_a, old_a, replays, two_tracks, NEW_FLUX};
use scp_reader::Edition::{V1_4, V1_6};
use scp_reader::*;

/// Image A's flux.
const A_FLUX: [u8; 8] = [0x00, 0xA0, 0x00, 0x00, 0x00, 0x01, 0x00, 0xF0];

/// Other words for A, as many.
const OTHER_FLUX: [u8; 8] = [0x00, 0x09, 0x00, 0x08, 0x00, 0x07, 0x00, 0x06];

/// Two rewrites of all of A, by the edition of this number; their words are NEW_FLUX and OTHER_FLUX.
/// The sum goes from 980 to 980 - 140 - 401 + 7 + 306 = 752, and to 752 - 7 - 306 + 10 + 30 = 479.
fn twice(edition: u64) -> [[u64; 7]; 2] {
    [[8, 0, 0, 7, 0, 8, edition], [8, 0, 0, 0x0102_0304, 8, 8, edition]]
}

/// What takes both back; the words are NEW_FLUX and A_FLUX.
fn twice_back(edition: u64) -> [[u64; 7]; 2] {
    [[8, 0, 0, 7, 0, 8, edition], [8, 0, 0, 8_000_000, 8, 8, edition]]
}

/// The calls that take a sequence back, and their words: rewrites, whose words follow one another without gaps.
fn undone(image: &[u8], calls: &[[u64; 7]], words: &[u8]) -> (Vec<[u64; 7]>, Vec<u8>) {
    let (numbers, former) = undo(image, &calls.concat(), words);
    assert_eq!(numbers.len() % 7, 0);
    let rows: Vec<[u64; 7]> = numbers.chunks(7).map(|row| row.try_into().unwrap()).collect();
    let mut next = 0;
    for &[kind, _, _, _, start, length, _] in &rows {
        assert_eq!((kind, start), (8, next));
        next += length;
    }
    assert_eq!(next, former.len() as u64);
    (rows, former)
}

/// Nothing takes these calls back.
fn contribute_nothing(image: &[u8], calls: &[[u64; 7]], words: &[u8]) {
    assert_eq!(undone(image, calls, words), (vec![], vec![]));
}

/// Runs rewrites one by one: each is accepted and leaves this checksum.
fn accepted(image: &mut [u8], calls: &[[u64; 7]], words: &[u8], checksums: &[u32]) {
    assert_eq!(calls.len(), checksums.len());
    for (&call, checksum) in calls.iter().zip(checksums) {
        replays(image, &[call], words, &[&[]]);
        assert_eq!(image[0x0C..0x10], checksum.to_le_bytes());
    }
}

#[test]
fn a_rewritten_twice_comes_back() {
    let mut image = image_a();
    let words = [NEW_FLUX, OTHER_FLUX].concat();
    let (rows, former) = undone(&image, &twice(16), &words);
    assert_eq!(rows, [[8, 0, 0, 7, 0, 8, 16], [8, 0, 0, 8_000_000, 8, 8, 16]]);
    assert_eq!(former, [0x01, 0x40, 0x00, 0x00, 0x00, 0x01, 0x00, 0xF0, 0x00, 0xA0, 0x00, 0x00, 0x00, 0x01, 0x00, 0xF0]);
    accepted(&mut image, &twice(16), &words, &[752, 479]);
    assert_eq!(image[692..696], [4, 3, 2, 1]);
    assert_eq!(image[704..], OTHER_FLUX);
    // What takes this back is the sequence.
    assert_eq!(undone(&image, &rows, &former), (twice(16).to_vec(), words));
    accepted(&mut image, &rows, &former, &[752, 980]);
    assert_eq!(image, image_a());
}

#[test]
fn a_for_1_4_comes_back_by_1_4() {
    let mut image = old_a();
    let words = [NEW_FLUX, OTHER_FLUX].concat();
    // Under 1.6 its track lies too low.
    contribute_nothing(&image, &twice(16), &words);
    let calls = [&twice(14)[..], &twice(16)].concat();
    let (rows, former) = undone(&image, &calls, &words);
    assert_eq!((&rows[..], &former), (&twice_back(14)[..], &[NEW_FLUX, A_FLUX].concat()));
    replays(&mut image, &calls, &words, &[&[], &[], &[10], &[10]]);
    // 8 less than A's: the entry is A8 02 instead of B0 02.
    assert_eq!(header(&image, V1_4).unwrap().checksum, 471);
    replays(&mut image.clone(), &twice_back(16), &former, &[&[10], &[10]]);
    accepted(&mut image, &rows, &former, &[744, 972]);
    assert_eq!(image, old_a());
}

#[test]
fn fewer_words_do_not_come_back() {
    let mut shorter = image_a();
    let once = [[8, 0, 0, 0x0102_0304, 0, 2, 16]];
    let (rows, former) = undone(&shorter, &once, &[7, 8]);
    assert_eq!((rows, former), (vec![[8, 0, 0, 8_000_000, 0, 8, 16]], A_FLUX.to_vec()));
    // Before: 0x12 + 0x7A + 4 + 0xA0 = 304; after: 10 + 1 + 15 = 26.
    accepted(&mut shorter, &once, &[7, 8], &[702]);
    let mut image = shorter.clone();
    replays(&mut image, &[[8, 0, 0, 8_000_000, 0, 8, 16]], &A_FLUX, &[&[17, 0]]);
    assert_eq!(image, shorter);
    assert_ne!(image, image_a());
    // A second one with as many words as there are then comes back, but to there alone.
    let mut image = image_a();
    let calls = [[8, 0, 0, 0x0102_0304, 0, 2, 16], [8, 0, 0, 9, 2, 2, 16]];
    let (rows, former) = undone(&image, &calls, &[7, 8, 5, 6]);
    assert_eq!(rows, [[8, 0, 0, 0x0102_0304, 0, 2, 16], [8, 0, 0, 8_000_000, 2, 8, 16]]);
    assert_eq!(former, [7, 8, 0x00, 0xA0, 0x00, 0x00, 0x00, 0x01, 0x00, 0xF0]);
    accepted(&mut image, &calls, &[7, 8, 5, 6], &[702, 697]);
    replays(&mut image, &rows, &former, &[&[], &[17, 0]]);
    assert_eq!(image, shorter);
}

#[test]
fn questions_and_validations_contribute_nothing() {
    // A rewrite with the other numbers of these rows is accepted.
    let kinds = [0, 1, 2, 3, 4, 5, 6, 7, 9, 10, 8 + (1 << 8), 8 + (1 << 32), 8 + (1 << 63), u64::MAX];
    for edition in [14, 16] {
        let calls = kinds.map(|kind| [kind, 0, 0, 9, 0, 8, edition]);
        contribute_nothing(&image_a(), &calls, &NEW_FLUX);
        let among = [&calls[..], &[[8, 0, 0, 9, 0, 8, edition]], &calls].concat();
        assert_eq!(undone(&image_a(), &among, &NEW_FLUX), (vec![[8, 0, 0, 8_000_000, 0, 8, edition]], A_FLUX.to_vec()));
    }
}

#[test]
fn refused_rewrites_contribute_nothing() {
    // Revolution 1 of track 0 lies on the last word of revolution 0: both are shared.
    let mut image = two_tracks();
    put(&mut image, 712, &[30]);
    let words = [0, 1, 0, 2, 0, 3];
    let calls = [
        [8, 1, 0, 9, 0, 4, 16],
        [8, 168, 0, 9, 0, 4, 16],
        [8, 3, 2, 9, 0, 4, 16],
        [8, 3, 0, 9, 0, 3, 16],
        [8, 3, 0, 9, 0, 6, 16],
        [8, 0, 0, 9, 0, 4, 16],
        [8, 0, 1, 9, 0, 0, 14],
    ];
    replays(&mut image.clone(), &calls, &words, &[&[13], &[13], &[14], &[17], &[17], &[18], &[18]]);
    contribute_nothing(&image, &calls, &words);
    let among = [&calls[..], &[[8, 3, 1, 9, 0, 4, 16]], &calls, &[[8, 3, 0, 8, 2, 4, 16]], &calls].concat();
    let expected = (vec![[8, 3, 0, 0, 0, 4, 16], [8, 3, 1, 0, 4, 4, 16]], vec![0, 5, 0, 6, 0, 7, 0, 0]);
    assert_eq!(undone(&image, &among, &words), expected);
}

#[test]
fn huge_numbers_are_read_as_replay_reads_them() {
    // Tracks and revolutions that are not there, but for their lowest 32 bits.
    let absent = [1 << 32, 1 << 63, u64::MAX, (1 << 32) + 1];
    contribute_nothing(&image_a(), &absent.map(|track| [8, track, 0, 9, 0, 8, 16]), &NEW_FLUX);
    contribute_nothing(&image_a(), &absent.map(|revolution| [8, 0, revolution, 9, 0, 8, 14]), &NEW_FLUX);
    contribute_nothing(&image_a(), &[[u64::MAX; 7], [8, u64::MAX, u64::MAX, u64::MAX, u64::MAX, u64::MAX, u64::MAX]], &NEW_FLUX);
    // Durations count by their lowest 32 bits, words past the end are cut, and every edition but 14 is 1.6.
    let calls =
        [[8, 0, 0, (1 << 32) + 9, 1, u64::MAX, u64::MAX], [8, 0, 0, u64::MAX, u64::MAX, u64::MAX, 14 + (1 << 32)], [8, 0, 0, 5, 0, 0, 0]];
    let words = [&[0xEE], &NEW_FLUX[..]].concat();
    let (rows, former) = undone(&image_a(), &calls, &words);
    assert_eq!(rows, [[8, 0, 0, 4_294_967_295, 0, 0, 16], [8, 0, 0, 9, 0, 8, 16], [8, 0, 0, 8_000_000, 8, 8, 16]]);
    assert_eq!(former, [NEW_FLUX, A_FLUX].concat());
}

#[test]
fn numbers_after_the_last_whole_row_contribute_nothing() {
    let words = [NEW_FLUX, OTHER_FLUX].concat();
    let calls = twice(16).concat();
    for count in 0..7 {
        assert_eq!(undo(&image_a(), &calls[..count], &words), (vec![], vec![]));
    }
    for count in 7..14 {
        assert_eq!(undo(&image_a(), &calls[..count], &words), (vec![8, 0, 0, 8_000_000, 0, 8, 16], A_FLUX.to_vec()));
    }
    assert_eq!(undo(&image_a(), &calls, &words), (twice_back(16).concat(), [NEW_FLUX, A_FLUX].concat()));
}

/// The two tracks with FLAGS bit 5 and a footer whose serial is the string "x", the flux of revolution 1 of track 0.
fn string_in_flux() -> Vec<u8> {
    let mut image = two_tracks();
    put(&mut image, 8, &[0x23]);
    put(&mut image, 720, b"\x01\x00x\x00");
    image.extend([0, 0, 720, 0, 0, 0].map(u32::to_le_bytes).concat());
    image.extend([0; 16]);
    image.extend(b"\x00\x00\x00\x16FPCS");
    image
}

#[test]
fn each_rewrite_is_taken_back_by_its_own_edition() {
    let first = string_in_flux();
    let words = b"\x00\x11\x00\x12\x01\x00x\x01\x00\x21\x00\x22\x01\x00y\x00";
    // By 1.4 the string is broken, which refuses all calls by 1.6, and then made whole with another letter.
    let calls = [
        [8, 3, 0, 9, 0, 4, 16],
        [8, 0, 1, 5, 4, 4, 16],
        [8, 0, 1, 5, 4, 4, 14],
        [8, 3, 1, 9, 0, 4, 16],
        [8, 3, 0, 8, 8, 4, 14],
        [8, 0, 1, 6, 12, 4, 14],
        [8, 3, 1, 7, 0, 4, 16],
    ];
    let (rows, former) = undone(&first, &calls, words);
    let expected =
        [[8, 3, 1, 0, 0, 4, 16], [8, 0, 1, 5, 4, 4, 14], [8, 3, 0, 9, 8, 4, 14], [8, 0, 1, 6_666_666, 12, 4, 14], [8, 3, 0, 0, 16, 4, 16]];
    assert_eq!(rows, expected);
    assert_eq!(former, b"\x00\x07\x00\x00\x01\x00x\x01\x00\x11\x00\x12\x01\x00x\x00\x00\x05\x00\x06");
    let mut patched = first.clone();
    replays(&mut patched, &calls, words, &[&[], &[18], &[], &[8, 2], &[], &[], &[]]);
    assert_ne!(patched, first);
    let mut image = patched.clone();
    replays(&mut image, &rows, &former, &[&[][..]; 5]);
    assert_eq!(image, first);
    // By 1.6 throughout, the flux that holds the string does not come back.
    let mut newer = expected;
    newer.iter_mut().for_each(|row| row[6] = 16);
    replays(&mut patched, &newer, &former, &[&[], &[18], &[], &[18], &[]]);
    assert_ne!(patched, first);
}

#[test]
fn the_checksum_of_a_read_write_image_is_never_touched() {
    let words = [NEW_FLUX, OTHER_FLUX].concat();
    for stored in [0, 980, 0xDEAD_BEEF] {
        for edition in [14, 16] {
            let mut first = a_with(8, &[0x11]);
            put(&mut first, 0x0C, &u32::to_le_bytes(stored));
            let (rows, former) = undone(&first, &twice(edition), &words);
            assert_eq!((&rows[..], &former), (&twice_back(edition)[..], &[NEW_FLUX, A_FLUX].concat()));
            let mut image = first.clone();
            accepted(&mut image, &twice(edition), &words, &[stored; 2]);
            assert_eq!(image[704..], OTHER_FLUX);
            accepted(&mut image, &rows, &former, &[stored; 2]);
            assert_eq!(image, first);
        }
    }
}

#[test]
fn a_damaged_image_stays_as_far_from_its_sum() {
    let words = [NEW_FLUX, OTHER_FLUX].concat();
    // One more, one less, a half of all numbers, and 980 less: the stored checksum is then 0.
    for away in [1, u32::MAX, 1 << 31, 4_294_966_316] {
        let stored = |sum: u32| sum.wrapping_add(away);
        let first = a_with(0x0C, &stored(980).to_le_bytes());
        let (rows, former) = undone(&first, &twice(16), &words);
        assert_eq!((&rows[..], &former), (&twice_back(16)[..], &[NEW_FLUX, A_FLUX].concat()));
        let mut image = first.clone();
        accepted(&mut image, &twice(16), &words, &[752, 479].map(stored));
        assert_eq!(validate(&image, V1_6), refused(12, 0));
        accepted(&mut image, &rows, &former, &[752, 980].map(stored));
        assert_eq!(image, first);
        assert_eq!(validate(&image, V1_6), refused(12, 0));
    }
}

#[test]
fn a_revolution_without_words_is_put_back_without_any() {
    // The words are given up, and there are none to put back but for the first rewrite.
    let calls = [[8, 0, 0, 5, 0, 0, 16], [8, 0, 0, 6, 0, 0, 16]];
    let expected = (vec![[8, 0, 0, 5, 0, 0, 16], [8, 0, 0, 8_000_000, 0, 8, 16]], A_FLUX.to_vec());
    assert_eq!(undone(&image_a(), &calls, &[]), expected);
    // Revolution 1 of track 3 has none from the start, and stands between two that have some.
    let mut first = two_tracks();
    put_revolution(&mut first, 748, [11, 0, 32]);
    let calls = [[8, 3, 0, 9, 0, 4, 16], [8, 3, 1, 8, 4, 0, 16], [8, 0, 1, 7, 2, 4, 16]];
    let words = [1, 2, 3, 4, 5, 6];
    let (rows, former) = undone(&first, &calls, &words);
    assert_eq!(rows, [[8, 0, 1, 6_666_666, 0, 4, 16], [8, 3, 1, 11, 4, 0, 16], [8, 3, 0, 0, 4, 4, 16]]);
    assert_eq!(former, [0, 3, 0, 4, 0, 5, 0, 6]);
    let mut image = first.clone();
    replays(&mut image, &calls, &words, &[&[][..]; 3]);
    assert_ne!(image, first);
    replays(&mut image, &rows, &former, &[&[][..]; 3]);
    assert_eq!(image, first);
}

#[test]
fn an_image_that_does_not_open_gives_nothing() {
    let calls = [[8, 0, 0, 9, 0, 8, 14], [8, 0, 0, 9, 0, 8, 16]];
    let closed = [
        (vec![], 1),
        (image_a()[..679].to_vec(), 1),
        (a_with(0, b"scp"), 2),
        (a_with(9, &[8]), 3),
        (a_with(5, &[0]), 4),
        (a_with(7, &[168]), 5),
        (a_with(0x0A, &[3]), 6),
        (a_with(6, &[1, 1]), 9),
        (a_with(688, b"X"), 10),
        (a_with(696, &[5]), 11),
    ];
    for (image, number) in closed {
        assert_eq!(header(&image, V1_4), refused(number, 0));
        assert_eq!(header(&image, V1_6), refused(number, 0));
        contribute_nothing(&image, &calls, &NEW_FLUX);
    }
    // Without a footer that FLAGS bit 5 announces, it opens under 1.4 alone.
    let bare = a_with(8, &[0x21]);
    assert_eq!(header(&bare, V1_6), refused(7, 0));
    contribute_nothing(&bare, &calls[1..], &NEW_FLUX);
    assert_eq!(undone(&bare, &calls, &NEW_FLUX), (vec![[8, 0, 0, 8_000_000, 0, 8, 14]], A_FLUX.to_vec()));
}

#[test]
fn rewrites_of_255_revolutions_come_back() {
    for (edition, place) in [(14, 680), (16, 688)] {
        let first = revolutions_of_track_0(place, 255);
        // All revolutions, every seventh of them in turn, and all of them again; call k has the bytes k and k + 1 of the words.
        let words: Vec<u8> = (0..511_u32).map(|number| (37 * number % 251) as u8).collect();
        let calls: Vec<[u64; 7]> = (0..510).map(|number| [8, 0, 7 * number % 255, 1_000 + number, number, 2, edition]).collect();
        let (rows, former) = undone(&first, &calls, &words);
        assert_eq!(rows.len(), 510);
        for (number, (row, bytes)) in (0..510_u64).rev().zip(rows.iter().zip(former.chunks(2))) {
            let revolution = 7 * number % 255;
            let (duration, expected) = match number.checked_sub(255) {
                Some(before) => (1_000 + before, words[before as usize..][..2].to_vec()),
                None => (revolution, vec![0, revolution as u8 + 1]),
            };
            assert_eq!((row, bytes), (&[8, 0, revolution, duration, 2 * (509 - number), 2, edition], &expected[..]));
        }
        let mut image = first.clone();
        replays(&mut image, &calls, &words, &[&[][..]; 510]);
        assert_ne!(image, first);
        replays(&mut image, &rows, &former, &[&[][..]; 510]);
        assert_eq!(image, first);
    }
}

#[test]
fn any_image_calls_and_words_are_taken() {
    let numbers = [0, 1, 2, 3, 8, 14, 16, 255, 1 << 31, u64::from(u32::MAX), 1 << 32, 1 << 63, u64::MAX];
    let mut calls = Vec::new();
    for one in numbers {
        for other in numbers {
            calls.extend([[8, 0, 0, other, one, other, one], [8, 3, 1, one, other, one, 14], [8, one, other, 0, 0, 2, 16]]);
            calls.extend([[one, other, one, other, one, other, one], [one, 0, 0, one, 0, other, other]]);
        }
    }
    let words = [NEW_FLUX, OTHER_FLUX].concat();
    for image in [image_a(), old_a(), two_tracks(), string_in_flux()] {
        for length in (0..3).chain(image.len() - 9..=image.len()) {
            undone(&image[..length], &calls, &words);
            undone(&image[..length], &calls, &[]);
        }
    }
}
