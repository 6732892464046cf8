//! The examples of the rules, and every refusal with its position; expected values by hand.

mod common;
mod footers;
mod sample;

use common::{put, put_revolution, refused, revolutions_of_track_0};
use footers::{a_with_footer, all_refuse, footer_row};
use sample::{a_with, image_a, old_a, replays, two_tracks, A_TRACK, NEW_FLUX};
use scp_reader::Edition::{V1_4, V1_6};
use scp_reader::*;

#[test]
fn image_a_is_sound_and_lists_as_in_the_rules() {
    let image = image_a();
    assert_eq!(image.len(), 712);
    assert_eq!(validate(&image, V1_6), Ok(()));
    let head = Header { version: 0x16, disk: 0, revolutions: 1, start: 0, end: 0, flags: 1, width: 0, heads: 0, checksum: 980 };
    assert_eq!(header(&image, V1_6), Ok(head));
    assert_eq!(footer(&image, V1_6), Ok(None));
    let first = Track { cylinder: 0, head: 0, place: 688, revolutions: 1 };
    assert_eq!(track(&image, V1_6, 0), Ok(first));
    let turn = Revolution { duration: 8_000_000, words: 4, place: 704 };
    assert_eq!(revolution(&image, V1_6, 0, 0), Ok(turn));
    let words = flux(&image, V1_6, 0, 0).unwrap();
    assert_eq!(words, [0x00, 0xA0, 0x00, 0x00, 0x00, 0x01, 0x00, 0xF0]);
    assert_eq!(intervals(&words, 3), Ok((vec![160, 65_537, 240], 0)));
    assert_eq!(closed_intervals(&words, 3, 3), Ok((vec![160, 65_537, 240], vec![0, 2, 3], 0)));
}

#[test]
fn closing_words_are_counted_within_their_revolution() {
    let image = two_tracks();
    let closed = |track, revolution| closed_intervals(&flux(&image, V1_6, track, revolution).unwrap(), 2, 2).unwrap();
    assert_eq!(closed(0, 0), (vec![1, 2], vec![0, 1], 0));
    assert_eq!(closed(0, 1), (vec![3, 4], vec![0, 1], 0));
    assert_eq!(closed(3, 0), (vec![5, 6], vec![0, 1], 0));
    assert_eq!(closed(3, 1), (vec![7], vec![0], 65_536));
}

#[test]
fn intervals_of_the_starred_examples() {
    assert_eq!(intervals(&[], 0), Ok((vec![], 0)));
    assert_eq!(intervals(&[0, 0], 0), Ok((vec![], 65_536)));
    let protection = [0x00, 0x00, 0x00, 0x00, 0x7F, 0xFF];
    assert_eq!(intervals(&protection, 1), Ok((vec![163_839], 0)));
    assert_eq!(intervals(&[0xFF, 0xFF], 1), Ok((vec![65_535], 0)));
    assert_eq!(intervals(&[0, 0, 0, 1], 1), Ok((vec![65_537], 0)));
    assert_eq!(intervals(&[0, 9, 0, 0, 0, 0], 1), Ok((vec![9], 131_072)));
}

#[test]
fn steps_hand_the_reader_on() {
    let step_of = |interval, open, closing, next| Ok(Step { interval, open, closing, next });
    let words = [0x00, 0xA0, 0x00, 0x00, 0x00, 0x01, 0x00, 0x00];
    assert_eq!(step(&words, 0), step_of(Some(160), 0, Some(0), 1));
    assert_eq!(step(&words, 1), step_of(Some(65_537), 0, Some(2), 3));
    assert_eq!(step(&words, 2), step_of(Some(1), 0, Some(2), 3));
    assert_eq!(step(&words, 3), step_of(None, 65_536, None, 3));
    assert_eq!(step(&words, 4), step_of(None, 0, None, 4));
    assert_eq!(step(&words, 5), step_of(None, 0, None, 5));
    for far in [1 << 31, 1 << 62, 1 << 63, (1 << 63) + 1, u64::MAX] {
        assert_eq!(step(&words, far), step_of(None, 0, None, far));
    }
    assert_eq!(step(&[], 0), step_of(None, 0, None, 0));
    assert_eq!(step(&[0; 6], 1), step_of(None, 131_072, None, 1));
}

#[test]
fn words_of_the_starred_examples() {
    assert_eq!(words(&[65_537], 4), Ok(vec![0, 0, 0, 1]));
    assert_eq!(words(&[131_071], 4), Ok(vec![0, 0, 0xFF, 0xFF]));
    assert_eq!(words(&[0], 9), refused(16, 0));
    assert_eq!(words(&[65_536], 9), refused(16, 0));
    assert_eq!(words(&[1, 65_535], 4), Ok(vec![0, 1, 0xFF, 0xFF]));
    assert_eq!(words(&[], 0), Ok(vec![]));
    let longest = words(&[4_294_967_295], 131_072).unwrap();
    assert_eq!(longest.len(), 131_072);
    assert_eq!(longest[131_068..], [0, 0, 0xFF, 0xFF]);
    assert_eq!(intervals(&longest, 1), Ok((vec![4_294_967_295], 0)));
}

#[test]
fn cylinder_and_head_of_the_starred_examples() {
    for (number, cylinder, head) in [(0x0B, 5, 1), (0x50, 40, 0), (167, 83, 1)] {
        let mut image = image_a();
        put(&mut image, 6, &[number, number]);
        put(&mut image, 0x10, &[0; 4]);
        put(&mut image, 0x10 + 4 * usize::from(number), &[0xB0, 2, 0, 0]);
        put(&mut image, 691, &[number]);
        let found = track(&image, V1_6, u32::from(number)).unwrap();
        assert_eq!((found.cylinder, found.head), (cylinder, head));
    }
}

#[test]
fn sum_of_four_bytes_ff_is_1020() {
    let mut image = image_a();
    image.extend([0xFF; 4]);
    assert_eq!(validate(&image, V1_6), refused(12, 0));
    put(&mut image, 0x0C, &(980_u32 + 1_020).to_le_bytes());
    assert_eq!(validate(&image, V1_6), Ok(()));
    // All four bytes of the checksum are outside the sum.
    image.extend(vec![0xFF; 70_000]);
    put(&mut image, 0x0C, &17_852_000_u32.to_le_bytes());
    assert_eq!(validate(&image, V1_6), Ok(()));
}

#[test]
fn footer_time_of_eight_bytes_ff_is_minus_1() {
    let image = a_with_footer(b"\x01\x00x\x00", [0, 0, 712, 0, 0, 0]);
    let found = Footer { offsets: [0, 0, 712, 0, 0, 0], created: -1, modified: 1_000_000_000_000, versions: [0x15, 0x13, 0x12, 0x16] };
    assert_eq!(footer(&image, V1_6), Ok(Some(found)));
}

#[test]
fn duration_8_000_000_is_300_rpm() {
    assert_eq!(speed(&image_a(), V1_6, 0, 0), Ok(Some(300.0)));
    assert_eq!(track_speed(&image_a(), V1_6, 0), Ok(Some((300.0, 300.0))));
    let still = a_with(692, &[0; 4]);
    assert_eq!(speed(&still, V1_6, 0, 0), Ok(None));
    assert_eq!(track_speed(&still, V1_6, 0), Ok(None));
}

#[test]
fn track_speed_is_slowest_then_fastest() {
    let mut image = two_tracks();
    let fastest = 2_400_000_000.0 / 6_666_666.0;
    assert_eq!(track_speed(&image, V1_6, 0), Ok(Some((300.0, fastest))));
    assert_eq!(track_speed(&image, V1_6, 3), Ok(None));
    put(&mut image, 748, &[0xFF; 4]);
    let slow = 2_400_000_000.0 / 4_294_967_295.0;
    assert_eq!(track_speed(&image, V1_6, 3), Ok(Some((slow, slow))));
    // Durations 0 to 254.
    assert_eq!(track_speed(&revolutions_of_track_0(688, 255), V1_6, 0), Ok(Some((2_400_000_000.0 / 254.0, 2_400_000_000.0))));
}

#[test]
fn rewritten_a_has_checksum_885() {
    let mut image = image_a();
    assert_eq!(rewrite(&mut image, V1_6, 0, 0, 8_000_000, &NEW_FLUX), Ok(()));
    let mut expected = a_with(704, &NEW_FLUX);
    put(&mut expected, 0x0C, &885_u32.to_le_bytes());
    assert_eq!(image, expected);
    assert_eq!(validate(&image, V1_6), Ok(()));
}

#[test]
fn rewritten_damaged_a_has_checksum_886() {
    let mut image = a_with(0x0C, &981_u32.to_le_bytes());
    assert_eq!(validate(&image, V1_6), refused(12, 0));
    assert_eq!(rewrite(&mut image, V1_6, 0, 0, 8_000_000, &NEW_FLUX), Ok(()));
    assert_eq!(header(&image, V1_6).unwrap().checksum, 886);
    assert_eq!(validate(&image, V1_6), refused(12, 0));
}

#[test]
fn rewrite_with_fewer_words_keeps_the_rest() {
    let mut image = image_a();
    assert_eq!(rewrite(&mut image, V1_6, 0, 0, 0x0102_0304, &[7, 8]), Ok(()));
    let mut expected = image_a();
    put(&mut expected, 692, &[4, 3, 2, 1, 1, 0, 0, 0]);
    put(&mut expected, 704, &[7, 8]);
    // Before: 0x12 + 0x7A + 4 + 0xA0 = 304; after: 10 + 1 + 15 = 26; 980 - 278 = 702.
    put(&mut expected, 0x0C, &702_u32.to_le_bytes());
    assert_eq!(image, expected);
    assert_eq!(rewrite(&mut image, V1_6, 0, 0, 0, &[]), Ok(()));
    assert_eq!(flux(&image, V1_6, 0, 0), Ok(vec![]));
    assert_eq!(image[704..], [7, 8, 0, 0, 0, 1, 0, 0xF0]);
    assert_eq!(rewrite(&mut image, V1_6, 0, 0, 0, &[1, 1]), refused(17, 0));
}

#[test]
fn checksum_wraps_on_a_read_only_image_and_stays_on_a_read_write_one() {
    let mut wrapped = a_with(0x0C, &[0; 4]);
    assert_eq!(rewrite(&mut wrapped, V1_6, 0, 0, 8_000_000, &NEW_FLUX), Ok(()));
    assert_eq!(header(&wrapped, V1_6).unwrap().checksum, u32::MAX - 94);
    let mut open = a_with(8, &[0x11]);
    assert_eq!(validate(&open, V1_6), refused(12, 0));
    assert_eq!(rewrite(&mut open, V1_6, 0, 0, 8_000_000, &NEW_FLUX), Ok(()));
    assert_eq!(header(&open, V1_6).unwrap().checksum, 980);
    put(&mut open, 0x0C, &[0; 4]);
    assert_eq!(validate(&open, V1_6), Ok(()));
}

#[test]
fn refusal_1_size() {
    all_refuse(&[], V1_6, 1, 0);
    all_refuse(&image_a()[..687], V1_6, 1, 0);
    assert_eq!(validate(&vec![0; 268_435_457], V1_6), refused(1, 0));
    assert_eq!(validate(&vec![0; 268_435_456], V1_6), refused(2, 0));
    let mut none = image_a();
    none.truncate(688);
    all_refuse(&none, V1_6, 10, 0);
    put(&mut none, 0x10, &[0; 4]);
    put(&mut none, 0x0C, &[0; 4]);
    assert_eq!(validate(&none, V1_6), Ok(()));
}

#[test]
fn refusal_2_sign() {
    all_refuse(&a_with(2, b"Q"), V1_6, 2, 0);
    all_refuse(&a_with(0, b"scp"), V1_6, 2, 0);
}

#[test]
fn refusal_3_width() {
    all_refuse(&a_with(9, &[8]), V1_6, 3, 0);
    assert_eq!(header(&a_with(9, &[16]), V1_6).unwrap().width, 16);
}

#[test]
fn refusal_4_revolutions() {
    all_refuse(&a_with(5, &[0]), V1_6, 4, 0);
    for count in [0, 2, 255] {
        all_refuse(&a_with(5, &[count, 0, 0, 0x10]), V1_6, 4, 0);
    }
    // A has no room for a longer track data header; FLAGS bit 3 is not read/write.
    for count in [2, 6, 9, 200, 255] {
        all_refuse(&a_with(5, &[count, 0, 0, 0]), V1_6, 10, 0);
        all_refuse(&a_with(5, &[count, 0, 0, 0x08]), V1_6, 10, 0);
    }
}

#[test]
fn refusal_5_span() {
    all_refuse(&a_with(6, &[1, 0]), V1_6, 5, 0);
    all_refuse(&a_with(7, &[168]), V1_6, 5, 0);
    assert_eq!(header(&a_with(7, &[167]), V1_6).unwrap().end, 167);
}

#[test]
fn refusal_6_heads() {
    all_refuse(&a_with(0x0A, &[3]), V1_6, 6, 0);
}

#[test]
fn refusal_7_footer() {
    all_refuse(&a_with(8, &[0x20]), V1_6, 7, 0);
    let mut short = vec![0; 735];
    put(&mut short, 0, b"SCP\x00\x00\x01\x00\x00\x20");
    put(&mut short, 730, b"\x16FPCS");
    all_refuse(&short, V1_6, 7, 0);
    short.insert(688, 0);
    assert!(footer(&short, V1_6).unwrap().is_some());
    let sound = a_with_footer(&[], [0; 6]);
    assert!(footer(&sound, V1_6).unwrap().is_some());
    let end = sound.len();
    for (place, byte) in [(end - 1, b'T'), (end - 4, b'f'), (end - 5, 0x15)] {
        let mut image = sound.clone();
        image[place] = byte;
        all_refuse(&image, V1_6, 7, 0);
    }
    let mut later = sound.clone();
    later[end - 5] = 0xFF;
    assert_eq!(footer(&later, V1_6).unwrap().unwrap().versions[3], 0xFF);
}

#[test]
fn refusal_8_string() {
    let good = b"\x02\x00hi\x00";
    let at = |index: usize, offset| {
        let mut offsets = [0; 6];
        offsets[index] = offset;
        offsets
    };
    assert!(footer(&a_with_footer(good, at(5, 712)), V1_6).is_ok());
    assert!(footer(&a_with_footer(b"\x00\x00\x00", at(3, 712)), V1_6).is_ok());
    for index in 0..6 {
        let position = index as u64;
        // The last three are empty and closed, but lie in the table.
        for low in [687, 685, 680, 600] {
            all_refuse(&a_with_footer(good, at(index, low)), V1_6, 8, position);
        }
        all_refuse(&a_with_footer(b"\x02\x00h\x00\x00", at(index, 712)), V1_6, 8, position);
        all_refuse(&a_with_footer(b"\x02\x00hi!", at(index, 712)), V1_6, 8, position);
        all_refuse(&a_with_footer(b"\x03\x00hi\x00", at(index, 712)), V1_6, 8, position);
        all_refuse(&a_with_footer(b"\x02\x00hi", at(index, 712)), V1_6, 8, position);
        all_refuse(&a_with_footer(good, at(index, 716)), V1_6, 8, position);
        all_refuse(&a_with_footer(good, at(index, u32::MAX)), V1_6, 8, position);
    }
    all_refuse(&a_with_footer(good, [0, 712, 1, 0, 2, 0]), V1_6, 8, 2);
}

#[test]
fn refusal_9_slot() {
    let mut outside = a_with(6, &[1, 5]);
    all_refuse(&outside, V1_6, 9, 0);
    put(&mut outside, 0x10, &[0; 4]);
    put(&mut outside, 0x10 + 4 * 6, &[1, 0, 0, 0]);
    all_refuse(&outside, V1_6, 9, 6);
    all_refuse(&a_with(0x0A, &[2]), V1_6, 9, 0);
    let mut side = a_with(7, &[9]);
    put(&mut side, 0x0A, &[1]);
    put(&mut side, 0x10 + 4 * 7, &[1, 0, 0, 0]);
    all_refuse(&side, V1_6, 9, 7);
}

#[test]
fn refusal_10_track() {
    all_refuse(&a_with(0x10, &687_u32.to_le_bytes()), V1_6, 10, 0);
    all_refuse(&a_with(0x10, &697_u32.to_le_bytes()), V1_6, 10, 0);
    all_refuse(&a_with(0x10, &[0xFF; 4]), V1_6, 10, 0);
    all_refuse(&a_with(690, b"Q"), V1_6, 10, 0);
    all_refuse(&a_with(691, &[1]), V1_6, 10, 0);
    let mut second = a_with(7, &[167]);
    put(&mut second, 0x2AC, &[0xB0, 2, 0, 0]);
    all_refuse(&second, V1_6, 10, 167);
    let mut low = vec![0; 712];
    put(&mut low, 0, &image_a());
    put(&mut low, 0x10, &[0x20, 0, 0, 0]);
    put(&mut low, 0x20, &A_TRACK);
    all_refuse(&low, V1_6, 10, 0);
}

#[test]
fn refusal_11_flux() {
    all_refuse(&a_with(696, &[5]), V1_6, 11, 0);
    all_refuse(&a_with(696, &[0xFF; 4]), V1_6, 11, 0);
    all_refuse(&a_with(700, &[0xFF; 4]), V1_6, 11, 0);
    all_refuse(&a_with(700, &[17]), V1_6, 11, 0);
    all_refuse(&a_with(696, &[0, 0, 0, 0, 25]), V1_6, 11, 0);
    let at_end = a_with(696, &[0, 0, 0, 0, 24]);
    assert_eq!(revolution(&at_end, V1_6, 0, 0).unwrap().place, 712);
    let mut second = two_tracks();
    put(&mut second, 752, &[3]);
    all_refuse(&second, V1_6, 11, 3);
    let wrapped = a_with(696, &[1, 0, 0, 0x80, 0x10]);
    all_refuse(&wrapped, V1_6, 11, 0);
}

#[test]
fn refusal_12_sum() {
    let damaged = a_with(0x0C, &981_u32.to_le_bytes());
    assert_eq!(validate(&damaged, V1_6), refused(12, 0));
    assert_eq!(header(&damaged, V1_6).unwrap().checksum, 981);
    let type_bit = a_with(8, &[0x09]);
    assert_eq!(validate(&type_bit, V1_6), Ok(()));
}

/// A track is absent for all questions and for the rewrite, which changes no byte.
fn is_absent(image: &[u8], edition: Edition, number: u32) {
    assert_eq!(track(image, edition, number), refused(13, 0));
    assert_eq!(revolution(image, edition, number, 9), refused(13, 0));
    assert_eq!(flux(image, edition, number, 0), refused(13, 0));
    assert_eq!(speed(image, edition, number, 0), refused(13, 0));
    assert_eq!(track_speed(image, edition, number), refused(13, 0));
    let mut copy = image.to_vec();
    assert_eq!(rewrite(&mut copy, edition, number, 9, 0, &[1]), refused(13, 0));
    assert_eq!(copy, image);
}

#[test]
fn refusal_13_absent() {
    for number in [1, 167, 168, 256, u32::MAX] {
        is_absent(&image_a(), V1_6, number);
    }
}

#[test]
fn refusal_14_revolution() {
    let mut image = image_a();
    for number in [1, 5, u32::MAX] {
        assert_eq!(revolution(&image, V1_6, 0, number), refused(14, 0));
        assert_eq!(flux(&image, V1_6, 0, number), refused(14, 0));
        assert_eq!(speed(&image, V1_6, 0, number), refused(14, 0));
        assert_eq!(rewrite(&mut image, V1_6, 0, number, 0, &[1]), refused(14, 0));
    }
    assert_eq!(image, image_a());
}

#[test]
fn refusal_15_places() {
    assert_eq!(intervals(&[0, 1, 0, 2], 1), refused(15, 0));
    assert_eq!(words(&[65_537], 3), refused(15, 0));
    assert_eq!(words(&[u64::from(u32::MAX); 1_000], 0), refused(15, 0));
    let mut answers = [7; 31];
    let calls = [[8, 0, 0, 0, 0, 0, 16]; 2].concat();
    let mut image = image_a();
    let found = replay(&mut image, &calls, &[], &mut answers);
    assert_eq!(found, refused(15, 0));
    assert_eq!((&image, answers), (&image_a(), [7; 31]));
    // Thirteen numbers are one row and no second.
    assert_eq!(replay(&mut image, &calls[..13], &[], &mut answers), Ok(()));
    assert_eq!(answers[..17], [0, 0, 0, 0, 0, 0, 0, 0, 0, 0, 0, 0, 0, 0, 0, 0, 7]);
}

#[test]
fn refusal_16_time() {
    assert_eq!(words(&[1, 2, 131_072, 0], 0), refused(16, 2));
    assert_eq!(words(&[1, 4_294_967_296], 0), refused(16, 1));
    assert_eq!(words(&[4_294_967_297], 0), refused(16, 0));
    assert_eq!(words(&[u64::MAX], 0), refused(16, 0));
}

#[test]
fn refusal_17_words() {
    assert_eq!(step(&[0, 1, 0], 0), refused(17, 0));
    assert_eq!(intervals(&[0, 1, 0], 0), refused(17, 0));
    let long = vec![0; 268_435_458];
    assert_eq!(step(&long, 0), refused(17, 0));
    assert_eq!(intervals(&long, 0), refused(17, 0));
    let mut image = a_with(700, &[0]);
    assert_eq!(rewrite(&mut image, V1_6, 0, 0, 0, &[1]), refused(17, 0));
    assert_eq!(rewrite(&mut image, V1_6, 0, 0, 0, &[0; 10]), refused(17, 0));
    assert_eq!(rewrite(&mut image, V1_6, 0, 0, 0, &long), refused(17, 0));
    assert_eq!(rewrite(&mut image, V1_6, 0, 0, 0, &[0; 8]), refused(18, 0));
}

/// The rewrite of a revolution is refused as Shared and changes no byte.
fn refuses_as_shared(image: &[u8], edition: Edition, track: u32, revolution: u32) {
    let mut copy = image.to_vec();
    assert_eq!(rewrite(&mut copy, edition, track, revolution, 1, &[]), refused(18, 0));
    assert_eq!(copy, image);
}

/// The rewrite of a revolution is accepted.
fn accepts(image: &[u8], edition: Edition, track: u32, revolution: u32) {
    let mut copy = image.to_vec();
    assert_eq!(rewrite(&mut copy, edition, track, revolution, 1, &[]), Ok(()));
}

#[test]
fn refusal_18_shared_with_its_own_track_data_header() {
    for distance in [0, 3, 4, 11, 12, 15] {
        refuses_as_shared(&a_with(700, &[distance]), V1_6, 0, 0);
    }
    // One word on the bytes before the 8, on these alone, after them, and none at all.
    refuses_as_shared(&a_with(696, &[1, 0, 0, 0, 0]), V1_6, 0, 0);
    refuses_as_shared(&a_with(696, &[1, 0, 0, 0, 2]), V1_6, 0, 0);
    refuses_as_shared(&a_with(696, &[1, 0, 0, 0, 6]), V1_6, 0, 0);
    refuses_as_shared(&a_with(696, &[1, 0, 0, 0, 14]), V1_6, 0, 0);
    accepts(&a_with(696, &[0, 0, 0, 0, 6]), V1_6, 0, 0);
    accepts(&a_with(696, &[1, 0, 0, 0, 22]), V1_6, 0, 0);
}

#[test]
fn refusal_18_shared_with_other_revolutions_and_tracks() {
    let sound = two_tracks();
    for (number, turn) in [(0, 0), (0, 1), (3, 0), (3, 1)] {
        accepts(&sound, V1_6, number, turn);
    }
    // Revolution 1 of track 0 on the last word of revolution 0: both are shared.
    let mut same = sound.clone();
    put(&mut same, 712, &[30]);
    refuses_as_shared(&same, V1_6, 0, 0);
    refuses_as_shared(&same, V1_6, 0, 1);
    accepts(&same, V1_6, 3, 0);
    // Empty flux at the same place claims nothing, and stands on nothing.
    put(&mut same, 708, &[0]);
    accepts(&same, V1_6, 0, 0);
    accepts(&same, V1_6, 0, 1);
    // Flux of track 0 up to the first byte of the other track data header, then on it.
    let mut across = sound.clone();
    put(&mut across, 712, &[40]);
    accepts(&across, V1_6, 0, 1);
    put(&mut across, 712, &[41]);
    refuses_as_shared(&across, V1_6, 0, 1);
    accepts(&across, V1_6, 3, 0);
    // It then lies on the 8 bytes of revolution 0 of track 3 as well.
    put(&mut across, 712, &[48]);
    refuses_as_shared(&across, V1_6, 3, 0);
    accepts(&across, V1_6, 3, 1);
}

#[test]
fn refusal_18_shared_with_footer_and_strings() {
    let between = [&NEW_FLUX[..], b"\x02\x00hi\x00"].concat();
    let image = a_with_footer(&between, [0, 0, 0, 720, 0, 0]);
    accepts(&image, V1_6, 0, 0);
    let mut beside = image.clone();
    put(&mut beside, 700, &[24]);
    accepts(&beside, V1_6, 0, 0);
    put(&mut beside, 700, &[25]);
    refuses_as_shared(&beside, V1_6, 0, 0);
    // The last two bytes below E: the string's last letter and its closing zero.
    let mut last = image.clone();
    put(&mut last, 696, &[1, 0, 0, 0, 35]);
    refuses_as_shared(&last, V1_6, 0, 0);
    // The closing zero alone, and the two bytes after it.
    let longer = [&between[..], &[9, 9]].concat();
    let mut zero = a_with_footer(&longer, [0, 0, 0, 720, 0, 0]);
    put(&mut zero, 696, &[1, 0, 0, 0, 36]);
    refuses_as_shared(&zero, V1_6, 0, 0);
    put(&mut zero, 700, &[37]);
    accepts(&zero, V1_6, 0, 0);
    // Without the offset the same bytes are nobody's.
    let offset = last.len() - 48 + 12;
    put(&mut last, offset, &[0; 4]);
    accepts(&last, V1_6, 0, 0);
}

#[test]
fn two_tracks_are_read_by_distance_from_the_track_data_header() {
    let image = two_tracks();
    assert_eq!(flux(&image, V1_6, 0, 1), Ok(vec![0, 3, 0, 4]));
    assert_eq!(flux(&image, V1_6, 3, 0), Ok(vec![0, 5, 0, 6]));
    assert_eq!(revolution(&image, V1_6, 3, 1).unwrap().place, 764);
    assert_eq!(track(&image, V1_6, 3).unwrap().place, 732);
    assert_eq!(header(&image, V1_6).unwrap().disk, 0x80);
    assert_eq!(flux(&image, V1_6, 0, 2), refused(14, 0));
}

/// The editions, with the place of the first track data header and how far it lies before that of 1.6.
const FIRST_TRACKS: [(Edition, u32, usize); 2] = [(V1_6, 688, 0), (V1_4, 680, 8)];

#[test]
fn one_to_255_revolutions_are_read() {
    for (edition, first, back) in FIRST_TRACKS {
        // Under 1.6 the first flux lies at 688 + 4 + 12R.
        for (count, flux_at) in [(1, 704), (5, 752), (6, 764), (9, 800), (200, 3_092), (255, 3_752)] {
            let image = revolutions_of_track_0(first, count);
            assert_eq!(validate(&image, edition), Ok(()));
            assert_eq!(header(&image, edition).unwrap().revolutions, count);
            assert_eq!(track(&image, edition, 0).unwrap().revolutions, u32::from(count));
            for number in 0..count {
                let (asked, place) = (u32::from(number), flux_at - back as u64 + 2 * u64::from(number));
                assert_eq!(revolution(&image, edition, 0, asked), Ok(Revolution { duration: asked, words: 1, place }));
                assert_eq!(flux(&image, edition, 0, asked), Ok(vec![0, number + 1]));
            }
            for absent in [u32::from(count), 255, 256] {
                assert_eq!(revolution(&image, edition, 0, absent), refused(14, 0));
                assert_eq!(rewrite(&mut image.clone(), edition, 0, absent, 0, &[]), refused(14, 0));
            }
        }
    }
}

#[test]
fn first_middle_and_last_of_255_revolutions_are_rewritten() {
    for (edition, first, back) in FIRST_TRACKS {
        let mut image = revolutions_of_track_0(first, 255);
        // Entry 178, sign 241, durations 32,385, counts 255, words 32,640, and the distances 3,064 to 3,572:
        // four from 0x0BF8, 1,004 + 44; 128 from 0x0C00, 16,256 + 1,536; 123 from 0x0D00, 15,006 + 1,599.
        // Under 1.4 the entry is A8 02 instead of B0 02, 8 less.
        assert_eq!(header(&image, edition).unwrap().checksum, 101_144 - back as u32);
        let mut expected = image.clone();
        // The new bytes add up to 8, the former ones to 1, to 127 + 128 and to 254 + 255.
        for (number, fields, place, checksum) in [(0, 692, 3_752, 101_151), (127, 2_216, 4_006, 100_904), (254, 3_740, 4_260, 100_403)] {
            assert_eq!(rewrite(&mut image, edition, 0, number, 0x0102, &[2, 3]), Ok(()));
            put(&mut expected, fields - back, &[2, 1]);
            put(&mut expected, place - back, &[2, 3]);
            put(&mut expected, 0x0C, &(checksum - back as u32).to_le_bytes());
            assert_eq!(image, expected);
            assert_eq!(validate(&image, edition), Ok(()));
            assert_eq!(flux(&image, edition, 0, number), Ok(vec![2, 3]));
        }
    }
}

#[test]
fn refusals_10_11_and_18_reach_the_last_of_255_revolutions() {
    let sound = revolutions_of_track_0(688, 255);
    // The track data header ends at 3,752, the last flux at 4,262.
    all_refuse(&sound[..3_751], V1_6, 10, 0);
    all_refuse(&sound[..3_752], V1_6, 11, 0);
    all_refuse(&sound[..4_261], V1_6, 11, 0);
    // Revolution 254 with the flux of revolution 0.
    let mut same = sound.clone();
    put(&mut same, 3_748, &3_064_u32.to_le_bytes());
    refuses_as_shared(&same, V1_6, 0, 254);
    refuses_as_shared(&same, V1_6, 0, 0);
    accepts(&same, V1_6, 0, 127);
    // Revolution 0 with its flux on the duration, then on the distance of revolution 254.
    let mut across = sound.clone();
    put(&mut across, 700, &3_052_u32.to_le_bytes());
    refuses_as_shared(&across, V1_6, 0, 0);
    refuses_as_shared(&across, V1_6, 0, 254);
    put(&mut across, 700, &3_060_u32.to_le_bytes());
    refuses_as_shared(&across, V1_6, 0, 0);
    accepts(&across, V1_6, 0, 254);
}

#[test]
fn replay_answers_questions_in_rows() {
    let calls = [0, 1, 2, 3, 4, 5, 6, 7, 9, u64::MAX].map(|kind| [kind, 0, 0, 9, 9, 9, 16]);
    let rpm = 300.0_f64.to_bits();
    let expected: [&[u64]; 10] = [
        &[],
        &[0, 0, 0x16, 0, 1, 0, 0, 1, 0, 0, 980],
        &[],
        &[0, 0, 0, 0, 688, 1],
        &[0, 0, 8_000_000, 4, 704],
        &[0, 0, 704, 8, 0xA0 + 1 + 0xF0],
        &[0, 0, 1, rpm],
        &[0, 0, 1, rpm, rpm],
        &[],
        &[],
    ];
    let mut image = image_a();
    replays(&mut image, &calls, &[], &expected);
    assert_eq!(image, image_a());
}

#[test]
fn replay_gives_the_file_offset_of_flux_and_of_none_at_the_end() {
    let mut image = two_tracks();
    put_revolution(&mut image, 748, [0, 0, 36]);
    let calls = [(0, 1), (3, 0), (3, 1), (3, 2)].map(|(track, revolution)| [5, track, revolution, 0, 0, 0, 16]);
    replays(&mut image, &calls, &[], &[&[0, 0, 720, 4, 3 + 4], &[0, 0, 760, 4, 5 + 6], &[0, 0, 768], &[14]]);
}

#[test]
fn replay_gives_each_call_the_image_as_the_last_one_left_it() {
    let calls = [
        [8, 0, 0, (1 << 32) + 8_000_000, 1, 8, 16],
        [1, 0, 0, 0, 0, 0, 16],
        [5, 0, 0, 0, 0, 0, 16],
        [8, 0, 0, 5, 7, u64::MAX, 16],
        [4, 0, 0, 0, 0, 0, 16],
        [8, 0, 0, 5, 0, 4, 16],
        [8, 0, 0, 0, u64::MAX, u64::MAX, 16],
        [6, 0, 0, 0, 0, 0, 16],
        [7, 0, 0, 0, 0, 0, 16],
        [4, 1 << 32, 0, 0, 0, 0, 16],
        [4, 0, 1 << 40, 0, 0, 0, 16],
        [0, 0, 0, 0, 0, 0, 16],
    ];
    let expected: [&[u64]; 12] = [
        &[],
        &[0, 0, 0x16, 0, 1, 0, 0, 1, 0, 0, 885],
        &[0, 0, 704, 8, 0x41 + 1 + 0xF0],
        &[],
        &[0, 0, 5, 1, 704],
        &[17],
        &[],
        &[],
        &[],
        &[13],
        &[14],
        &[],
    ];
    let words = [&[0xEE], &NEW_FLUX[..]].concat();
    let mut image = image_a();
    replays(&mut image, &calls, &words, &expected);
    assert_eq!(image[704..], [0x00, 0xF0, 0x00, 0x00, 0x00, 0x01, 0x00, 0xF0]);
}

#[test]
fn replay_gives_footer_rows_and_positions() {
    let mut image = a_with_footer(b"\x01\x00x\x00", [0, 0, 712, 0, 0, 0]);
    let mut answers = [7; 16];
    assert_eq!(replay(&mut image, &[2, 0, 0, 0, 0, 0, 16], &[], &mut answers), Ok(()));
    let time = 1_000_000_000_000;
    let row = [0, 0, 1, 0, 0, 712, 0, 0, 0, u64::MAX, time, 0x15, 0x13, 0x12, 0x16, 0];
    assert_eq!(answers, row);
    image[714] = 0;
    assert_eq!(replay(&mut image, &[2, 0, 0, 0, 0, 0, 16], &[], &mut answers), Ok(()));
    assert_eq!(answers, [8, 2, 0, 0, 0, 0, 0, 0, 0, 0, 0, 0, 0, 0, 0, 0]);
    assert_eq!(replay(&mut image, &[0; 6], &[], &mut []), Ok(()));
}

/// Image A for 1.4 with some bytes changed.
fn old_a_with(place: usize, bytes: &[u8]) -> Vec<u8> {
    let mut image = old_a();
    put(&mut image, place, bytes);
    image
}

#[test]
fn image_a_for_1_4_is_sound_and_read() {
    let image = old_a();
    assert_eq!(image.len(), 704);
    assert_eq!(validate(&image, V1_4), Ok(()));
    let head = Header { version: 0x16, disk: 0, revolutions: 1, start: 0, end: 0, flags: 1, width: 0, heads: 0, checksum: 972 };
    assert_eq!(header(&image, V1_4), Ok(head));
    assert_eq!(footer(&image, V1_4), Ok(None));
    assert_eq!(track(&image, V1_4, 0), Ok(Track { cylinder: 0, head: 0, place: 680, revolutions: 1 }));
    assert_eq!(revolution(&image, V1_4, 0, 0), Ok(Revolution { duration: 8_000_000, words: 4, place: 696 }));
    assert_eq!(flux(&image, V1_4, 0, 0).unwrap(), [0x00, 0xA0, 0x00, 0x00, 0x00, 0x01, 0x00, 0xF0]);
    assert_eq!(speed(&image, V1_4, 0, 0), Ok(Some(300.0)));
    assert_eq!(track_speed(&image, V1_4, 0), Ok(Some((300.0, 300.0))));
    for damaged in [971_u32, 973, 980] {
        assert_eq!(validate(&old_a_with(0x0C, &damaged.to_le_bytes()), V1_4), refused(12, 0));
    }
}

#[test]
fn rewritten_a_for_1_4_has_checksum_877() {
    let mut image = old_a();
    assert_eq!(rewrite(&mut image, V1_4, 0, 0, 8_000_000, &NEW_FLUX), Ok(()));
    let mut expected = old_a_with(696, &NEW_FLUX);
    // 01 40 instead of 00 A0: 972 + 65 - 160.
    put(&mut expected, 0x0C, &877_u32.to_le_bytes());
    assert_eq!(image, expected);
    assert_eq!(validate(&image, V1_4), Ok(()));
    let mut damaged = old_a_with(0x0C, &973_u32.to_le_bytes());
    assert_eq!(rewrite(&mut damaged, V1_4, 0, 0, 8_000_000, &NEW_FLUX), Ok(()));
    assert_eq!(header(&damaged, V1_4).unwrap().checksum, 878);
    assert_eq!(validate(&damaged, V1_4), refused(12, 0));
    let mut fewer = old_a();
    assert_eq!(rewrite(&mut fewer, V1_4, 0, 0, 0x0102_0304, &[7, 8]), Ok(()));
    let mut expected = old_a_with(684, &[4, 3, 2, 1, 1, 0, 0, 0]);
    put(&mut expected, 696, &[7, 8]);
    // Before: 0x12 + 0x7A + 4 + 0xA0 = 304; after: 10 + 1 + 15 = 26; 972 - 278 = 694.
    put(&mut expected, 0x0C, &694_u32.to_le_bytes());
    assert_eq!(fewer, expected);
    assert_eq!(rewrite(&mut fewer, V1_4, 0, 0, 0, &[1, 1, 1, 1]), refused(17, 0));
}

#[test]
fn refusal_1_size_under_1_4() {
    all_refuse(&[], V1_4, 1, 0);
    all_refuse(&old_a()[..679], V1_4, 1, 0);
    assert_eq!(validate(&vec![0; 268_435_457], V1_4), refused(1, 0));
    assert_eq!(validate(&vec![0; 268_435_456], V1_4), refused(2, 0));
    let mut none = old_a();
    none.truncate(680);
    all_refuse(&none, V1_4, 10, 0);
    put(&mut none, 0x0C, &[0; 8]);
    all_refuse(&none[..679], V1_4, 1, 0);
    for length in 680..688 {
        none.resize(length, 0);
        assert_eq!(validate(&none, V1_4), Ok(()));
        all_refuse(&none, V1_6, 1, 0);
    }
    none.resize(688, 0);
    assert_eq!(validate(&none, V1_4), Ok(()));
    assert_eq!(validate(&none, V1_6), Ok(()));
}

#[test]
fn refusals_2_to_6_under_1_4() {
    all_refuse(&old_a_with(2, b"Q"), V1_4, 2, 0);
    all_refuse(&old_a_with(9, &[8]), V1_4, 3, 0);
    all_refuse(&old_a_with(5, &[0]), V1_4, 4, 0);
    all_refuse(&old_a_with(5, &[2, 0, 0, 0x10]), V1_4, 4, 0);
    // FLAGS bit 3 is not read/write; the longer track data header has no room.
    all_refuse(&old_a_with(5, &[2, 0, 0, 0x08]), V1_4, 10, 0);
    all_refuse(&old_a_with(6, &[1, 0]), V1_4, 5, 0);
    for end in [166, 167, 168, 255] {
        all_refuse(&old_a_with(7, &[end]), V1_4, 5, 0);
    }
    for end in [166, 167] {
        all_refuse(&a_with(7, &[end]), V1_4, 5, 0);
        assert_eq!(header(&a_with(7, &[end]), V1_6).unwrap().end, end);
    }
    assert_eq!(header(&old_a_with(7, &[165]), V1_4).unwrap().end, 165);
    all_refuse(&old_a_with(0x0A, &[3]), V1_4, 6, 0);
}

#[test]
fn refusals_9_to_11_under_1_4() {
    let mut outside = old_a_with(6, &[1, 5]);
    all_refuse(&outside, V1_4, 9, 0);
    put(&mut outside, 0x10, &[0; 4]);
    put(&mut outside, 0x2A4, &[1, 0, 0, 0]);
    all_refuse(&outside, V1_4, 9, 165);
    all_refuse(&old_a_with(0x0A, &[2]), V1_4, 9, 0);
    // At 679, without its letters and with them; entry 165 then ends in the "T", but index 0 comes first.
    all_refuse(&old_a_with(0x10, &679_u32.to_le_bytes()), V1_4, 10, 0);
    let mut low = old_a_with(0x10, &679_u32.to_le_bytes());
    low.remove(679);
    all_refuse(&low, V1_4, 10, 0);
    all_refuse(&old_a_with(0x10, &689_u32.to_le_bytes()), V1_4, 10, 0);
    all_refuse(&old_a_with(682, b"Q"), V1_4, 10, 0);
    all_refuse(&old_a_with(683, &[1]), V1_4, 10, 0);
    all_refuse(&old_a_with(688, &[5]), V1_4, 11, 0);
    all_refuse(&old_a_with(692, &[17]), V1_4, 11, 0);
    all_refuse(&old_a_with(688, &[0, 0, 0, 0, 25]), V1_4, 11, 0);
    let at_end = old_a_with(688, &[0, 0, 0, 0, 24]);
    assert_eq!(revolution(&at_end, V1_4, 0, 0).unwrap().place, 704);
}

#[test]
fn a_track_data_header_may_lie_at_680_under_1_4_and_at_688_under_1_6() {
    for place in 680..=688_u32 {
        let mut image = old_a_with(0x10, &place.to_le_bytes());
        image.splice(680..680, vec![0; place as usize - 680]);
        assert_eq!(track(&image, V1_4, 0).unwrap().place, u64::from(place));
        accepts(&image, V1_4, 0, 0);
        if place < 688 {
            all_refuse(&image, V1_6, 10, 0);
        } else {
            assert_eq!(track(&image, V1_6, 0).unwrap().place, 688);
        }
    }
}

#[test]
fn track_165_is_the_last_under_1_4() {
    let mut image = old_a_with(6, &[165, 165]);
    put(&mut image, 0x10, &[0; 4]);
    put(&mut image, 0x2A4, &[0xA8, 2, 0, 0]);
    put(&mut image, 683, &[165]);
    put(&mut image, 0x0C, &(972_u32 + 165).to_le_bytes());
    assert_eq!(validate(&image, V1_4), Ok(()));
    assert_eq!(track(&image, V1_4, 165), Ok(Track { cylinder: 82, head: 1, place: 680, revolutions: 1 }));
    assert_eq!(revolution(&image, V1_4, 165, 0).unwrap().place, 696);
    accepts(&image, V1_4, 165, 0);
    // "TRK" and the duration stand where 1.6 has entries 166 and 167.
    assert_eq!(image[680..688], [0x54, 0x52, 0x4B, 165, 0x00, 0x12, 0x7A, 0x00]);
    for number in [0, 164, 166, 167, 168, 165 + 256, u32::MAX] {
        is_absent(&image, V1_4, number);
    }
    all_refuse(&image, V1_6, 10, 165);
    put(&mut image, 0x0A, &[2]);
    assert_eq!(track(&image, V1_4, 165).unwrap().head, 1);
    put(&mut image, 0x0A, &[1]);
    all_refuse(&image, V1_4, 9, 165);
}

#[test]
fn an_image_for_1_4_is_refused_under_1_6() {
    // Index 0, whose track data header lies below 688, comes before index 166.
    all_refuse(&old_a(), V1_6, 10, 0);
    // The track is moved to the end; its former header lies between and is ignored.
    let mut moved = old_a_with(0x10, &704_u32.to_le_bytes());
    moved.extend(A_TRACK);
    assert_eq!(revolution(&moved, V1_4, 0, 0), Ok(Revolution { duration: 8_000_000, words: 4, place: 720 }));
    is_absent(&moved, V1_4, 166);
    is_absent(&moved, V1_4, 167);
    all_refuse(&moved, V1_6, 9, 166);
    let mut wide = moved.clone();
    put(&mut wide, 7, &[167]);
    all_refuse(&wide, V1_6, 10, 166);
    all_refuse(&wide, V1_4, 5, 0);
    // Without its four letters, then without its duration.
    put(&mut moved, 680, &[0; 4]);
    all_refuse(&moved, V1_6, 9, 167);
    put(&mut moved, 684, &[0; 4]);
    assert_eq!(revolution(&moved, V1_6, 0, 0), Ok(Revolution { duration: 8_000_000, words: 4, place: 720 }));
}

#[test]
fn an_image_for_1_6_answers_alike_under_1_4() {
    assert_eq!(validate(&image_a(), V1_4), Ok(()));
    assert_eq!(track(&image_a(), V1_4, 0), Ok(Track { cylinder: 0, head: 0, place: 688, revolutions: 1 }));
    let mut image = two_tracks();
    assert_eq!(header(&image, V1_4), header(&image, V1_6));
    assert_eq!(flux(&image, V1_4, 3, 0), Ok(vec![0, 5, 0, 6]));
    for number in 0..=168 {
        assert_eq!(track(&image, V1_4, number), track(&image, V1_6, number));
        assert_eq!(track_speed(&image, V1_4, number), track_speed(&image, V1_6, number));
        for turn in 0..=2 {
            assert_eq!(revolution(&image, V1_4, number, turn), revolution(&image, V1_6, number, turn));
            assert_eq!(flux(&image, V1_4, number, turn), flux(&image, V1_6, number, turn));
            assert_eq!(speed(&image, V1_4, number, turn), speed(&image, V1_6, number, turn));
        }
    }
    let mut other = image.clone();
    assert_eq!(rewrite(&mut image, V1_4, 3, 1, 9, &[8, 7]), Ok(()));
    assert_eq!(rewrite(&mut other, V1_6, 3, 1, 9, &[8, 7]), Ok(()));
    assert_eq!(image, other);
    // Entries 166 and 167 are no entries of 1.4.
    for (place, index) in [(0x2A8, 166), (0x2AC, 167)] {
        let mut filled = two_tracks();
        put(&mut filled, place, &[0xB0, 2, 0, 0]);
        all_refuse(&filled, V1_6, 9, index);
        assert_eq!(track(&filled, V1_4, 3).unwrap().place, 732);
        is_absent(&filled, V1_4, index as u32);
    }
}

#[test]
fn flags_bit_5_is_ignored_under_1_4() {
    // Without a footer; FLAGS is outside the sum.
    let bare = a_with(8, &[0x21]);
    all_refuse(&bare, V1_6, 7, 0);
    assert_eq!(validate(&bare, V1_4), Ok(()));
    assert_eq!(header(&bare, V1_4).unwrap().flags, 0x21);
    assert_eq!(footer(&bare, V1_4), Ok(None));
    assert_eq!(validate(&old_a_with(8, &[0x21]), V1_4), Ok(()));
    // With a sound footer and a sound string, then without its sign and with an older format.
    let sound = a_with_footer(b"\x01\x00x\x00", [0, 0, 712, 0, 0, 0]);
    assert!(footer(&sound, V1_6).unwrap().is_some());
    assert_eq!(footer(&sound, V1_4), Ok(None));
    for (back, byte) in [(1, b'T'), (5, 0x15)] {
        let mut image = sound.clone();
        let place = image.len() - back;
        image[place] = byte;
        all_refuse(&image, V1_6, 7, 0);
        assert_eq!(footer(&image, V1_4), Ok(None));
    }
    // With a malformed string, and with misplaced ones.
    let unclosed = a_with_footer(b"\x01\x00x\x01", [0, 0, 712, 0, 0, 0]);
    for image in [unclosed, a_with_footer(&[], [0, 0, 687, 0, 0, 0]), a_with_footer(&[], [0, 0, u32::MAX, 0, 0, 0])] {
        all_refuse(&image, V1_6, 8, 2);
        assert_eq!(footer(&image, V1_4), Ok(None));
        accepts(&image, V1_4, 0, 0);
    }
}

#[test]
fn e_is_the_length_under_1_4() {
    // 760 bytes, of which 1.6 has the footer from 712 on. From 704 to the end there are 28 words.
    let image = a_with_footer(&[], [0; 6]);
    let mut all = image.clone();
    put(&mut all, 696, &[28]);
    all_refuse(&all, V1_6, 11, 0);
    assert_eq!(flux(&all, V1_4, 0, 0).unwrap(), image[704..]);
    put(&mut all, 696, &[29]);
    all_refuse(&all, V1_4, 11, 0);
    // The track data header on the last 16 bytes, then a byte further.
    let mut last = image.clone();
    put(&mut last, 0x10, &744_u32.to_le_bytes());
    put(&mut last, 744, &A_TRACK[..16]);
    put(&mut last, 752, &[0; 4]);
    assert_eq!(revolution(&last, V1_4, 0, 0), Ok(Revolution { duration: 8_000_000, words: 0, place: 760 }));
    put(&mut last, 0x10, &745_u32.to_le_bytes());
    all_refuse(&last, V1_4, 10, 0);
}

#[test]
fn read_write_is_flags_bit_4_under_1_4() {
    let mut open = old_a_with(8, &[0x11]);
    assert_eq!(validate(&open, V1_4), refused(12, 0));
    assert_eq!(rewrite(&mut open, V1_4, 0, 0, 8_000_000, &NEW_FLUX), Ok(()));
    assert_eq!(header(&open, V1_4).unwrap().checksum, 972);
    put(&mut open, 0x0C, &[0; 4]);
    assert_eq!(validate(&open, V1_4), Ok(()));
    // Bits 3 and 5 are not it.
    let mut closed = old_a_with(8, &[0x29]);
    assert_eq!(validate(&closed, V1_4), Ok(()));
    assert_eq!(rewrite(&mut closed, V1_4, 0, 0, 8_000_000, &NEW_FLUX), Ok(()));
    assert_eq!(header(&closed, V1_4).unwrap().checksum, 877);
}

#[test]
fn refusal_18_shared_under_1_4() {
    // The 8 bytes lie at 684 to 691.
    accepts(&old_a(), V1_4, 0, 0);
    for distance in [0, 3, 4, 11, 12, 15] {
        refuses_as_shared(&old_a_with(692, &[distance]), V1_4, 0, 0);
    }
    accepts(&old_a_with(688, &[0, 0, 0, 0, 6]), V1_4, 0, 0);
    // Flux below 688 is flux on its own track data header.
    let below = old_a_with(692, &[0]);
    assert_eq!(flux(&below, V1_4, 0, 0).unwrap(), A_TRACK[..8]);
    // Other revolutions' flux, and other track data headers.
    let mut same = two_tracks();
    put(&mut same, 712, &[30]);
    refuses_as_shared(&same, V1_4, 0, 0);
    refuses_as_shared(&same, V1_4, 0, 1);
    accepts(&same, V1_4, 3, 0);
    put(&mut same, 712, &[41]);
    refuses_as_shared(&same, V1_4, 0, 1);
    accepts(&same, V1_4, 0, 0);
}

#[test]
fn strings_and_footer_claim_nothing_under_1_4() {
    // Flux at 717 to 724, a string at 720 to 724, the footer from 725 on.
    let between = [&NEW_FLUX[..], b"\x02\x00hi\x00"].concat();
    let mut image = a_with_footer(&between, [0, 0, 0, 720, 0, 0]);
    put(&mut image, 700, &[29]);
    refuses_as_shared(&image, V1_6, 0, 0);
    let mut expected = image.clone();
    assert_eq!(rewrite(&mut image, V1_4, 0, 0, 8_000_000, &NEW_FLUX), Ok(()));
    put(&mut expected, 717, &NEW_FLUX);
    // Before: 1 + 240 + 2 + 104 + 105 = 452; after: 306; 980 - 146 = 834.
    put(&mut expected, 0x0C, &834_u32.to_le_bytes());
    assert_eq!(image, expected);
    // The string is now 00 00 01: empty, and not closed.
    all_refuse(&image, V1_6, 8, 3);
    // Flux at 752 to 759: the footer's versions and its sign.
    let mut image = a_with_footer(&[], [0; 6]);
    put(&mut image, 700, &[64]);
    all_refuse(&image, V1_6, 11, 0);
    let mut expected = image.clone();
    assert_eq!(rewrite(&mut image, V1_4, 0, 0, 8_000_000, &NEW_FLUX), Ok(()));
    put(&mut expected, 752, &NEW_FLUX);
    // Before: 21 + 19 + 18 + 22 and 70 + 80 + 67 + 83, 380; 980 - 74 = 906.
    put(&mut expected, 0x0C, &906_u32.to_le_bytes());
    assert_eq!(image, expected);
    all_refuse(&image, V1_6, 7, 0);
}

#[test]
fn replay_has_the_edition_last_in_a_row() {
    let rpm = 300.0_f64.to_bits();
    let old: [&[u64]; 10] = [
        &[],
        &[0, 0, 0x16, 0, 1, 0, 0, 1, 0, 0, 972],
        &[],
        &[0, 0, 0, 0, 680, 1],
        &[0, 0, 8_000_000, 4, 696],
        &[0, 0, 696, 8, 0xA0 + 1 + 0xF0],
        &[0, 0, 1, rpm],
        &[0, 0, 1, rpm, rpm],
        &[],
        &[],
    ];
    let kinds = [0, 1, 2, 3, 4, 5, 6, 7, 9, 14];
    replays(&mut old_a(), &kinds.map(|kind| [kind, 0, 0, 16, 16, 16, 14]), &[], &old);
    replays(&mut old_a(), &kinds.map(|kind| [kind, 0, 0, 14, 14, 14, 16]), &[], &[&[10][..]; 10]);
    replays(&mut old_a(), &[[14, 14, 14, 14, 14, 14, 16], [16, 16, 16, 16, 16, 16, 14]], &[], &[&[10], &[]]);
    let mut image = old_a();
    let calls = [[8, 0, 0, 8_000_000, 0, 8, 16], [8, 0, 0, 8_000_000, 0, 8, 14], [1, 0, 0, 0, 0, 0, 14]];
    replays(&mut image, &calls, &NEW_FLUX, &[&[10], &[], &[0, 0, 0x16, 0, 1, 0, 0, 1, 0, 0, 877]]);
}

#[test]
fn replay_takes_every_number_but_14_for_1_6() {
    let newer = footer_row(0);
    let mut image = a_with_footer(&[], [0; 6]);
    for other in [16, 0, 15, u64::MAX, 1, 13, 4, 17, 140, 14 + (1 << 8), 14 + (1 << 16), 14 + (1 << 32), 14 + (1 << 63)] {
        let calls = [14, other, 14, other].map(|edition| [2, 0, 0, 0, 0, 0, edition]);
        replays(&mut image, &calls, &[], &[&[], &newer, &[], &newer]);
        replays(&mut image, &calls[1..], &[], &[&newer, &[], &newer]);
    }
}

#[test]
fn a_rewrite_named_1_4_breaks_a_string_of_1_6() {
    // The flux at 704 to 711 holds the string "hi", at 706 to 710.
    let sound = [0x00, 0xA0, 0x02, 0x00, b'h', b'i', 0x00, 0x01];
    let broken = [0x00, 0xA0, 0x02, 0x00, b'h', b'i', 0x07, 0x01];
    let mut image = a_with_footer(&[], [0, 0, 706, 0, 0, 0]);
    put(&mut image, 704, &sound);
    // 980 - 401 + 372, offset 194 + 2, times 2,040 and 625, versions 80, sign 300.
    put(&mut image, 0x0C, &4_192_u32.to_le_bytes());
    let first = image.clone();
    let row = footer_row(706);
    let calls = [
        [2, 0, 0, 0, 0, 0, 16],
        [0, 0, 0, 0, 0, 0, 16],
        [0, 0, 0, 0, 0, 0, 14],
        [8, 0, 0, 8_000_000, 8, 8, 16],
        [8, 0, 0, 8_000_000, 8, 8, 14],
        [2, 0, 0, 0, 0, 0, 16],
        [3, 0, 0, 0, 0, 0, 16],
        [8, 0, 0, 8_000_000, 0, 8, 16],
        [2, 0, 0, 0, 0, 0, 14],
        [1, 0, 0, 0, 0, 0, 14],
        [5, 0, 0, 0, 0, 0, 14],
        [0, 0, 0, 0, 0, 0, 14],
        [8, 0, 0, 8_000_000, 0, 8, 14],
        [2, 0, 0, 0, 0, 0, 16],
        [0, 0, 0, 0, 0, 0, 16],
    ];
    let expected: [&[u64]; 15] = [
        &row,
        &[],
        &[],
        &[18],
        &[],
        &[8, 2],
        &[8, 2],
        &[8, 2],
        &[],
        &[0, 0, 0x16, 0, 1, 0, 0, 0x21, 0, 0, 4_199],
        &[0, 0, 704, 8, 379],
        &[],
        &[],
        &row,
        &[],
    ];
    replays(&mut image, &calls, &[sound, broken].concat(), &expected);
    assert_eq!(image, first);
}

#[test]
fn rewrites_named_1_4_make_a_footer_of_1_6() {
    // FLAGS bit 5, and 28 zero words at 704 to 759; the sum is 980 - 401 + 24.
    let mut image = a_with(8, &[0x21]);
    put(&mut image, 696, &[28]);
    put(&mut image, 704, &[0; 8]);
    image.extend([0; 48]);
    put(&mut image, 0x0C, &603_u32.to_le_bytes());
    let words = [&[0; 8], &a_with_footer(&[], [0; 6])[712..], &NEW_FLUX].concat();
    let row = footer_row(0);
    let head = |checksum| vec![0, 0, 0x16, 0, 1, 0, 0, 0x21, 0, 0, checksum];
    let calls = [
        [0, 0, 0, 0, 0, 0, 14],
        [2, 0, 0, 0, 0, 0, 16],
        [8, 0, 0, 8_000_000, 0, 56, 16],
        [8, 0, 0, 8_000_000, 0, 56, 14],
        [1, 0, 0, 0, 0, 0, 14],
        [2, 0, 0, 0, 0, 0, 16],
        [8, 0, 0, 8_000_000, 56, 8, 16],
        [8, 0, 0, 8_000_000, 56, 8, 14],
        [2, 0, 0, 0, 0, 0, 16],
        [0, 0, 0, 0, 0, 0, 16],
        [1, 0, 0, 0, 0, 0, 16],
        [2, 0, 0, 0, 0, 0, 14],
        [8, 0, 0, 8_000_000, 0, 56, 14],
        [8, 0, 0, 0, 0, 0, 16],
        [1, 0, 0, 0, 0, 0, 14],
        [0, 0, 0, 0, 0, 0, 14],
    ];
    let expected: [&[u64]; 16] = [
        &[],
        &[7],
        &[7],
        &[],
        // The footer adds 2,040 + 625 + 80 + 300.
        &head(3_648),
        &[11],
        &[11],
        &[],
        &row,
        &[],
        // The count is 24 less, the flux 306 more.
        &head(3_930),
        &[],
        &[17],
        &[],
        // Without a duration, 140, and a count, 4.
        &head(3_786),
        &[],
    ];
    replays(&mut image, &calls, &words, &expected);
}

#[test]
fn a_rewrite_named_1_4_below_688_leaves_1_6_refusing() {
    // The duration lies at 684 to 687, where 1.6 has entry 167; 1.6 refuses index 0 before and after.
    let mut image = old_a();
    let calls = [[3, 0, 0, 0, 0, 0, 16], [8, 0, 0, 0, 0, 0, 14], [3, 0, 0, 0, 0, 0, 16], [4, 0, 0, 0, 0, 0, 14]];
    replays(&mut image, &calls, &[], &[&[10], &[], &[10], &[0, 0, 0, 0, 696]]);
    assert_eq!(image[680..692], [0x54, 0x52, 0x4B, 0, 0, 0, 0, 0, 0, 0, 0, 0]);
    // Where the track lies elsewhere, 680 to 687 are nobody's and no rewrite reaches them.
    let mut moved = old_a_with(0x10, &704_u32.to_le_bytes());
    moved.extend(A_TRACK);
    let calls = [[3, 0, 0, 0, 0, 0, 16], [8, 0, 0, 0, 0, 0, 14], [3, 0, 0, 0, 0, 0, 16]];
    replays(&mut moved, &calls, &[], &[&[9, 166], &[], &[9, 166]]);
}
