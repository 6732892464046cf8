//! Images of few and of many revolutions, read-only and read/write (L-3, R-4): validated, read, rewritten, and compared.

use scp::Edition;
use scp_compare::cases::{agree, answer_some, first_middle_last, revolutions};
use scp_compare::edition::{V1_4, V1_6};
use scp_compare::image::{duration_at, set, store_checksum};
use scp_compare::outside::{image, Style, CAPTURE};
use scp_compare::question::{compare, number, Asked, Question};
use scp_compare::sequence::{ANSWER, CALL};

/// The numbers of revolutions that are tried.
const NUMBERS: [u8; 7] = [0, 1, 5, 6, 9, 200, 255];

/// Three tracks of so many revolutions.
fn three_tracks(revolutions: u8, read_write: bool) -> Style {
    let flags = if read_write { CAPTURE.flags | 0x10 } else { CAPTURE.flags };
    Style { revolutions, flags, last_track: 2, ..CAPTURE }
}

/// The images of three tracks that are accepted.
fn accepted() -> Vec<Vec<u8>> {
    let read_only = NUMBERS.into_iter().filter(|&revolutions| revolutions > 0).map(|revolutions| three_tracks(revolutions, false));
    read_only.chain([three_tracks(1, true)]).map(|style| image(&style, 4)).collect()
}

/// What a revolution reads as: its duration and its words.
fn reading(image: &[u8], track: u32, revolution: u32) -> (u32, Vec<u8>) {
    let found = scp::revolution(image, Edition::V1_6, track, revolution).unwrap();
    (found.duration, scp::flux(image, Edition::V1_6, track, revolution).unwrap().to_vec())
}

#[test]
fn zero_revolutions_and_several_on_a_read_write_image_are_refused_with_4() {
    for revolutions in NUMBERS {
        for read_write in [false, true] {
            let name = format!("{revolutions} revolutions, read/write {read_write}");
            let image = image(&three_tracks(revolutions, read_write), 4);
            let refused = revolutions == 0 || read_write && revolutions > 1;
            let mut asked = vec![Asked::Validate];
            for (track, revolution) in (0..3).zip(first_middle_last(&image)) {
                asked.push(Asked::Revolution { track, revolution, places: 3 });
                asked.push(Asked::Rewrite { track, revolution, duration: 1, words: vec![0, 1] });
            }
            for question in asked.into_iter().flat_map(|asked| [asked.clone().by(V1_4), asked.by(V1_6)]) {
                assert_eq!(number(&image, &question), Ok(if refused { 4 } else { 0 }), "{name}: {question:?}");
            }
            agree(&name, &image);
        }
    }
}

#[test]
fn the_first_the_middle_and_the_last_are_rewritten_and_the_others_stay() {
    for before in accepted() {
        let count = revolutions(&before);
        let mut after = before.clone();
        let mut expected = Vec::new();
        for (track, revolution) in (0..3).zip(first_middle_last(&before)) {
            let (duration, words) = (1000 + track, vec![1, 2, 3, 4, track as u8, revolution as u8]);
            let question = Asked::Rewrite { track, revolution, duration, words: words.clone() }.by(V1_6);
            assert_eq!(number(&after, &question), Ok(0), "{count} revolutions: {question:?}");
            scp::rewrite(&mut after, Edition::V1_6, track, revolution, duration, &words).unwrap();
            expected.push(((track, revolution), (duration, words)));
        }
        assert_eq!(scp::validate(&after, Edition::V1_6), Ok(()), "{count} revolutions");
        for place @ (track, revolution) in (0..3).flat_map(|track| (0..count).map(move |revolution| (track, revolution))) {
            let rewritten = expected.iter().find(|(at, _)| *at == place).map(|(_, reading)| reading.clone());
            let due = rewritten.unwrap_or_else(|| reading(&before, track, revolution));
            assert_eq!(reading(&after, track, revolution), due, "{count} revolutions: {place:?}");
        }
    }
}

#[test]
fn a_sequence_of_calls_reaches_the_last_revolution() {
    for image in accepted() {
        let count = revolutions(&image);
        let mut calls = Vec::new();
        for revolution in first_middle_last(&image).into_iter().chain([count]) {
            // a rewrite; revolution, flux, speed, the track's speeds, validating
            for kind in [8, 4, 5, 6, 7, 0] {
                calls.extend([kind, 2, revolution.into(), 7, 0, 2, V1_6.into()]);
            }
        }
        let places = ANSWER * calls.len() / CALL;
        let agreed = compare(&image, &Question::Sequence { calls, words: vec![0, 5], places }).unwrap();
        let absent = [14, 14, 14, 14, 0, 0];
        assert_eq!(agreed.rows, [[0; 6], [0; 6], [0; 6], absent].concat(), "{count} revolutions");
    }
}

#[test]
fn what_refuses_the_last_of_255_revolutions() {
    let sound = image(&Style { last_track: 0, flags: 0x01, timestamp: "", ..three_tracks(255, false) }, 1);
    // its header of 3,064 bytes ends at 3,752, and the flux of its last revolution at 4,262
    let header = Edition::V1_6.table_end();
    let (first, last) = (duration_at(header, 0), duration_at(header, 254));
    assert_eq!((last + 12, sound.len()), (3_752, 4_262));
    let rewrite = |revolution| Asked::Rewrite { track: 0, revolution, duration: 1, words: vec![0, 1] };
    let asked = [Asked::Validate, rewrite(0), rewrite(127), rewrite(254), rewrite(255)].map(|asked| asked.by(V1_6));
    let count = |words: u32| (last + 4, words);
    for (name, size, (place, value), due) in [
        ("sound", 4_262, count(1), [0, 0, 0, 0, 14]),
        ("its header a byte too short", 3_751, count(1), [10; 5]),
        ("its header in place, its flux not there", 3_752, count(1), [11; 5]),
        ("the last flux a byte too short", 4_261, count(1), [11; 5]),
        ("the last flux a word longer", 4_262, count(2), [11; 5]),
        ("the last count 2^31", 4_262, count(1 << 31), [11; 5]),
        ("the last count the largest", 4_262, count(u32::MAX), [11; 5]),
        ("the last distance the largest", 4_262, (last + 8, u32::MAX), [11; 5]),
        ("the last flux at 2^32", 4_262, (last + 8, 688_u32.wrapping_neg()), [11; 5]),
        ("no flux in the last", 4_262, count(0), [0, 0, 0, 17, 14]),
        ("the last flux is the first", 4_262, (last + 8, 3_064), [0, 18, 0, 18, 14]),
        ("the first flux on the duration of the last", 4_262, (first + 8, 3_052), [0, 18, 0, 18, 14]),
        ("the first flux on the distance of the last", 4_262, (first + 8, 3_060), [0, 18, 0, 0, 14]),
    ] {
        let mut image = sound[..size].to_vec();
        set(&mut image, place, &value.to_le_bytes());
        store_checksum(&mut image);
        assert_eq!(asked.clone().map(|question| number(&image, &question).unwrap()), due, "{name}");
        agree(name, &image);
    }
}

#[test]
fn a_capture_of_nine_revolutions_in_its_real_size_is_read_and_rewritten() {
    // 80 cylinders, 200 ms a revolution: 33,333 intervals of 240 ticks on average
    let capture = image(&Style { revolutions: 9, ..CAPTURE }, 33_333);
    assert!(capture.len() > 90_000_000, "{} bytes", capture.len());
    answer_some(&capture, Edition::V1_6, 159);
    let flux = scp::flux(&capture, Edition::V1_6, 159, 8).unwrap();
    assert_eq!(number(flux, &Question::Intervals { times: 33_333, places: 2 }), Ok(0));
    assert_eq!(number(flux, &Question::ClosedIntervals { times: 33_333, closings: 33_333, places: 2 }), Ok(0));
}

#[test]
fn the_most_tracks_of_the_most_revolutions_are_read_and_rewritten() {
    let image = image(&Style { revolutions: 255, last_track: 167, ..CAPTURE }, 3);
    answer_some(&image, Edition::V1_6, 167);
}
