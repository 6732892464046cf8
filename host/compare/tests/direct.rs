//! Direct calls (DI-1 to DI-7): they answer on images that are faulty elsewhere, refuse in their own order, and do as the full calls do where
//! the image opens.

use scp::Edition::{self, V1_4, V1_6};
use scp::{direct, Refusal, Revolution, Track};
use scp_compare::cases::{agree, first_middle_last, revolutions};
use scp_compare::image::{duration_at, entry_at, number_at, set, FOOTER_SIZE};
use scp_compare::outside::{image, Style, CAPTURE, CAPTURE_1_4, FULL_1_4, OLD_CAPTURE, READ_WRITE, READ_WRITE_1_4, SINGLE_SIDED};
use scp_compare::question::{number, Asked};

/// Number and position of a refusal.
type Refused = (u8, u64);

/// The answers for a track, a revolution of it and its flux.
type Answers = (Result<Track, Refused>, Result<Revolution, Refused>, Result<Vec<u8>, Refused>);

/// Where the header has the number of revolutions, start and end track, FLAGS, width and heads.
const REVOLUTIONS: usize = 5;
const SPAN: usize = 6;
const END_TRACK: usize = 7;
const FLAGS: usize = 8;
const WIDTH: usize = 9;
const HEADS: usize = 10;

/// Tracks 0 to 3 of two revolutions, a string and a footer: valid by both editions.
const FOUR_TRACKS: Style = Style { last_track: 3, revolutions: 2, ..CAPTURE };

/// Tracks 0 to 3 of two revolutions behind the table of revision 1.4.
const FOUR_TRACKS_1_4: Style = Style { last_track: 3, revolutions: 2, ..CAPTURE_1_4 };

/// A refusal as its number and position.
fn plain<T>(answer: Result<T, Refusal>) -> Result<T, Refused> {
    answer.map_err(|refusal| (refusal.reason.number(), refusal.position))
}

/// What the direct calls answer.
fn directly(image: &[u8], edition: Edition, track: u32, revolution: u32) -> Answers {
    (
        plain(direct::track(image, edition, track)),
        plain(direct::revolution(image, edition, track, revolution)),
        plain(direct::flux(image, edition, track, revolution)).map(<[u8]>::to_vec),
    )
}

/// What the full calls answer.
fn fully(image: &[u8], edition: Edition, track: u32, revolution: u32) -> Answers {
    (
        plain(scp::track(image, edition, track)),
        plain(scp::revolution(image, edition, track, revolution)),
        plain(scp::flux(image, edition, track, revolution)).map(<[u8]>::to_vec),
    )
}

/// All three refused alike.
fn refused(number: u8, position: u64) -> Answers {
    let refusal = (number, position);
    (Err(refusal), Err(refusal), Err(refusal))
}

/// The image with other bytes from a place on.
fn with(image: &[u8], place: usize, bytes: &[u8]) -> Vec<u8> {
    let mut image = image.to_vec();
    set(&mut image, place, bytes);
    image
}

/// Where the data header of a track stands.
fn header_of(image: &[u8], track: usize) -> usize {
    number_at(image, entry_at(track)) as usize
}

/// Where the count of words of a revolution stands.
fn count_of(image: &[u8], track: usize, revolution: usize) -> usize {
    duration_at(header_of(image, track), revolution) + 4
}

/// The full calls are refused so, or not at all, and the direct ones answer for the tracks as the full ones do on the sound image.
fn answers_though_refused(name: &str, (image, edition): (&[u8], Edition), due: Option<Refused>, sound: &[u8], tracks: &[u32]) {
    for (&track, revolution) in tracks.iter().flat_map(|track| (0..4).map(move |revolution| (track, revolution))) {
        let asked = format!("{name}: revolution {revolution} of track {track} by {edition}");
        let wanted = fully(sound, edition, track, revolution);
        assert!(wanted.0.is_ok() && (wanted.1.is_ok() == (revolution < revolutions(sound))), "{asked}");
        let full = due.map_or(wanted.clone(), |(number, position)| refused(number, position));
        assert_eq!(fully(image, edition, track, revolution), full, "{asked}, the full call");
        assert_eq!(directly(image, edition, track, revolution), wanted, "{asked}");
    }
}

// ---- images faulty elsewhere

#[test]
fn what_is_wrong_elsewhere_does_not_matter() {
    let sound = image(&FOUR_TRACKS, 4);
    let (end, footer) = (sound.len(), sound.len() - FOOTER_SIZE);
    let string = number_at(&sound, footer + 4 * 4) as usize;
    let put = |place: usize, bytes: &[u8]| with(&sound, place, bytes);
    let all = [(end - 1, 0), (header_of(&sound, 1), 0), (string, 0xFF)].into_iter();
    let all = all.fold(sound.clone(), |image, (place, byte)| with(&image, place, &[byte]));
    for (name, image, due) in [
        ("sound", sound.clone(), [None, None]),
        ("another checksum", put(12, &[1, 2, 3, 4]), [None, None]),
        ("another sign in the footer", put(end - 1, b"X"), [None, Some((7, 0))]),
        ("a footer that is too old", put(footer + 0x2B, &[0x15]), [None, Some((7, 0))]),
        ("a string far away", put(footer + 4 * 4, &[0xFF; 4]), [None, Some((8, 4))]),
        ("a string in the table", put(footer + 4 * 5, &[16, 0, 0, 0]), [None, Some((8, 5))]),
        ("a string with a zero byte", put(string + 3, &[0]), [None, Some((8, 4))]),
        ("a string that is not closed", put(string, &[27, 0]), [None, Some((8, 4))]),
        ("a string that is no text", put(string + 3, &[0x97]), [None, Some((19, 4))]),
        ("an entry past the end track", put(entry_at(4), &[0xB0, 2, 0, 0]), [Some((9, 4)), Some((9, 4))]),
        ("an entry that 1.4 does not have", put(entry_at(166), &[0xB0, 2, 0, 0]), [None, Some((9, 166))]),
        ("another track far away", put(entry_at(1), &[0xFF; 4]), [Some((10, 1)), Some((10, 1))]),
        ("another track without its sign", put(header_of(&sound, 2), b"KRT"), [Some((10, 2)), Some((10, 2))]),
        ("another track with the number of this one", put(header_of(&sound, 1) + 3, &[0]), [Some((10, 1)), Some((10, 1))]),
        ("too many words in another track", put(count_of(&sound, 2, 1), &[0xFF; 4]), [Some((11, 2)), Some((11, 2))]),
        ("several of these", all, [Some((10, 1)), Some((7, 0))]),
    ] {
        agree(name, &image);
        for (edition, due) in Edition::ALL.into_iter().zip(due) {
            answers_though_refused(name, (&image, edition), due, &sound, &[0, 3]);
        }
    }
}

#[test]
fn what_is_wrong_elsewhere_in_an_image_of_1_4_does_not_matter() {
    let sound = image(&FOUR_TRACKS_1_4, 4);
    let put = |place: usize, bytes: &[u8]| with(&sound, place, bytes);
    for (name, image, due) in [
        ("sound", sound.clone(), None),
        ("a footer is flagged", put(FLAGS, &[0x21]), None),
        ("an entry past the end track", put(entry_at(165), &[0xA8, 2, 0, 0]), Some((9, 165))),
        ("another track without its sign", put(header_of(&sound, 1), b"KRT"), Some((10, 1))),
        ("another flux far away", put(count_of(&sound, 2, 0) + 4, &[0xFF; 4]), Some((11, 2))),
    ] {
        agree(name, &image);
        answers_though_refused(name, (&image, V1_4), due, &sound, &[0, 3]);
    }
}

#[test]
fn an_image_of_1_4_answers_by_1_6_for_tracks_behind_the_longer_table() {
    let sound = image(&FOUR_TRACKS_1_4, 4);
    for track in 1..4 {
        for revolution in 0..3 {
            assert_eq!(fully(&sound, V1_6, track, revolution), refused(10, 0));
            assert_eq!(directly(&sound, V1_6, track, revolution), fully(&sound, V1_4, track, revolution));
        }
    }
    // the header of track 0 starts where 1.6 has two more entries: "TRK" with the number 0, and a duration
    assert_eq!(directly(&sound, V1_6, 0, 0), refused(10, 0));
    for (track, by) in [(166, [(13, 0), (9, 166)]), (167, [(13, 0), (9, 167)]), (168, [(13, 0); 2])] {
        assert_eq!(Edition::ALL.map(|edition| directly(&sound, edition, track, 0)), by.map(|(number, at)| refused(number, at)));
    }
}

#[test]
fn a_footer_that_is_flagged_and_not_there_takes_its_48_bytes() {
    let sound = image(&Style { last_track: 3, revolutions: 2, timestamp: "", ..OLD_CAPTURE }, 4);
    let flagged = with(&sound, FLAGS, &[0x21]);
    // the last track has a header of 28 bytes and twice 8 bytes of flux, with which the image ends
    for free in 0..=FOOTER_SIZE + 2 {
        let longer = [&flagged[..], &vec![0; free]].concat();
        agree(&format!("{free} bytes behind the flux"), &longer);
        for revolution in 0..3 {
            let last = directly(&longer, V1_6, 3, revolution);
            if free < FOOTER_SIZE {
                let due = if free < FOOTER_SIZE - 16 { 10 } else { 11 };
                assert_eq!(last, refused(due, 3), "{free} bytes behind the flux");
            } else {
                assert_eq!(last, fully(&sound, V1_6, 3, revolution), "{free} bytes behind the flux");
            }
        }
        answers_though_refused("flagged", (&longer, V1_6), Some((7, 0)), &sound, &[0, 1]);
        answers_though_refused("flagged", (&longer, V1_4), None, &sound, &[0, 1, 2, 3]);
    }
}

#[test]
fn a_flagged_image_without_room_for_a_footer_has_no_track_by_1_6() {
    for size in 688..=735 {
        // one revolution, tracks 2 to 80, a footer; every third entry is 0, others are 688, where track 4 has a header without words,
        // the least or the length
        let mut image = with(&vec![0; size], 0, b"SCP\x16\x00\x01\x02\x50\x21");
        let entries = [0, 688, 1, 0, 688, size as u32];
        (0..168).for_each(|track| set(&mut image, entry_at(track), &entries[track % 6].to_le_bytes()));
        set(&mut image, 688, b"TRK\x04");
        agree(&format!("{size} bytes"), &image);
        for track in 0..=168 {
            let due = match track {
                _ if track == 168 || track % 3 == 0 => refused(13, 0),
                2..=80 => refused(10, track.into()),
                _ => refused(9, track.into()),
            };
            assert_eq!(fully(&image, V1_6, track, 0), refused(7, 0));
            assert_eq!(directly(&image, V1_6, track, 0), due, "track {track} of {size} bytes");
        }
        // by 1.4 the header has room from 704 bytes on
        let alone = directly(&image, V1_4, 4, 0);
        let track = Track { cylinder: 2, head: 0, offset: 688, revolutions: 1 };
        let found = (Ok(track), Ok(Revolution { duration: 0, words: 0, offset: 688 }), Ok(vec![]));
        assert_eq!(alone, if size < 704 { refused(10, 4) } else { found }, "{size} bytes");
    }
}

// ---- the order of refusals

/// The number that library and reader refuse a call with, by an edition.
fn number_by(image: &[u8], edition: Edition, asked: Asked) -> u32 {
    match number(image, &asked.clone().by(edition.number())) {
        Ok(number) => number,
        Err(difference) => panic!("{asked:?} by {edition}: {difference:?}"),
    }
}

#[test]
fn faults_of_the_header_come_first_and_in_order() {
    for (edition, style) in [(V1_4, FOUR_TRACKS_1_4), (V1_6, FOUR_TRACKS)] {
        let sound = image(&style, 4);
        let last = edition.tracks() - 1;
        // track 1 has no sign, track 4 lies past the end track, tracks 5 and above have entry 0
        let mut image = with(&with(&sound, header_of(&sound, 1), b"KRT"), entry_at(4), &[1, 0, 0, 0]);
        let tracks = [0, 1, 4, 5, last, last + 1, 168, u32::MAX];
        let due = tracks.map(|track| match track {
            0 => fully(&sound, edition, 0, 2),
            1 => refused(10, 1),
            4 => refused(9, 4),
            _ => refused(13, 0),
        });
        assert_eq!(tracks.map(|track| directly(&image, edition, track, 2)), due, "by {edition}");
        let faults = [(6, HEADS, 3), (5, END_TRACK, last as u8 + 1), (4, REVOLUTIONS, 0), (3, WIDTH, 8), (2, 0, b's')];
        for (due, place, byte) in faults {
            image[place] = byte;
            agree(&format!("{due} and above"), &image);
            tracks.into_iter().for_each(|track| assert_eq!(directly(&image, edition, track, 2), refused(due, 0), "by {edition}"));
        }
        for size in [0, 1, 16, edition.table_end() - 1] {
            let short = &image[..size];
            agree(&format!("{size} bytes"), short);
            tracks.into_iter().for_each(|track| assert_eq!(directly(short, edition, track, 2), refused(1, 0), "by {edition}"));
        }
    }
}

#[test]
fn an_absent_track_comes_before_its_place_in_the_span() {
    for (edition, style) in [(V1_4, FOUR_TRACKS_1_4), (V1_6, FOUR_TRACKS)] {
        let sound = image(&style, 4);
        // of tracks 0 to 3 none lies in another span, and on one side every other one; all others have entry 0 or none
        for (name, place, bytes, held) in [
            ("tracks 80 and 81", SPAN, &[80, 81][..], [false, false]),
            ("track 80", SPAN, &[80, 80], [false, false]),
            ("side 0", HEADS, &[1], [true, false]),
            ("side 1", HEADS, &[2], [false, true]),
        ] {
            let image = with(&sound, place, bytes);
            agree(name, &image);
            for track in 0..=168 {
                let due = match track {
                    0..=3 if held[track as usize % 2] => fully(&sound, edition, track, 0),
                    0..=3 => refused(9, track.into()),
                    _ => refused(13, 0),
                };
                assert_eq!(directly(&image, edition, track, 0), due, "{name}: track {track} by {edition}");
            }
        }
    }
}

#[test]
fn a_fault_of_the_track_comes_before_the_revolution_asked_for() {
    for (edition, style) in [(V1_4, FOUR_TRACKS_1_4), (V1_6, FOUR_TRACKS)] {
        let mut image = image(&style, 4);
        assert_eq!(directly(&image, edition, 1, 2).1, Err((14, 0)));
        // 11 of its last revolution, then 10, then 9, each beside those before
        let faults = [(11, count_of(&image, 1, 1) + 3, 0x7F), (10, header_of(&image, 1), b't'), (9, END_TRACK, 0)];
        for (due, place, byte) in faults {
            image[place] = byte;
            agree(&format!("{due} and above"), &image);
            for revolution in [0, 1, 2, 3, 255, 256, u32::MAX] {
                assert_eq!(directly(&image, edition, 1, revolution), refused(due, 1), "revolution {revolution} by {edition}");
            }
            assert_eq!(directly(&image, edition, 4, 2), refused(13, 0));
        }
    }
}

#[test]
fn a_fault_of_any_of_its_revolutions_refuses_a_track() {
    let sound = image(&Style { last_track: 2, revolutions: 255, ..CAPTURE }, 1);
    for bad in [0, 1, 127, 128, 253, 254] {
        for (offset, bytes) in [(0, &[0xFF; 4]), (4, &[0xFF; 4])] {
            let image = with(&sound, count_of(&sound, 1, bad) + offset, bytes);
            for edition in Edition::ALL {
                for revolution in [0, 1, 2, 126, 127, 128, 129, 252, 253, 254, 255, 256] {
                    assert_eq!(directly(&image, edition, 1, revolution), refused(11, 1), "{bad} is bad, {revolution} asked for");
                    assert_eq!(directly(&image, edition, 2, revolution), fully(&sound, edition, 2, revolution));
                }
                let asked = [Asked::DirectRevolution { track: 1, revolution: 0, places: 3 }, Asked::DirectTrack { track: 1, places: 4 }];
                asked.into_iter().for_each(|asked| assert_eq!(number_by(&image, edition, asked), 11));
            }
        }
    }
}

#[test]
fn places_come_last() {
    let sound = image(&FOUR_TRACKS, 4);
    let wordless = with(&sound, count_of(&sound, 2, 0), &[0; 4]);
    let spoilt = with(&wordless, header_of(&sound, 1), b"KRT");
    let one_track = |track, places| Asked::DirectTrack { track, places };
    let revolution = |track, revolution, places| Asked::DirectRevolution { track, revolution, places };
    let flux = |track, revolution, places| Asked::DirectFlux { track, revolution, places };
    for edition in Edition::ALL {
        for (asked, due) in [
            (one_track(0, 4), 0),
            (one_track(0, 3), 15),
            (one_track(0, 0), 15),
            (one_track(1, 0), 10),
            (one_track(4, 0), 13),
            (one_track(168, 0), 13),
            (revolution(0, 1, 3), 0),
            (revolution(0, 1, 2), 15),
            (revolution(0, 1, 0), 15),
            (revolution(0, 2, 0), 14),
            (revolution(1, 2, 0), 10),
            (revolution(4, 2, 0), 13),
            (flux(0, 1, 8), 0),
            (flux(0, 1, 7), 15),
            (flux(0, 1, 0), 15),
            (flux(0, 2, 0), 14),
            (flux(1, 0, 0), 10),
            (flux(4, 0, 0), 13),
            (flux(2, 0, 0), 0),
            (flux(2, 1, 0), 15),
        ] {
            assert_eq!(number_by(&spoilt, edition, asked.clone()), due, "{asked:?} by {edition}");
            assert_eq!(number_by(&[], edition, asked.clone()), 1, "{asked:?} by {edition}");
        }
    }
}

// ---- direct calls beside full ones

/// Where the image opens by an edition, every direct answer is the full one; where it does not, every full call is refused as opening is.
/// Gives how many revolutions were answered.
fn beside_full(name: &str, image: &[u8]) -> usize {
    let mut answered = 0;
    for edition in Edition::ALL {
        let opened = plain(scp::header(image, edition));
        for track in (0..=169).chain([255, 256, u32::MAX]) {
            for revolution in (0..=revolutions(image)).chain([255, 256, u32::MAX]) {
                let (direct, full) = (directly(image, edition, track, revolution), fully(image, edition, track, revolution));
                match opened {
                    Ok(_) => assert_eq!(direct, full, "{name}: revolution {revolution} of track {track} by {edition}"),
                    Err((number, position)) => assert_eq!(full, refused(number, position), "{name} by {edition}"),
                }
                answered += usize::from(direct.1.is_ok());
            }
        }
    }
    answered
}

#[test]
fn layouts_of_real_tools_answer_alike() {
    // how many tracks there are by its own edition, and by the other: for 1.4 the end track is too high or all is well, for 1.6 the first
    // track is too low
    for (name, style, tracks, by_other) in [
        ("capture", CAPTURE, 160, 160),
        ("all tracks", Style { last_track: 167, ..CAPTURE }, 168, 0),
        ("old", OLD_CAPTURE, 160, 160),
        ("one side", SINGLE_SIDED, 80, 80),
        ("read/write", READ_WRITE, 160, 160),
        ("capture by 1.4", CAPTURE_1_4, 160, 159),
        ("all tracks by 1.4", FULL_1_4, 166, 165),
        ("read/write by 1.4", READ_WRITE_1_4, 83, 82),
    ] {
        let image = image(&style, 40);
        assert_eq!(scp::validate(&image, style.edition), Ok(()), "{name}");
        let answered = beside_full(name, &image) / usize::from(style.revolutions);
        assert_eq!(answered, tracks + by_other, "{name}");
    }
}

#[test]
fn image_a_and_the_stored_images_answer_alike() {
    assert_eq!(beside_full("image A", &scp::example::image_a()), 2);
    assert_eq!(beside_full("image A by 1.4", &scp::example::image_a_1_4()), 1);
    for folder in ["../../crates/scp_test/data", "../../crates/rewrite_test/data"] {
        for file in std::fs::read_dir(folder).expect("the folder is there") {
            let file = file.unwrap().path();
            beside_full(&file.display().to_string(), &std::fs::read(&file).unwrap());
        }
    }
}

#[test]
fn the_most_tracks_of_the_most_revolutions_answer_alike() {
    for (edition, style) in [(V1_4, CAPTURE_1_4), (V1_6, CAPTURE)] {
        let last = edition.tracks() - 1;
        let sound = image(&Style { revolutions: 255, last_track: last as u8, ..style }, 3);
        let (tracks, revolutions) = ([0, last / 2, last], first_middle_last(&sound));
        let asked = || tracks.into_iter().flat_map(|track| revolutions.map(|revolution| (track, revolution)));
        for (track, revolution) in asked() {
            let full = fully(&sound, edition, track, revolution);
            assert!(full.2.is_ok(), "revolution {revolution} of track {track} by {edition}");
            assert_eq!(directly(&sound, edition, track, revolution), full, "revolution {revolution} of track {track} by {edition}");
        }
        for (track, revolution) in [(0, 255), (last, 255), (last, 256), (last + 1, 0), (168, 254)] {
            assert_eq!(directly(&sound, edition, track, revolution), fully(&sound, edition, track, revolution));
        }
        // one word too many in the last revolution of the track below the last
        let below = last as usize - 1;
        let spoilt = with(&sound, count_of(&sound, below, 254) + 3, &[1]);
        for (track, revolution) in asked() {
            assert_eq!(fully(&spoilt, edition, track, revolution), refused(11, below as u64));
            assert_eq!(directly(&spoilt, edition, track, revolution), fully(&sound, edition, track, revolution));
        }
        assert_eq!(directly(&spoilt, edition, below as u32, 0), refused(11, below as u64));
    }
}
