//! The direct calls of Q-1 under both editions; expected values by hand, or those of the full calls on an image that opens.

mod common;

use common::{put, put_revolution, refused, revolutions_of_track_0};
use scp_reader::Edition::{V1_4, V1_6};
use scp_reader::*;

/// The editions, each with the end T of its table and its last track.
const EDITIONS: [(Edition, u32, u8); 2] = [(V1_4, 680, 165), (V1_6, 688, 167)];

/// The place of a track's table entry.
fn entry_of(track: u32) -> usize {
    0x10 + 4 * track as usize
}

/// Sets a track's table entry.
fn put_entry(image: &mut [u8], track: u32, place: u32) {
    put(image, entry_of(track), &place.to_le_bytes());
}

/// Tracks 2 and 5, start 1, end 6, R = 2; the table ends at T.
/// Track data headers at T and T + 36; flux of track 2 at T + 28 and T + 32, of track 5 at T + 64 and T + 68; T + 72 bytes.
fn two_tracks(table_end: u32) -> Vec<u8> {
    let end = table_end as usize;
    let mut image = vec![0; end + 72];
    put(&mut image, 0, b"SCP\x16\x00\x02\x01\x06\x01");
    put_entry(&mut image, 2, table_end);
    put_entry(&mut image, 5, table_end + 36);
    put(&mut image, end, b"TRK\x02");
    put_revolution(&mut image, end + 4, [8_000_000, 2, 28]);
    put_revolution(&mut image, end + 16, [6_666_666, 2, 32]);
    put(&mut image, end + 28, &[0, 1, 0, 2, 0, 3, 0, 4]);
    put(&mut image, end + 36, b"TRK\x05");
    put_revolution(&mut image, end + 40, [0, 2, 28]);
    put_revolution(&mut image, end + 52, [9, 2, 32]);
    put(&mut image, end + 64, &[0, 5, 0, 6, 0, 7, 0, 0]);
    image
}

/// A footer with these string offsets.
fn footer_of(offsets: [u32; 6]) -> Vec<u8> {
    let mut bytes = offsets.map(u32::to_le_bytes).concat();
    bytes.extend([0; 16]);
    bytes.extend(b"\x00\x00\x00\x16FPCS");
    bytes
}

/// The two tracks with FLAGS bit 5, the string "hi" at T + 72, and a footer at T + 77 that has it as the model.
fn with_footer(table_end: u32) -> Vec<u8> {
    let mut image = two_tracks(table_end);
    put(&mut image, 8, &[0x21]);
    image.extend(b"\x02\x00hi\x00");
    image.extend(footer_of([0, table_end + 72, 0, 0, 0, 0]));
    image
}

/// A copy with some bytes changed.
fn changed(image: &[u8], place: usize, bytes: &[u8]) -> Vec<u8> {
    let mut copy = image.to_vec();
    put(&mut copy, place, bytes);
    copy
}

/// The answers for a track, for a revolution of it, and for its flux.
type Answers = (Result<Track, Refusal>, Result<Revolution, Refusal>, Result<Vec<u8>, Refusal>);

/// The answers of the direct calls.
fn directly(image: &[u8], edition: Edition, track: u32, revolution: u32) -> Answers {
    (
        direct::track(image, edition, track),
        direct::revolution(image, edition, track, revolution),
        direct::flux(image, edition, track, revolution),
    )
}

/// The answers of the full calls.
fn fully(image: &[u8], edition: Edition, track: u32, revolution: u32) -> Answers {
    (
        scp_reader::track(image, edition, track),
        scp_reader::revolution(image, edition, track, revolution),
        scp_reader::flux(image, edition, track, revolution),
    )
}

/// All three direct calls refuse alike.
fn refuses(image: &[u8], edition: Edition, (track, revolution): (u32, u32), number: u32, position: u64) {
    let expected = (refused(number, position), refused(number, position), refused(number, position));
    assert_eq!(directly(image, edition, track, revolution), expected);
}

/// The image opens, and the direct answers for all tracks and revolutions are the full ones.
fn opens_and_agrees(image: &[u8], edition: Edition) {
    let count = u32::from(header(image, edition).unwrap().revolutions);
    for track in (0..=168).chain([255, 256, 258, 261, u32::MAX]) {
        for revolution in [0, 1, count - 1, count, count + 1, 256, u32::MAX] {
            assert_eq!(directly(image, edition, track, revolution), fully(image, edition, track, revolution));
        }
    }
}

/// The full call refuses, but the direct answers for tracks 2 and 5 are those of the sound two tracks.
fn answers_though_refused(image: &[u8], edition: Edition, table_end: u32, number: u32, position: u64) {
    assert_eq!(header(image, edition), refused(number, position));
    answers_as_sound(image, edition, table_end, &[2, 5]);
}

/// The direct answers for these tracks are those of the sound two tracks.
fn answers_as_sound(image: &[u8], edition: Edition, table_end: u32, tracks: &[u32]) {
    for &track in tracks {
        for revolution in 0..=2 {
            assert_eq!(directly(image, edition, track, revolution), fully(&two_tracks(table_end), edition, track, revolution));
        }
    }
}

#[test]
fn direct_answers_of_two_tracks() {
    for (edition, end, _) in EDITIONS {
        let image = two_tracks(end);
        let at = u64::from(end);
        assert_eq!(direct::track(&image, edition, 2), Ok(Track { cylinder: 1, head: 0, place: at, revolutions: 2 }));
        assert_eq!(direct::track(&image, edition, 5), Ok(Track { cylinder: 2, head: 1, place: at + 36, revolutions: 2 }));
        let answer = |duration, place| Ok(Revolution { duration, words: 2, place });
        assert_eq!(direct::revolution(&image, edition, 2, 0), answer(8_000_000, at + 28));
        assert_eq!(direct::revolution(&image, edition, 2, 1), answer(6_666_666, at + 32));
        assert_eq!(direct::revolution(&image, edition, 5, 0), answer(0, at + 64));
        assert_eq!(direct::revolution(&image, edition, 5, 1), answer(9, at + 68));
        assert_eq!(direct::flux(&image, edition, 2, 0), Ok(vec![0, 1, 0, 2]));
        assert_eq!(direct::flux(&image, edition, 2, 1), Ok(vec![0, 3, 0, 4]));
        assert_eq!(direct::flux(&image, edition, 5, 0), Ok(vec![0, 5, 0, 6]));
        assert_eq!(direct::flux(&image, edition, 5, 1), Ok(vec![0, 7, 0, 0]));
    }
}

#[test]
fn direct_answers_are_the_full_ones_where_the_image_opens() {
    for (edition, end, last) in EDITIONS {
        let image = two_tracks(end);
        let at = end as usize;
        opens_and_agrees(&image, edition);
        opens_and_agrees(&with_footer(end), edition);
        // A wrong checksum; start and end just around the tracks, and as far apart as can be.
        opens_and_agrees(&changed(&image, 0x0C, &[0xFF; 4]), edition);
        opens_and_agrees(&changed(&image, 6, &[2, 5]), edition);
        opens_and_agrees(&changed(&image, 6, &[0, last]), edition);
        // Empty flux at the end; the flux of one track on its own header and on that of the other.
        opens_and_agrees(&changed(&image, at + 44, &[0, 0, 0, 0, 36]), edition);
        opens_and_agrees(&changed(&image, at + 8, &[36, 0, 0, 0, 0]), edition);
        // One side: of the two tracks one is taken out.
        for (heads, gone) in [(1, 5), (2, 2)] {
            let mut side = changed(&image, 0x0A, &[heads]);
            put_entry(&mut side, gone, 0);
            opens_and_agrees(&side, edition);
        }
        // Read/write, with one revolution.
        opens_and_agrees(&changed(&image, 5, &[1, 1, 6, 0x11]), edition);
        // No track at all.
        let mut none = image[..at].to_vec();
        put_entry(&mut none, 2, 0);
        put_entry(&mut none, 5, 0);
        opens_and_agrees(&none, edition);
        for count in [1, 6, 255] {
            opens_and_agrees(&revolutions_of_track_0(end, count), edition);
        }
    }
}

/// The image with nothing in it but one track: all other entries are 0, and a footer that is flagged is sound, without strings.
fn alone(image: &[u8], edition: Edition, track: u32) -> Vec<u8> {
    let mut copy = image.to_vec();
    let last = if edition == V1_4 { 165 } else { 167 };
    for other in (0..=last).filter(|&other| other != track) {
        put_entry(&mut copy, other, 0);
    }
    if edition == V1_6 && image[8] & 0x20 != 0 {
        put(&mut copy, image.len() - 48, &footer_of([0; 6]));
    }
    copy
}

/// The direct answers for some tracks are the full ones on each of them alone.
fn agrees_alone(image: &[u8], edition: Edition) {
    for track in [2, 5, 166] {
        let alone = alone(image, edition, track);
        for revolution in [1, 2] {
            assert_eq!(directly(image, edition, track, revolution), fully(&alone, edition, track, revolution));
        }
    }
}

/// They are so with any byte of the image changed.
fn agrees_alone_when_changed(image: &[u8], edition: Edition) {
    for (place, &byte) in image.iter().enumerate() {
        for other in [0, 0x21, 0xFF].into_iter().filter(|&other| other != byte) {
            agrees_alone(&changed(image, place, &[other]), edition);
        }
    }
}

#[test]
fn direct_answers_are_the_full_ones_on_the_track_alone_whatever_byte_is_changed() {
    for (edition, end, _) in EDITIONS {
        let mut image = with_footer(end);
        agrees_alone_when_changed(&image, edition);
        // With a string that is not closed, a footer without its sign, and a track 3 in the header.
        put(&mut image, end as usize + 76, b"!");
        *image.last_mut().unwrap() = 0;
        put_entry(&mut image, 3, 2);
        agrees_alone_when_changed(&image, edition);
    }
}

#[test]
fn other_bytes_are_not_looked_at() {
    for (edition, end, _) in EDITIONS {
        let image = with_footer(end);
        let at = end as usize;
        for (track, start) in [(2, at), (5, at + 36)] {
            let looked_at = |place: usize| {
                let entry = entry_of(track);
                place < 0x10 || (entry..entry + 4).contains(&place) || (start..start + 28).contains(&place)
            };
            let (data, found, flux) = fully(&image, edition, track, 1);
            for place in (0..image.len()).filter(|&place| !looked_at(place)) {
                let other = directly(&changed(&image, place, &[!image[place]]), edition, track, 1);
                assert_eq!((&other.0, &other.1), (&data, &found));
                // But for the flux itself, at 32 to 35 in the track.
                assert_eq!(other.2 == flux, !(start + 32..start + 36).contains(&place));
            }
        }
    }
}

#[test]
fn a_bad_string_is_not_looked_at() {
    let image = with_footer(688);
    // Without its closing zero, with a zero inside, and longer than the room.
    for (place, byte) in [(764, 1), (763, 0), (760, 3)] {
        answers_though_refused(&changed(&image, place, &[byte]), V1_6, 688, 8, 1);
    }
    for offset in [1_u32, 687, 764, 765, u32::MAX] {
        for index in 0..6 {
            let string = changed(&image, 765 + 4 * index, &offset.to_le_bytes());
            answers_though_refused(&string, V1_6, 688, 8, index as u64);
        }
    }
}

#[test]
fn a_bad_footer_is_not_looked_at_but_e_is_48_less() {
    let image = with_footer(688);
    let length = image.len();
    // Two letters of the sign, and the format.
    for (place, byte) in [(length - 4, b'f'), (length - 1, b'T'), (length - 5, 0x15), (length - 5, 0)] {
        let bad = changed(&image, place, &[byte]);
        answers_though_refused(&bad, V1_6, 688, 7, 0);
        for image in [&image, &bad] {
            // E is 765. The flux of revolution 1 of track 5, at 756, has 4 words below it; at 757 they end there.
            let full = changed(image, 744, &[4]);
            assert_eq!(direct::flux(&full, V1_6, 5, 1).unwrap(), full[756..764]);
            refuses(&changed(image, 744, &[5]), V1_6, (5, 1), 11, 5);
            let full = changed(image, 744, &[4, 0, 0, 0, 33]);
            assert_eq!(direct::flux(&full, V1_6, 5, 1).unwrap(), full[757..765]);
            refuses(&changed(image, 744, &[4, 0, 0, 0, 34]), V1_6, (5, 1), 11, 5);
            // No words, at E and above.
            let empty = changed(image, 744, &[0, 0, 0, 0, 41]);
            assert_eq!(direct::revolution(&empty, V1_6, 5, 1), Ok(Revolution { duration: 9, words: 0, place: 765 }));
            refuses(&changed(image, 744, &[0, 0, 0, 0, 42]), V1_6, (5, 1), 11, 5);
        }
    }
    // A track data header up to E, then a byte further.
    let mut low = changed(&image, length - 1, b"T");
    for (place, fits) in [(737, true), (738, false)] {
        put_entry(&mut low, 6, place);
        put(&mut low, place as usize, b"TRK\x06");
        put(&mut low, place as usize + 4, &[0; 24]);
        assert_eq!(direct::track(&low, V1_6, 6).is_ok(), fits);
        if !fits {
            refuses(&low, V1_6, (6, 0), 10, 6);
        }
    }
}

#[test]
fn flags_bit_5_is_ignored_under_1_4() {
    // No footer at all; the last flux ends with the image.
    let flagged = changed(&two_tracks(680), 8, &[0x21]);
    assert_eq!(header(&flagged, V1_4).unwrap().flags, 0x21);
    answers_as_sound(&flagged, V1_4, 680, &[2, 5]);
    opens_and_agrees(&flagged, V1_4);
    refuses(&changed(&flagged, 736, &[3]), V1_4, (5, 1), 11, 5);
    // With what 1.6 has as the footer: the 28 words at 749 reach to its last byte.
    let mut image = with_footer(680);
    put_revolution(&mut image, 732, [9, 28, 33]);
    assert_eq!(direct::flux(&image, V1_4, 5, 1).unwrap(), image[749..805]);
    put_revolution(&mut image, 732, [9, 28, 34]);
    refuses(&image, V1_4, (5, 1), 11, 5);
}

#[test]
fn a_flagged_image_without_its_footer_has_e_below_its_flux() {
    // 760 bytes; E is 712. The header of track 2 ends at 716.
    let flagged = changed(&two_tracks(688), 8, &[0x21]);
    assert_eq!(header(&flagged, V1_6), refused(7, 0));
    refuses(&flagged, V1_6, (2, 0), 10, 2);
    refuses(&flagged, V1_6, (5, 0), 10, 5);
    refuses(&flagged, V1_6, (6, 0), 13, 0);
    // 764 bytes: the header fits, the flux does not. 768: that of revolution 0 does; 772: all of it.
    let longer = |length| {
        let mut image = flagged.clone();
        image.resize(length, 0);
        image
    };
    refuses(&longer(763), V1_6, (2, 0), 10, 2);
    refuses(&longer(764), V1_6, (2, 0), 11, 2);
    refuses(&longer(768), V1_6, (2, 0), 11, 2);
    refuses(&longer(771), V1_6, (2, 0), 11, 2);
    answers_as_sound(&longer(772), V1_6, 688, &[2]);
    refuses(&longer(772), V1_6, (5, 0), 10, 5);
    assert_eq!(header(&longer(772), V1_6), refused(7, 0));
}

#[test]
fn a_flagged_image_of_688_to_735_bytes_refuses_every_entry_under_1_6() {
    for length in 688..736 {
        for place in [1, 15, 600, 623, 624, 639, 640, 671, 679, 680, 687, 688, 704, 719, 720, 735, u32::MAX] {
            // R = 1, start 4, end 5; the header has no words, and stands there as far as there is room.
            let mut image = vec![0; length];
            if let Some(room) = image.get_mut(place as usize..) {
                room.iter_mut().zip(b"TRK\x04").for_each(|(byte, &letter)| *byte = letter);
            }
            put(&mut image, 0, b"SCP\x16\x00\x01\x04\x05\x20\x00\x00\x00\x00\x00\x00\x00");
            for (track, entry) in [(3, place), (4, place), (5, 0), (6, 0)] {
                put_entry(&mut image, track, entry);
            }
            assert_eq!(header(&image, V1_6), refused(7, 0));
            refuses(&image, V1_6, (4, 0), 10, 4);
            refuses(&image, V1_6, (4, 1), 10, 4);
            refuses(&image, V1_6, (3, 0), 9, 3);
            refuses(&image, V1_6, (5, 0), 13, 0);
            refuses(&image, V1_6, (6, 0), 13, 0);
            refuses(&image, V1_6, (168, 0), 13, 0);
            // Under 1.4 the same bytes answer where the header has room.
            let fits = place >= 680 && u64::from(place) + 16 <= length as u64;
            let expected = Ok(Track { cylinder: 2, head: 0, place: u64::from(place), revolutions: 1 });
            assert_eq!(direct::track(&image, V1_4, 4), if fits { expected } else { refused(10, 4) });
        }
    }
}

#[test]
fn a_flagged_image_answers_from_752_bytes_on_under_1_6() {
    for length in 736..760 {
        let mut image = vec![0; length];
        put(&mut image, 0, b"SCP\x16\x00\x01\x04\x05\x20");
        put_entry(&mut image, 4, 688);
        put(&mut image, 688, b"TRK\x04");
        assert_eq!(header(&image, V1_6), refused(7, 0));
        if length < 752 {
            refuses(&image, V1_6, (4, 0), 10, 4);
        } else {
            assert_eq!(direct::revolution(&image, V1_6, 4, 0), Ok(Revolution { duration: 0, words: 0, place: 688 }));
        }
    }
}

#[test]
fn another_bad_track_is_not_looked_at() {
    for (edition, end, _) in EDITIONS {
        let image = two_tracks(end);
        let at = end as usize;
        // Each of 9, 10 and 11, at an index before, between and behind the two tracks.
        for (index, number) in [(0, 9), (1, 10), (3, 10), (4, 10), (6, 10), (7, 9), (165, 9)] {
            let mut bad = image.clone();
            put_entry(&mut bad, index, 1);
            answers_though_refused(&bad, edition, end, number, u64::from(index));
            refuses(&bad, edition, (index, 0), number, u64::from(index));
        }
        // One of the two tracks itself: on a side not held, without its sign or number, with its flux past the end.
        let heads = |byte| changed(&image, 0x0A, &[byte]);
        let bad = [
            (heads(1), 9, 5),
            (heads(2), 9, 2),
            (changed(&image, at + 2, b"k"), 10, 2),
            (changed(&image, at + 39, &[6]), 10, 5),
            (changed(&image, at + 12, &[69]), 11, 2),
            (changed(&image, at + 56, &[3]), 11, 5),
        ];
        for (image, number, index) in bad {
            assert_eq!(header(&image, edition), refused(number, u64::from(index)));
            refuses(&image, edition, (index, 0), number, u64::from(index));
            refuses(&image, edition, (index, 1), number, u64::from(index));
            answers_as_sound(&image, edition, end, &[7 - index]);
        }
    }
}

#[test]
fn refusals_1_to_6_come_first_and_in_order() {
    for (edition, end, last) in EDITIONS {
        // Sign, width, revolutions, span and heads are wrong, then one after the other is mended.
        let mut image = with_footer(end);
        put(&mut image, 0, b"scp\x16\x00\x00\x06\x01\x21\x08\x03");
        put_entry(&mut image, 3, 1);
        // The tracks that are there, one that is not, one that is misplaced, and two that are too high.
        let asked = [2, 3, 4, 5, 168, u32::MAX];
        let all_refuse = |image: &[u8], number| {
            for track in asked {
                for revolution in [0, 2, u32::MAX] {
                    refuses(image, edition, (track, revolution), number, 0);
                }
            }
        };
        all_refuse(&[], 1);
        all_refuse(&image[..15], 1);
        all_refuse(&image[..end as usize - 1], 1);
        all_refuse(&image[..end as usize], 2);
        let mends: [(usize, &[u8]); 5] = [(0, b"SCP"), (9, &[16]), (5, &[2]), (6, &[1, 6]), (0x0A, &[0])];
        for (number, (place, bytes)) in (2..).zip(mends) {
            all_refuse(&image, number);
            put(&mut image, place, bytes);
        }
        answers_as_sound(&image, edition, end, &[2, 5]);
        // Read/write with more than one revolution; an end track that is too high.
        all_refuse(&changed(&image, 8, &[0x30]), 4);
        for high in [last + 1, 255] {
            all_refuse(&changed(&image, 7, &[high]), 5);
        }
    }
}

#[test]
fn an_image_is_refused_above_268_435_456_bytes() {
    for (edition, end, _) in EDITIONS {
        let mut image = vec![0; 268_435_457];
        put(&mut image, 0, &two_tracks(end));
        answers_as_sound(&image[..268_435_456], edition, end, &[2, 5]);
        refuses(&image, edition, (2, 0), 1, 0);
        refuses(&image, edition, (u32::MAX, 0), 1, 0);
    }
}

#[test]
fn refusal_13_comes_before_9() {
    for (edition, end, _) in EDITIONS {
        let image = two_tracks(end);
        // Absent tracks within start to end and outside; then with one side, on the other.
        for track in [0, 1, 3, 6, 7, 165] {
            refuses(&image, edition, (track, 0), 13, 0);
            refuses(&image, edition, (track, 2), 13, 0);
        }
        let side = changed(&image, 0x0A, &[1]);
        refuses(&side, edition, (3, 0), 13, 0);
        refuses(&side, edition, (5, 0), 9, 5);
        let mut gone = changed(&image, 0x0A, &[2]);
        refuses(&gone, edition, (2, 0), 9, 2);
        put_entry(&mut gone, 2, 0);
        refuses(&gone, edition, (2, 0), 13, 0);
    }
}

#[test]
fn refusal_9_comes_before_10_then_11_then_14() {
    for (edition, end, _) in EDITIONS {
        let at = end as usize;
        // Track 5 lies outside start to end, has another number and too many words in revolution 1.
        let mut image = two_tracks(end);
        put(&mut image, 7, &[4]);
        put(&mut image, at + 39, &[4]);
        put(&mut image, at + 56, &[3]);
        let mends: [(usize, &[u8]); 3] = [(7, &[5]), (at + 39, &[5]), (at + 56, &[2])];
        for (number, (place, bytes)) in (9..).zip(mends) {
            for revolution in [0, 1, 2, 3, u32::MAX] {
                refuses(&image, edition, (5, revolution), number, 5);
            }
            answers_as_sound(&image, edition, end, &[2]);
            put(&mut image, place, bytes);
        }
        answers_as_sound(&image, edition, end, &[5]);
        for revolution in [2, 3, 256, u32::MAX] {
            assert!(direct::track(&image, edition, 5).is_ok());
            assert_eq!(direct::revolution(&image, edition, 5, revolution), refused(14, 0));
            assert_eq!(direct::flux(&image, edition, 5, revolution), refused(14, 0));
        }
    }
}

#[test]
fn refusal_10_of_the_track_asked_for() {
    for (edition, end, _) in EDITIONS {
        let image = two_tracks(end);
        let at = end as usize;
        // In the header and the table, a byte off, with too little room, and past the end.
        for place in [1, end - 1, end + 1, end + 37, end + 45, end + 72, u32::MAX] {
            let mut bad = image.clone();
            put_entry(&mut bad, 5, place);
            refuses(&bad, edition, (5, 0), 10, 5);
        }
        // The whole header just below the end of the table; the entries that it covers are not asked for.
        let mut low = image.clone();
        put_entry(&mut low, 5, end - 28);
        put(&mut low, at - 28, &[b'T', b'R', b'K', 5]);
        put(&mut low, at - 24, &[0; 24]);
        refuses(&low, edition, (5, 0), 10, 5);
        answers_as_sound(&low, edition, end, &[2]);
        // The header of the other track.
        put_entry(&mut low, 5, end);
        refuses(&low, edition, (5, 0), 10, 5);
    }
}

#[test]
fn refusal_11_by_another_revolution_of_the_track() {
    for (edition, end, _) in EDITIONS {
        let image = two_tracks(end);
        let at = end as usize;
        // Revolution 0 or 1 of track 5: a word too many, far too many, far away, and none just past the end.
        for record in [at + 40, at + 52] {
            let distance = if record == at + 40 { 28 } else { 32 };
            for (words, distance) in [(5, distance), (u32::MAX, distance), (2, u32::MAX), (0, 37), (0x8000_0000, 0)] {
                let mut bad = image.clone();
                put_revolution(&mut bad, record, [1, words, distance]);
                for revolution in 0..=2 {
                    refuses(&bad, edition, (5, revolution), 11, 5);
                }
                answers_as_sound(&bad, edition, end, &[2]);
            }
        }
        // The last of 255 revolutions.
        let many = revolutions_of_track_0(end, 255);
        let short = &many[..many.len() - 1];
        for revolution in [0, 127, 253, 254, 255] {
            refuses(short, edition, (0, revolution), 11, 0);
        }
    }
}

#[test]
fn the_last_track_is_that_of_the_edition() {
    for (edition, end, last) in EDITIONS {
        // Tracks 165 up to the last, one after the other from T on, each with a header of 16 bytes and no words.
        let mut image = vec![0; end as usize];
        put(&mut image, 0, &[b'S', b'C', b'P', 0x16, 0, 1, 165, last]);
        for number in 165..=last {
            let place = image.len() as u32;
            put_entry(&mut image, u32::from(number), place);
            image.extend([b'T', b'R', b'K', number]);
            image.extend([0; 12]);
        }
        opens_and_agrees(&image, edition);
        for number in 165..=u32::from(last) {
            let place = u64::from(end) + 16 * u64::from(number - 165);
            assert_eq!(direct::track(&image, edition, number).unwrap().place, place);
            assert_eq!(direct::revolution(&image, edition, number, 0).unwrap().place, place);
            assert_eq!(direct::flux(&image, edition, number, 0), Ok(vec![]));
            assert_eq!(direct::flux(&image, edition, number, 1), refused(14, 0));
        }
        // What would be the next entry is not 0, but the sign of the first track data header.
        assert_eq!(image[entry_of(u32::from(last) + 1)..][..3], *b"TRK");
        for number in (u32::from(last) + 1..=168).chain([165 + 256, 165 + 0x4000_0000, u32::MAX]) {
            refuses(&image, edition, (number, 0), 13, 0);
        }
        // 5 comes before 13.
        put(&mut image, 7, &[last + 1]);
        for number in [165, 166, 167, 168, u32::MAX] {
            refuses(&image, edition, (number, 0), 5, 0);
        }
    }
}

#[test]
fn tracks_166_and_167_are_absent_under_1_4() {
    let mut image = two_tracks(688);
    for (number, place) in [(166, 688), (167, 724)] {
        put_entry(&mut image, number, place);
        refuses(&image, V1_6, (number, 0), 9, u64::from(number));
        refuses(&image, V1_4, (number, 0), 13, 0);
    }
    answers_as_sound(&image, V1_6, 688, &[2, 5]);
    answers_as_sound(&image, V1_4, 688, &[2, 5]);
    // Under 1.6 they may be there; under 1.4 the end track is then too high.
    put(&mut image, 7, &[167]);
    put(&mut image, 691, &[166]);
    put(&mut image, 727, &[167]);
    for (number, place) in [(166, 688), (167, 724)] {
        let expected = Track { cylinder: 83, head: number % 2, place, revolutions: 2 };
        assert_eq!(direct::track(&image, V1_6, number), Ok(expected));
        refuses(&image, V1_4, (number, 0), 5, 0);
    }
}
