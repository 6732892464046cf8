//! Images by both editions: laid out for each of them, by the other one, and where the two differ.

use scp::Edition::{self, V1_4, V1_6};
use scp::{Answer, Call, Reason};
use scp_compare::cases::{agree, answer_some, some_questions};
use scp_compare::edition;
use scp_compare::image::{duration_at, entry_at, flux_bytes, footer_bytes, number_at, set, store_checksum, FooterPart, FOOTER_SIZE};
use scp_compare::outside::{image, Style, CAPTURE, CAPTURE_1_4, READ_WRITE_1_4};
use scp_compare::question::{compare, number, Asked, Question};
use scp_compare::sequence::ANSWER;

/// New words for image A, as the rules have them.
const NEW: [u8; 8] = [0x01, 0x40, 0x00, 0x00, 0x00, 0x01, 0x00, 0xF0];

/// Where FLAGS, the end track and the checksum stand.
const FLAGS: usize = 8;
const END_TRACK: usize = 7;
const CHECKSUM: usize = 12;

/// The number and position of what refuses the image by 1.4 and by 1.6; library and reader agree on all questions about it.
fn refused(image: &[u8]) -> [Option<(u8, u64)>; 2] {
    agree(&format!("an image of {} bytes", image.len()), image);
    Edition::ALL.map(|edition| scp::validate(image, edition).err().map(|refusal| (refusal.reason.number(), refusal.position)))
}

/// The image, with a change and its checksum.
fn changed(image: &[u8], change: impl FnOnce(&mut [u8])) -> Vec<u8> {
    let mut image = image.to_vec();
    change(&mut image);
    store_checksum(&mut image);
    image
}

/// An image of so many bytes without tracks, that 1.4 and 1.6 accept from their least length on.
fn empty(size: usize) -> Vec<u8> {
    let mut image = scp::example::image_a()[..CHECKSUM].to_vec();
    image.resize(size, 0);
    changed(&image, |_| ())
}

/// The image, with the data header of a track at a place: one revolution without words.
fn with_header_at(image: &[u8], track: u8, place: usize) -> Vec<u8> {
    changed(image, |image| {
        set(image, entry_at(track.into()), &(place as u32).to_le_bytes());
        set(image, place, &[b'T', b'R', b'K', track]);
        set(image, place + 4, &[0; 12]);
    })
}

/// The image, with the flux of track 1 at a place.
fn with_flux_at(image: &[u8], place: usize) -> Vec<u8> {
    let header = number_at(image, entry_at(1)) as usize;
    changed(image, |image| set(image, duration_at(header, 0) + 8, &((place - header) as u32).to_le_bytes()))
}

// ---- images laid out for 1.4

#[test]
fn image_a_laid_out_for_1_4_is_as_the_rules_say() {
    let mut image = scp::example::image_a_1_4();
    assert_eq!((image.len(), number_at(&image, CHECKSUM)), (704, 972));
    assert_eq!(scp::track(&image, V1_4, 0).unwrap().offset, 0x2A8);
    assert_eq!(scp::all_intervals(scp::flux(&image, V1_4, 0, 0).unwrap()), Ok((vec![160, 65_537, 240], 0)));
    assert_eq!(refused(&image), [None, Some((10, 0))]);
    for (stored, moved, answer) in [(972, 877, None), (973, 878, Some((12, 0)))] {
        set(&mut image, CHECKSUM, &u32::to_le_bytes(stored));
        let mut rewritten = image.clone();
        assert_eq!(scp::rewrite(&mut rewritten, V1_4, 0, 0, 8_000_000, &NEW), Ok(()));
        assert_eq!((scp::header(&rewritten, V1_4).unwrap().checksum, scp::flux(&rewritten, V1_4, 0, 0)), (moved, Ok(&NEW[..])));
        assert_eq!(refused(&rewritten), [answer, Some((10, 0))]);
    }
    let refusal = scp::rewrite(&mut image, V1_6, 0, 0, 8_000_000, &NEW).unwrap_err();
    assert_eq!((refusal.reason, refusal.position), (Reason::Track, 0));
}

#[test]
fn an_old_capture_in_its_real_size_is_validated_read_and_rewritten() {
    // 80 cylinders, 200 ms a revolution: 33,333 intervals of 240 ticks on average
    let capture = image(&CAPTURE_1_4, 33_333);
    assert!(capture.len() > 53_000_000, "{} bytes", capture.len());
    assert_eq!((number_at(&capture, entry_at(0)), &capture[0x2A8..0x2AC]), (0x2A8, &b"TRK\0"[..]));
    assert_eq!(scp::tracks(&capture, V1_4), Ok((0..160).collect()));
    answer_some(&capture, V1_4, 159);
    // its first track data header is where 1.6 has two more entries
    assert_eq!(number_at(&capture, entry_at(166)).to_le_bytes(), *b"TRK\0");
    assert_eq!(number(&capture, &Asked::Validate.by(edition::V1_6)), Ok(10));
}

#[test]
fn the_most_tracks_of_the_most_revolutions_by_1_4_are_read_and_rewritten() {
    answer_some(&image(&Style { revolutions: 255, last_track: 165, ..CAPTURE_1_4 }, 3), V1_4, 165);
}

#[test]
fn read_write_is_flags_bit_4_by_1_4_too() {
    let image = image(&READ_WRITE_1_4, 4);
    assert_eq!((number_at(&image, CHECKSUM), scp::validate(&image, V1_4)), (0, Ok(())));
    let mut rewritten = image.clone();
    assert_eq!(scp::rewrite(&mut rewritten, V1_4, 165, 0, 1, &[9, 9]), Ok(()));
    assert_eq!((number_at(&rewritten, CHECKSUM), scp::validate(&rewritten, V1_4)), (0, Ok(())));
    // bit 3 is the kind of the flux
    let typed = changed(&image, |image| image[FLAGS] = 0x09);
    assert!(number_at(&typed, CHECKSUM) != 0 && scp::validate(&typed, V1_4).is_ok());
}

// ---- images laid out for 1.6, by 1.4

/// By 1.4 tracks 0 to 165 of an image answer as they do in this one by 1.6, and there is no other track.
fn answers_alike(image: &[u8], newer: &[u8]) {
    assert_eq!(scp::header(image, V1_4).map(|found| found.revolutions), scp::header(newer, V1_6).map(|found| found.revolutions));
    for track in 0..166 {
        assert_eq!(scp::track(image, V1_4, track), scp::track(newer, V1_6, track));
        assert_eq!(scp::track_speed(image, V1_4, track), scp::track_speed(newer, V1_6, track));
        for revolution in 0..=5 {
            assert_eq!(scp::revolution(image, V1_4, track, revolution), scp::revolution(newer, V1_6, track, revolution));
            assert_eq!(scp::flux(image, V1_4, track, revolution), scp::flux(newer, V1_6, track, revolution));
            assert_eq!(scp::speed(image, V1_4, track, revolution), scp::speed(newer, V1_6, track, revolution));
        }
    }
    for track in [166, 167, 168] {
        assert_eq!(scp::track(image, V1_4, track).unwrap_err().reason, Reason::Absent);
    }
}

#[test]
fn an_image_of_1_6_answers_alike_by_1_4_for_tracks_0_to_165() {
    let older = image(&Style { last_track: 165, ..CAPTURE }, 20);
    assert_eq!(refused(&older), [None, None]);
    answers_alike(&older, &older);
    assert!(scp::footer(&older, V1_6).unwrap().is_some() && scp::footer(&older, V1_4) == Ok(None));

    let newer = image(&Style { last_track: 167, ..CAPTURE }, 20);
    assert_eq!(refused(&newer), [Some((5, 0)), None]);
    // with an end track that 1.4 has, entries 166 and 167 are nothing to it
    let ended = changed(&newer, |image| image[END_TRACK] = 165);
    assert_eq!(refused(&ended), [None, Some((9, 166))]);
    answers_alike(&ended, &newer);
}

// ---- where the two differ

#[test]
fn lengths_at_the_edges() {
    let below = |size, least| (size < least).then_some((1, 0));
    for size in 670..=740 {
        assert_eq!(refused(&empty(size)), [below(size, 680), below(size, 688)], "{size} bytes");
        let flagged = changed(&empty(size), |image| image[FLAGS] |= 0x20);
        assert_eq!(refused(&flagged), [below(size, 680), below(size, 688).or(Some((7, 0)))], "{size} bytes, flagged");
    }
    for size in 727..=740 {
        let footer = FooterPart { strings: Default::default(), created: 0, modified: 0, versions: [0, 0, 0, 0x16] };
        let footed = changed(&empty(size), |image| {
            image[FLAGS] |= 0x20;
            set(image, size - FOOTER_SIZE, &footer_bytes(&footer, &[0; 6]));
        });
        assert_eq!(refused(&footed), [None, (size < 736).then_some((7, 0))], "{size} bytes with a footer");
    }
}

#[test]
fn headers_at_the_edges() {
    for place in 676..=700 {
        let below = |table_end| (place < table_end).then_some((10, 0));
        assert_eq!(refused(&with_header_at(&empty(place + 16), 0, place)), [below(680), below(688)], "at {place}");
        assert_eq!(refused(&with_header_at(&empty(place + 15), 0, place)), [Some((10, 0)); 2], "at {place}, a byte too short");
    }
}

#[test]
fn spans_and_tracks_at_the_edges() {
    for end in 160..=170 {
        let above = |last| (end > last).then_some((5, 0));
        let image = changed(&empty(688), |image| image[END_TRACK] = end);
        assert_eq!(refused(&image), [above(165), above(167)], "end track {end}");
    }
    for last_track in [165, 167] {
        let style = Style { last_track, revolutions: 1, ..CAPTURE };
        let ended = changed(&image(&style, 2), |image| image[END_TRACK] = 165);
        for (track, due) in [(164, 0), (165, 0), (166, 13), (167, 13), (168, 13), (255, 13), (256, 13), (u32::MAX, 13)] {
            for asked in some_questions(&ended, &[track], &[0]).into_iter().skip(3) {
                assert_eq!(number(&ended, &asked.clone().by(edition::V1_4)), Ok(due), "{asked:?}");
            }
            let rewrite = Asked::Rewrite { track, revolution: 0, duration: 1, words: vec![0, 1] };
            assert_eq!(number(&ended, &rewrite.by(edition::V1_4)), Ok(due), "a rewrite of track {track}");
        }
    }
}

/// Two tracks of one revolution of 30 words, and a footer with a string.
fn footed() -> Vec<u8> {
    image(&Style { last_track: 1, revolutions: 1, timestamp: "", application: "a tool", ..CAPTURE }, 30)
}

#[test]
fn a_footer_means_nothing_by_1_4() {
    let sound = footed();
    let (end, footer) = (sound.len(), sound.len() - FOOTER_SIZE);
    let application = footer + 4 * 4;
    let put = |place: usize, bytes: &[u8]| changed(&sound, |image| set(image, place, bytes));
    for (name, image, due) in [
        ("sound", sound.clone(), [None, None]),
        ("another sign", put(end - 1, b"X"), [None, Some((7, 0))]),
        ("too old", put(footer + 0x2B, &[0x15]), [None, Some((7, 0))]),
        ("a string in the footer", put(application, &(footer as u32).to_le_bytes()), [None, Some((8, 4))]),
        ("a string below 688", put(application, &680u32.to_le_bytes()), [None, Some((8, 4))]),
        ("a string far away", put(application, &[0xFF; 4]), [None, Some((8, 4))]),
        ("a string that is no text", put(number_at(&sound, application) as usize + 2, &[0x97]), [None, Some((19, 4))]),
        ("flux up to the footer", with_flux_at(&sound, footer - 60), [None, None]),
        ("flux with its last byte in the footer", with_flux_at(&sound, footer - 59), [None, Some((11, 1))]),
        ("flux up to the end", with_flux_at(&sound, end - 60), [None, Some((11, 1))]),
        ("flux past the end", with_flux_at(&sound, end - 59), [Some((11, 1)), Some((11, 1))]),
        ("a header up to the footer", with_header_at(&sound, 1, footer - 16), [None, None]),
        ("a header in the footer", with_header_at(&sound, 1, footer + 24), [None, Some((10, 1))]),
        ("a header up to the end", with_header_at(&sound, 1, end - 16), [None, Some((7, 0))]),
        ("a header past the end", with_header_at(&sound, 1, end - 15), [Some((10, 1)), Some((10, 1))]),
    ] {
        assert_eq!(refused(&image), due, "{name}");
        assert_eq!(scp::footer(&image, V1_4).ok(), due[0].is_none().then_some(None), "{name}");
    }
}

#[test]
fn a_rewrite_by_1_4_may_overwrite_a_footer() {
    let footed = footed();
    let mut image = with_flux_at(&footed, footed.len() - 60);
    let words = flux_bytes(&[7; 30]);
    let calls = [Call::Rewrite { track: 1, revolution: 0, duration: 5, words }, Call::Validate];
    assert_eq!(scp::replay(&mut image, V1_4, &calls), [Ok(Answer::Rewritten), Ok(Answer::Valid)]);
    assert!(image.ends_with(&[0, 7, 0, 7]));
    assert_eq!(refused(&image), [None, Some((7, 0))]);
}

#[test]
fn a_rewrite_by_1_4_may_stand_where_1_6_has_two_entries() {
    for place in 680..688 {
        let mut image = with_header_at(&empty(place + 16), 0, place);
        assert_eq!(scp::rewrite(&mut image, V1_6, 0, 0, 5, &[]).unwrap_err().reason, Reason::Track);
        assert_eq!(scp::rewrite(&mut image, V1_4, 0, 0, 5, &[]), Ok(()), "at {place}");
        assert_eq!((number_at(&image, place + 4), refused(&image)), (5, [None, Some((10, 0))]));
    }
}

// ---- how an edition is named

#[test]
fn every_number_but_14_names_1_6() {
    let image = scp::example::image_a_1_4();
    let rewrite = Asked::Rewrite { track: 0, revolution: 0, duration: 1, words: NEW.to_vec() };
    let asked: Vec<Asked> = some_questions(&image, &[0], &[0]).into_iter().chain([rewrite]).collect();
    let numbers = [0, 1, 4, 6, 13, 14, 15, 16, 17, 24, 30, 46, 78, 142, 270, 14 << 8, 65_550, 14 << 24, (1 << 31) + 14, u32::MAX];
    let due = |edition: u64| if edition == 14 { 0 } else { 10 };
    for edition in numbers {
        for asked in &asked {
            assert_eq!(number(&image, &asked.clone().by(edition)), Ok(due(edition.into())), "{asked:?} by {edition}");
        }
    }
    let wide = [14 + (1 << 32), 14 << 32, 14 + (1 << 40), 14 + (1 << 63), u64::MAX - 1, u64::MAX];
    for edition in numbers.into_iter().map(u64::from).chain(wide) {
        let calls: Vec<u64> = (0..10).flat_map(|kind| [kind, 0, 0, 1, 0, 8, edition]).collect();
        let sequence = Question::Sequence { calls, words: NEW.to_vec(), places: 10 * ANSWER };
        assert_eq!(compare(&image, &sequence).unwrap().rows, [due(edition); 10], "by {edition}");
    }
}
