//! The text of strings. The test of refusal 19 beside the reader's and beside Rust's own: on all short sequences, on every character,
//! and on long texts. And the refusal itself, in every call on images whose strings are ill-formed in each way.

use scp::Edition::{self, V1_4, V1_6};
use scp::{direct, raw, Answer, Call, Reason, Refusal};
use scp_compare::ask::Case;
use scp_compare::boundary::{BYTE, NUMBER};
use scp_compare::cases::{case, some_questions};
use scp_compare::difference::after;
use scp_compare::edition::is_1_4;
use scp_compare::guarded::Guarded;
use scp_compare::image::{entry_at, number_at, set, store_checksum, FOOTER_SIZE};
use scp_compare::outside::{with_strings, Style, CAPTURE};
use scp_compare::question::{compare, number, Asked, Question};
use scp_compare::random::Random;
use scp_compare::sequence::{self, ANSWER, CALL};
use scp_compare::text::{ill_formed, of_widths, size, well_formed, EDGE_BYTES, ILL_FORMED};
use scp_reader as reader;
use std::collections::{BTreeSet, HashSet};
use std::mem::discriminant;

/// The bytes of the longest string.
const LONGEST: usize = 65_535;

/// How far Rust's own test finds the text well-formed.
fn by_rust(text: &[u8]) -> usize {
    std::str::from_utf8(text).map_or_else(|error| error.valid_up_to(), str::len)
}

/// How far the text is well-formed, by the library, by the reader and by Rust.
fn agree(text: &[u8]) -> usize {
    let wanted = by_rust(text);
    let found = (scp::valid_up_to(text), reader::valid_up_to(text));
    assert!(found == (wanted, wanted), "{text:02X?}: library and reader find {found:?}, Rust {wanted}");
    wanted
}

// ---- short sequences

#[test]
fn all_sequences_of_up_to_3_bytes() {
    let mut well_formed = [0; 4];
    let mut note = |text: &[u8]| well_formed[text.len()] += usize::from(agree(text) == text.len());
    note(&[]);
    for a in 0..=255 {
        note(&[a]);
        for b in 0..=255 {
            note(&[a, b]);
            for c in 0..=255 {
                note(&[a, b, c]);
                // and where one more byte follows
                agree(&[a, b, c, 0x80]);
            }
        }
    }
    // 128 characters of 1 byte, 1,920 of 2, 61,440 of 3
    assert_eq!(well_formed, [1, 128, 128 * 128 + 1920, 128 * 128 * 128 + 2 * 128 * 1920 + 61_440]);
}

#[test]
fn sequences_of_4_bytes_at_the_edges() {
    let edges = [0x00, 0x7F, 0x80, 0x8F, 0x90, 0x9F, 0xA0, 0xBF, 0xC0, 0xFF];
    let mut characters = 0;
    for (first, second) in (0..=255).flat_map(|first| (0..=255).map(move |second| (first, second))) {
        for (third, fourth) in edges.into_iter().flat_map(|third| edges.map(|fourth| (third, fourth))) {
            let whole = agree(&[first, second, third, fourth]) == 4;
            characters += usize::from(first >= 0xF0 && whole);
            agree(&[b'a', first, second, third, fourth]);
        }
    }
    // by 48 second bytes behind F0, 64 behind F1, F2 and F3, 16 behind F4; 6 of the edges may follow
    assert_eq!(characters, (48 + 3 * 64 + 16) * 6 * 6);
}

/// All sequences of so many bytes at the edges.
fn edge_sequences(size: u32) -> impl Iterator<Item = Vec<u8>> {
    let byte = |number: usize, place: u32| EDGE_BYTES[number / EDGE_BYTES.len().pow(place) % EDGE_BYTES.len()];
    (0..EDGE_BYTES.len().pow(size)).map(move |number| (0..size).map(|place| byte(number, place)).collect())
}

#[test]
fn sequences_at_the_edges_behind_and_before_others() {
    let letters = "a".repeat(62);
    let around = [(&letters[..30], ""), ("", "a"), ("\u{7FF}", "\u{80}"), ("\u{FFFF}", ""), ("\u{10FFFF}", "\u{800}"), (&letters[..], "a")];
    for sequence in (1..=4).flat_map(edge_sequences) {
        // there are many of 4 bytes
        let around = if sequence.len() < 4 { &around[..] } else { &around[..1] };
        for (before, behind) in around {
            let text = [before.as_bytes(), &sequence, behind.as_bytes()].concat();
            assert!(agree(&text) >= before.len());
        }
    }
}

// ---- characters

#[test]
fn every_character_whole_and_cut() {
    let mut count = 0;
    for character in (0..=0x10_FFFF).filter_map(char::from_u32) {
        let mut bytes = *b"a    a";
        let size = character.encode_utf8(&mut bytes[1..5]).len();
        bytes[1 + size] = b'a';
        let text = &bytes[..size + 2];
        assert_eq!((agree(text), agree(&text[1..=size])), (size + 2, size), "{character:?}");
        for cut in 1..size {
            // without its last bytes, at the end and before another one; without its first bytes
            assert_eq!((agree(&text[..1 + cut]), agree(&text[1 + cut..])), (1, 0), "{character:?}");
            let mut other = bytes;
            other[1 + cut] = b'a';
            assert_eq!(agree(&other[..size + 2]), 1, "{character:?}");
        }
        count += 1;
    }
    assert_eq!(count, 0x11_0000 - 0x800);
}

/// A number encoded in 2 to 4 bytes as a character is, whether that is well-formed or not.
fn encoded(number: u32, size: usize) -> Vec<u8> {
    let continuation = |place: usize| 0x80 | (number >> (6 * (size - 1 - place)) & 0x3F) as u8;
    let lead = [0xC0, 0xE0, 0xF0][size - 2] | (number >> (6 * (size - 1))) as u8;
    [lead].into_iter().chain((1..size).map(continuation)).collect()
}

#[test]
fn longer_forms_surrogates_and_numbers_above_10ffff() {
    assert_eq!((encoded(0xB5, 2), encoded(0x20AC, 3)), ("\u{B5}".into(), "\u{20AC}".into()));
    assert_eq!((encoded(0x1F4BE, 4), encoded(0x10_FFFF, 4)), ("\u{1F4BE}".into(), "\u{10FFFF}".into()));
    for (numbers, size) in [(0..0x80, 2), (0..0x800, 3), (0..0x1_0000, 4), (0xD800..0xE000, 3), (0x11_0000..0x20_0000, 4)] {
        for number in numbers {
            assert_eq!(agree(&encoded(number, size)), 0, "{number:X} in {size} bytes");
        }
    }
}

// ---- longer texts

#[test]
fn one_sequence_among_letters_at_every_place() {
    let characters = ["\u{7F}", "\u{80}", "\u{7FF}", "\u{800}", "\u{D7FF}", "\u{E000}", "\u{FFFF}", "\u{10000}", "\u{10FFFF}"];
    for size in [1, 2, 3, 4, 5, 7, 8, 9, 15, 16, 17, 31, 32, 33, 34, 35, 47, 48, 63, 64, 65, 66, 67, 95, 96, 97, 127, 128, 129, 130] {
        for place in 0..size {
            for bytes in characters.map(str::as_bytes) {
                let text = among_letters(size, place, bytes);
                assert_eq!(agree(&text), if place + bytes.len() <= size { size } else { place }, "{text:02X?}");
            }
            for sequence in ILL_FORMED {
                assert_eq!(agree(&among_letters(size, place, sequence)), place, "{sequence:02X?} at {place} of {size}");
            }
        }
    }
}

/// So many letters, and from a place on these bytes, as far as they have room.
fn among_letters(size: usize, place: usize, bytes: &[u8]) -> Vec<u8> {
    let mut text = vec![b'a'; size];
    let end = size.min(place + bytes.len());
    text[place..end].copy_from_slice(&bytes[..end - place]);
    text
}

#[test]
fn every_byte_at_every_place_of_two_blocks() {
    for (byte, place) in (0..=255).flat_map(|byte| (0..66).map(move |place| (byte, place))) {
        let text = among_letters(66, place, &[byte]);
        assert_eq!(agree(&text), if byte < 0x80 { 66 } else { place });
        // a text may start anywhere
        let from = place % 9;
        assert_eq!(agree(&text[from..]), if byte < 0x80 || place < from { 66 - from } else { place - from });
    }
}

#[test]
fn texts_by_chance_whole_cut_and_with_another_byte() {
    let (mut random, mut others) = (Random::new(19), 0);
    for _ in 0..40_000 {
        let mut whole = well_formed(size(&mut random) + random.below(2) * random.below(200), &mut random);
        assert_eq!(agree(&whole), whole.len());
        agree(&whole[..random.below(whole.len() + 1)]);
        agree(&whole[random.below(whole.len() + 1)..]);
        for _ in 0..random.below(3).min(whole.len()) {
            let place = random.below(whole.len());
            whole[place] = random.byte();
            others += usize::from(agree(&whole) < whole.len());
        }
        let size = size(&mut random).max(1);
        assert!(agree(&ill_formed(size, &mut random)) < size);
    }
    assert!(others > 10_000, "{others} with another byte are ill-formed");
}

#[test]
fn the_longest_texts() {
    let mut random = Random::new(20);
    for size in [LONGEST, 1 << 20] {
        for widths in [&[1][..], &[2], &[3], &[4], &[1, 2, 3, 4]] {
            let whole = of_widths(size, widths, &mut random);
            assert_eq!(agree(&whole), size);
            for place in [0, 1, 31, 32, 33, 63, 64, 65, size / 2, size - 66, size - 65, size - 64, size - 2, size - 1] {
                let mut other = whole.clone();
                other[place] = 0xFF;
                let found = agree(&other);
                assert!(found <= place && place - found < 4, "{found}, another byte at {place}");
            }
        }
    }
}

#[test]
fn one_place_is_filled_and_the_others_are_left() {
    let long = [[b'a'; 70].as_slice(), &[0x97]].concat();
    for (text, due) in [(&b""[..], 0), (b"abc", 3), (b"\x97bc", 0), (b"ab\xC3", 2), ("4 \u{B5}s".as_bytes(), 5), (&long, 70)] {
        for places in 0..5 {
            let (lent, mut out) = (Guarded::new(text, BYTE), Guarded::new(&vec![NUMBER; places], NUMBER));
            let code = raw::valid_up_to(lent.contents(), out.lent());
            let (refused, values) = if places == 0 { (15, &[][..]) } else { (0, &[due][..]) };
            assert_eq!(code, refused, "{text:02X?}, {places} places");
            assert!(out.holds(&after(NUMBER, places, values)) && lent.holds(text), "{text:02X?}: {:?}", out.contents());
            assert_eq!(number(text, &Question::ValidUpTo { places }), Ok(refused as u32));
        }
    }
}

// ---- images

/// A text for each string, of characters of 1 to 4 bytes.
const TEXTS: [&str; 6] =
    ["A maker", "SuperCard \u{B5}", "\u{2116} 7", "\u{1F4BE}", "na\u{EF}ve tool, 5 \u{20AC}", "\u{7F}\u{7FF}\u{FFFF}\u{10FFFF}"];

/// Tracks 0 to 2 of two revolutions of four words, and six strings.
const THREE_TRACKS: Style = Style { last_track: 2, revolutions: 2, ..CAPTURE };

/// Three tracks and these strings.
fn with_texts(texts: [&[u8]; 6]) -> Vec<u8> {
    with_strings(&THREE_TRACKS, 4, texts.map(|text| Some(text.to_vec())))
}

/// Three tracks and six strings of text: valid by both editions.
fn sound() -> Vec<u8> {
    with_texts(TEXTS.map(str::as_bytes))
}

/// Where the footer has the offset of a string.
fn slot(image: &[u8], string: usize) -> usize {
    image.len() - FOOTER_SIZE + 4 * string
}

/// Where the text of a string stands, and how many bytes it has.
fn text_of(image: &[u8], string: usize) -> (usize, usize) {
    let offset = number_at(image, slot(image, string)) as usize;
    (offset + 2, number_at(image, offset) as usize % 65_536)
}

/// The image with other bytes from a place on, and its checksum.
fn with(image: &[u8], place: usize, bytes: &[u8]) -> Vec<u8> {
    let mut image = image.to_vec();
    set(&mut image, place, bytes);
    store_checksum(&mut image);
    image
}

/// The image with a byte that no text has as the last one of a string's text.
fn spoilt(image: &[u8], string: usize) -> Vec<u8> {
    let (place, size) = text_of(image, string);
    with(image, place + size - 1, &[0xFF])
}

/// What refuses the image by 1.4 and by 1.6; the reader refuses it likewise.
fn refused(image: &[u8]) -> [Option<(u8, u64)>; 2] {
    Edition::ALL.map(|edition| {
        number(image, &Asked::Validate.by(edition.number())).expect("library and reader agree");
        scp::validate(image, edition).err().map(|refusal| (refusal.reason.number(), refusal.position))
    })
}

/// A rewrite that is accepted on the sound image.
fn rewrite() -> Asked {
    Asked::Rewrite { track: 1, revolution: 1, duration: 7, words: vec![0, 1, 0, 2] }
}

/// Puts every question about the image and two of its tracks to both, and a rewrite, with guards around what is lent: each call that opens
/// the image is refused with this number by 1.6, where it is not 0, and none by 1.4.
fn every_call(image: &[u8], due: u32) {
    for asked in some_questions(image, &[0, 2], &[0, 1]).into_iter().chain([rewrite()]) {
        let direct = matches!(asked, Asked::DirectTrack { .. } | Asked::DirectRevolution { .. } | Asked::DirectFlux { .. });
        let numbers = Edition::ALL.map(|edition| number(image, &asked.clone().by(edition.number())));
        assert_eq!(numbers, [Ok(0), Ok(if direct { 0 } else { due })], "{asked:?}");
    }
}

/// Replays a call of every kind, and of one that is not known, by an edition: each row has this number and this position. If it is 0 the
/// rewrite among them changes the image.
fn every_row(image: &[u8], edition: Edition, due: [u64; 2]) {
    let calls: Vec<u64> = (0..10).flat_map(|kind| [kind, 1, 1, 7, 0, 4, edition.number().into()]).collect();
    let ran = sequence::run(image, &calls, &[0, 1, 0, 2], ANSWER * (calls.len() / CALL)).expect("library and reader agree");
    let refused: Vec<[u64; 2]> = ran.answers.chunks_exact(ANSWER).map(|row| [row[0], row[1]]).collect();
    assert_eq!(refused, [due; 10], "by {edition}");
    assert_eq!(ran.image == image, due[0] != 0, "by {edition}");
}

#[test]
fn strings_of_text_are_accepted_and_given() {
    let image = sound();
    assert_eq!(refused(&image), [None; 2]);
    every_call(&image, 0);
    Edition::ALL.into_iter().for_each(|edition| every_row(&image, edition, [0, 0]));
    let footer = scp::footer(&image, V1_6).unwrap().expect("it is there");
    assert_eq!(footer.strings.map(|offset| scp::text(&image, offset)), TEXTS.map(Some));
    assert_eq!(scp::text(&image, 0), None);
    let (spoilt, offset) = (spoilt(&image, 3), footer.strings[3]);
    assert_eq!((scp::text(&spoilt, offset), scp::string(&spoilt, offset)), (None, Some(&b"\xF0\x9F\x92\xFF"[..])));
}

#[test]
fn text_that_is_ill_formed_in_each_way_refuses_every_call_by_1_6() {
    for (string, position) in (0..6).zip(0..) {
        for sequence in ILL_FORMED {
            let own = TEXTS[string].as_bytes();
            for text in [sequence.to_vec(), [sequence, b"a"].concat(), [own, sequence].concat(), [own, sequence, own].concat()] {
                let mut texts = TEXTS.map(str::as_bytes);
                texts[string] = &text;
                let image = with_texts(texts);
                assert_eq!(refused(&image), [None, Some((19, position))], "{text:02X?}");
                every_call(&image, 19);
            }
        }
        let image = spoilt(&sound(), string);
        every_row(&image, V1_6, [19, position]);
        every_row(&image, V1_4, [0, 0]);
    }
}

#[test]
fn every_call_of_the_wrapper_says_which_string() {
    for (string, position) in (0..6).zip(0..) {
        let mut image = spoilt(&sound(), string);
        let before = image.clone();
        let text = Refusal { reason: Reason::Text, position };
        let (track, revolution, duration, words) = (1, 1, 7, vec![0, 1, 0, 2]);
        let mut room = [9; 20];
        assert_eq!(scp::validate(&image, V1_6), Err(text));
        assert_eq!(scp::header(&image, V1_6), Err(text));
        assert_eq!(scp::footer(&image, V1_6), Err(text));
        assert_eq!(scp::tracks(&image, V1_6), Err(text));
        assert_eq!(scp::track(&image, V1_6, track), Err(text));
        assert_eq!(scp::revolution(&image, V1_6, track, revolution), Err(text));
        assert_eq!(scp::flux(&image, V1_6, track, revolution), Err(text));
        assert_eq!(scp::flux(&image, V1_6, track, revolution).and_then(scp::all_intervals), Err(text));
        assert_eq!(scp::flux(&image, V1_6, track, revolution).and_then(scp::all_closed_intervals), Err(text));
        assert_eq!((scp::copy_flux(&image, V1_6, track, revolution, &mut room), room), (Err(text), [9; 20]));
        assert_eq!(scp::speed(&image, V1_6, track, revolution), Err(text));
        assert_eq!(scp::track_speed(&image, V1_6, track), Err(text));
        assert_eq!(scp::rewrite(&mut image, V1_6, track, revolution, duration, &words), Err(text));
        let rewrite = Call::Rewrite { track, revolution, duration, words };
        assert_eq!(scp::replay(&mut image, V1_6, &[Call::Validate, Call::Flux { track, revolution }, rewrite.clone()]), [Err(text); 3]);
        assert_eq!(image, before);
        // the direct calls answer as on the sound image, and 1.4 knows no strings
        let sound = sound();
        assert_eq!(direct::track(&image, V1_6, track), scp::track(&sound, V1_6, track));
        assert_eq!(direct::revolution(&image, V1_6, track, revolution), scp::revolution(&sound, V1_6, track, revolution));
        assert_eq!(direct::flux(&image, V1_6, track, revolution), scp::flux(&sound, V1_6, track, revolution));
        assert_eq!(scp::flux(&image, V1_4, track, revolution), scp::flux(&sound, V1_6, track, revolution));
        assert_eq!((scp::validate(&image, V1_4), scp::footer(&image, V1_4)), (Ok(()), Ok(None)));
        assert_eq!(scp::replay(&mut image, V1_4, &[rewrite, Call::Validate]), [Ok(Answer::Rewritten), Ok(Answer::Valid)]);
        assert_eq!(scp::validate(&image, V1_6), Err(text));
    }
}

#[test]
fn a_string_is_tested_to_its_last_byte_before_the_next() {
    let sound = sound();
    for (ill_formed, malformed) in (0..6).flat_map(|one| (0..6).map(move |other| (one, other))) {
        let image = spoilt(&sound, ill_formed);
        let (place, size) = text_of(&image, malformed);
        let ways: [(usize, &[u8]); 5] = [
            (slot(&image, malformed), &[0xFF; 4]),
            (slot(&image, malformed), &[16, 0, 0, 0]),
            (place, &[0]),
            (place + size - 1, &[0]),
            (place + size, b"\x97"),
        ];
        for (place, bytes) in ways {
            let image = with(&image, place, bytes);
            // of the same string, too, its place and its form come first
            let due = if malformed <= ill_formed { (8, malformed as u64) } else { (19, ill_formed as u64) };
            assert_eq!(refused(&image), [None, Some(due)], "{ill_formed} is ill-formed, {malformed} malformed");
            every_call(&image, due.0.into());
        }
        let both = spoilt(&image, malformed);
        assert_eq!(refused(&both), [None, Some((19, ill_formed.min(malformed) as u64))]);
    }
}

#[test]
fn a_string_is_tested_behind_the_footer_and_before_the_tracks() {
    let image = spoilt(&sound(), 5);
    let header = number_at(&image, entry_at(1)) as usize;
    for (due, place, bytes) in [
        ((2, 0), 0, &b"scp"[..]),
        ((3, 0), 9, &[8]),
        ((4, 0), 5, &[0]),
        ((5, 0), 7, &[168]),
        ((6, 0), 10, &[3]),
        ((7, 0), image.len() - 1, b"X"),
        // 9, 10 and 11 of a track come later
        ((19, 5), entry_at(3), &[1, 0, 0, 0]),
        ((19, 5), header, b"KRT"),
        ((19, 5), header + 8, &[0xFF; 4]),
    ] {
        let image = with(&image, place, bytes);
        assert_eq!(refused(&image)[1], Some(due), "{bytes:02X?} at {place}");
        for asked in [Asked::Header { places: 0 }, Asked::Revolution { track: 1, revolution: 0, places: 3 }, rewrite()] {
            assert_eq!(number(&image, &asked.by(V1_6.number())), Ok(due.0.into()), "{bytes:02X?} at {place}");
        }
    }
    // and so does 12
    let mut image = image;
    image[12] ^= 1;
    assert_eq!(refused(&image), [Some((12, 0)), Some((19, 5))]);
}

#[test]
fn a_string_is_tested_before_what_a_call_asks_for() {
    let sound = sound();
    let spoilt = spoilt(&sound, 0);
    let put = |track, revolution, words: &[u8]| Asked::Rewrite { track, revolution, duration: 1, words: words.to_vec() };
    for (due, asked) in [
        (13, Asked::Track { track: 3, places: 4 }),
        (13, Asked::TrackSpeed { track: 168, places: 3 }),
        (13, put(u32::MAX, 0, &[])),
        (14, Asked::Revolution { track: 0, revolution: 2, places: 3 }),
        (14, Asked::Speed { track: 0, revolution: 2, places: 2 }),
        (14, put(0, 2, &[0; 2])),
        (15, Asked::Header { places: 8 }),
        (15, Asked::Footer { places: 0 }),
        (15, Asked::Flux { track: 0, revolution: 0, places: 7 }),
        (17, put(0, 0, &[0; 10])),
        (17, put(0, 0, &[0; 3])),
    ] {
        assert_eq!(number(&sound, &asked.clone().by(V1_6.number())), Ok(due), "{asked:?}");
        assert_eq!(number(&spoilt, &asked.clone().by(V1_6.number())), Ok(19), "{asked:?}");
    }
    // the flux of a revolution as the place of a string, and so as bytes that others claim
    let flux = scp::revolution(&sound, V1_6, 0, 0).unwrap().offset;
    let shared = |words: &[u8; 8]| {
        let image = with(&sound, flux as usize, words);
        with(&image, slot(&image, 4), &(flux as u32).to_le_bytes())
    };
    for (words, due) in [(b"\x05\0Amiga\0", 18), (b"\x05\0\xE2\x82\xAC\xC2\xB5\0", 18), (b"\x05\0Amig\x97\0", 19), (b"\x05\0Amiga!", 8)] {
        let image = shared(words);
        let numbers = Edition::ALL.map(|edition| number(&image, &put(0, 0, &[0; 8]).by(edition.number())));
        assert_eq!(numbers, [Ok(0), Ok(due)], "{words:02X?}");
        assert_eq!(number(&image, &put(0, 1, &[0; 8]).by(V1_6.number())), Ok(if due == 18 { 0 } else { due }), "{words:02X?}");
    }
}

#[test]
fn what_no_entry_names_is_no_string() {
    let sound = sound();
    for string in 0..6 {
        let spoilt = spoilt(&sound, string);
        assert_eq!(refused(&with(&spoilt, slot(&sound, string), &[0; 4])), [None; 2]);
        // two entries of one ill-formed text: the first of them is the position
        let offset = number_at(&sound, slot(&sound, string)).to_le_bytes();
        for other in 0..6 {
            let twice = with(&spoilt, slot(&sound, other), &offset);
            assert_eq!(refused(&twice)[1], Some((19, string.min(other) as u64)));
        }
    }
    // empty strings, and bytes behind their ends
    assert_eq!(refused(&with_texts([&[]; 6])), [None; 2]);
    let trailed = with_strings(&Style { timestamp: "", ..THREE_TRACKS }, 4, TEXTS.map(|text| Some(text.into())));
    let longer = [&trailed[..trailed.len() - FOOTER_SIZE], &[0x97, 0xFF, 0x80], &trailed[trailed.len() - FOOTER_SIZE..]].concat();
    assert_eq!(refused(&with(&longer, 0, b"SCP")), [None; 2]);
}

#[test]
fn six_strings_of_the_greatest_length() {
    let mut random = Random::new(21);
    let widths = [&[1][..], &[2], &[3], &[4], &[1, 2, 3, 4], &[1, 1, 1, 1, 1, 1, 1, 1, 1, 4]];
    let strings = widths.map(|widths| Some(of_widths(LONGEST, widths, &mut random)));
    let image = with_strings(&THREE_TRACKS, 4, strings);
    assert_eq!(refused(&image), [None; 2]);
    for (string, position) in (0..6).zip(0..) {
        let (place, size) = text_of(&image, string);
        assert_eq!(size, LONGEST);
        for at in [0, 1, 63, 64, 65, size / 2, size - 65, size - 2, size - 1] {
            assert_eq!(refused(&with(&image, place + at, &[0xFF])), [None, Some((19, position))], "byte {at}");
        }
        assert_eq!(refused(&with(&image, place + size - 1, &[0])), [None, Some((8, position))]);
    }
}

// ---- generated cases

#[test]
fn generated_cases_refuse_every_call_with_19() {
    let (mut single, mut rows) = (HashSet::new(), BTreeSet::new());
    for number in 0..4000 {
        let case = case(19, number);
        for question in &case.questions {
            let agreed = compare(&case.bytes, question).expect("library and reader agree");
            match question {
                Question::OnImage { asked, .. } if agreed.number == 19 => {
                    single.insert(discriminant(asked));
                }
                Question::Sequence { calls, .. } => {
                    let refused = calls.chunks_exact(CALL).zip(&agreed.rows).filter(|(_, &number)| number == 19);
                    rows.extend(refused.map(|(call, _)| call[0].min(9)));
                }
                _ => (),
            }
        }
    }
    // validating, seven questions and rewriting
    assert_eq!((single.len(), rows), (9, (0..10).collect()));
}

/// The image without those of its strings that have such a text.
fn without(image: &[u8], such: impl Fn(&[u8]) -> bool) -> Vec<u8> {
    let mut less = image.to_vec();
    for string in 0..6 {
        if scp::string(image, number_at(image, slot(image, string))).is_some_and(&such) {
            set(&mut less, slot(image, string), &[0; 4]);
        }
    }
    less
}

#[test]
fn generated_cases_have_strings_that_claim_bytes() {
    let (mut claimed, mut wide) = (0, 0);
    for index in 0..24_000 {
        let Case { bytes, questions } = case(1, index);
        for question in &questions {
            let rewrite_by_1_6 =
                matches!(question, Question::OnImage { edition, asked: Asked::Rewrite { .. } } if !is_1_4((*edition).into()));
            if rewrite_by_1_6 && number(&bytes, question) == Ok(18) && scp::footer(&bytes, V1_6).is_ok_and(|footer| footer.is_some()) {
                claimed += usize::from(number(&without(&bytes, |_| true), question) == Ok(0));
                wide += usize::from(number(&without(&bytes, |text| !text.is_ascii()), question) == Ok(0));
            }
        }
    }
    println!("{claimed} rewrites are refused for strings alone, {wide} of them for strings that are not ASCII");
    assert!(claimed > 60 && wide > 30, "{claimed}, {wide}");
}
