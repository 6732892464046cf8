//! Strings that are text: well-formed UTF-8, beside what the standard library finds, and refusal 19 in its order; expected values
//! by hand.

mod common;
mod footers;
mod sample;

use common::{put, refused, revolutions_of_track_0};
use footers::{a_with_footer, all_refuse, footer_row, with_footer};
use sample::{a_with, image_a, old_a, replays, two_tracks, NEW_FLUX};
use scp_reader::Edition::{V1_4, V1_6};
use scp_reader::*;

/// Texts without a zero byte that are not well-formed, each with how many of its bytes come before the fault.
const ILL_FORMED: [(&[u8], usize); 37] = [
    // A letter of another code: alone, first, last and between.
    (b"\x97", 0),
    (b"\xE9t\xE9", 0),
    (b"My \x97pp", 3),
    (b"4 \xB5s", 2),
    (b"caf\xE9", 3),
    // A following byte without a first one, also behind a whole character.
    (b"\x80", 0),
    (b"x\xBF", 1),
    (b"\xC2\xB5\xB5", 2),
    (b"\xF0\x9F\x98\x80\x80", 4),
    // First bytes that are none.
    (b"\xC0", 0),
    (b"\xC1\xBF", 0),
    (b"\xF5\x80\x80\x80", 0),
    (b"\xF7\xBF\xBF\xBF", 0),
    (b"\xF8\x88\x80\x80\x80", 0),
    (b"\xFC\x84\x80\x80\x80\x80", 0),
    (b"\xFE", 0),
    (b"\xFF\xFE", 0),
    // More bytes than the value needs: 0, 0x2F, 0x7F, 0x7FF and 0xFFFF.
    (b"\xC0\x80", 0),
    (b"\xE0\x80\x80", 0),
    (b"\xF0\x80\x80\x80", 0),
    (b"..\xC0\xAF", 2),
    (b"\xE0\x81\xBF", 0),
    (b"\xE0\x9F\xBF", 0),
    (b"\xF0\x8F\xBF\xBF", 0),
    // The first and the last surrogate, and a pair of them.
    (b"\xED\xA0\x80", 0),
    (b"\xED\xBF\xBF", 0),
    (b"x\xED\xA0\xBD\xED\xB8\x80", 1),
    // The first value above 10FFFF.
    (b"\xF4\x90\x80\x80", 0),
    // Cut off by the end, by a letter and by another first byte.
    (b"\xC2", 0),
    (b"\xE2\x82", 0),
    (b"x\xF0\x9F\x98", 1),
    (b"\xC2x", 0),
    (b"\xE2\x82x", 0),
    (b"\xF0\x9F\x98x", 0),
    (b"\xC3\xC3\xA9", 0),
    (b"\xE2\xC2\x82\xAC", 0),
    (b"x\xC2\xB5\xE2\x82\xC2\xB5", 3),
];

/// Well-formed texts: the edges of 1, 2, 3 and 4 bytes, the values beside the surrogates, and values that stand for no character.
const WELL_FORMED: [&[u8]; 15] = [
    b"",
    b"\x01",
    b"My app",
    b"\x7F",
    b"\xC2\x80",
    b"4 \xC2\xB5s",
    b"\xDF\xBF",
    b"\xE0\xA0\x80",
    b"\xED\x9F\xBF\xEE\x80\x80",
    b"\xEF\xBF\xBE\xEF\xBF\xBF",
    b"\xEF\xBB\xBFx",
    b"\xF0\x90\x80\x80",
    b"\xF0\x9F\x98\x80",
    b"\xF4\x8F\xBF\xBF",
    b"a\xC3\xA9\xE2\x82\xAC\xF0\x9F\x98\x80z",
];

/// The test of text finds what the standard library finds.
fn agrees(text: &[u8]) {
    let known = std::str::from_utf8(text).map_or_else(|fault| fault.valid_up_to(), str::len);
    assert_eq!(valid_up_to(text), known, "{text:02X?}");
}

/// It does so on all texts of some parts, up to this many.
fn agrees_on_all(parts: &[&[u8]], most: usize) {
    let mut texts = vec![Vec::new()];
    for _ in 0..most {
        texts = texts.iter().flat_map(|text| parts.iter().map(move |part| [&text[..], part].concat())).collect();
        texts.iter().for_each(|text| agrees(text));
    }
}

#[test]
fn text_is_valid_up_to_its_first_fault() {
    for (text, valid) in ILL_FORMED {
        assert_eq!(valid_up_to(text), valid, "{text:02X?}");
        // Behind other text, and before it.
        assert_eq!(valid_up_to(&[b"4 \xC2\xB5s", text].concat()), 5 + valid);
        assert_eq!(valid_up_to(&[text, b"\x7F"].concat()), valid);
        assert_eq!(valid_up_to(&[text, b"\0"].concat()), valid);
    }
    for text in WELL_FORMED {
        assert_eq!(valid_up_to(text), text.len(), "{text:02X?}");
        assert_eq!(valid_up_to(&[text, b"\0", text].concat()), 2 * text.len() + 1);
        assert_eq!(valid_up_to(&[text, b"\x97", text].concat()), text.len());
    }
}

#[test]
fn all_texts_of_up_to_3_bytes() {
    agrees(&[]);
    for number in 0..=0xFF_FFFF_u32 {
        let [_, first, second, third] = number.to_be_bytes();
        agrees(&[first, second, third]);
        if third == 0 {
            agrees(&[first, second]);
        }
    }
    for byte in 0..=0xFF {
        agrees(&[byte]);
    }
}

#[test]
fn texts_of_4_and_5_bytes_at_the_edges() {
    let edges = b"\x00\x7F\x80\x8F\x90\x9F\xA0\xBF\xC0\xC1\xC2\xDF\xE0\xE1\xEC\xED\xEE\xEF\xF0\xF1\xF3\xF4\xF5\xF7\xF8\xFB\xFC\xFE\xFF";
    agrees_on_all(&edges.chunks(1).collect::<Vec<_>>(), 4);
    agrees_on_all(&b"x\x80\x8F\x90\x9F\xA0\xBF\xE0\xED\xF0\xF4\xF8".chunks(1).collect::<Vec<_>>(), 5);
}

#[test]
fn texts_of_several_characters_and_faults() {
    let well: [&[u8]; 4] = [b"x", b"\xC3\xA9", b"\xE2\x82\xAC", b"\xF0\x9F\x98\x80"];
    let ill: [&[u8]; 8] = [b"\x97", b"\xC3", b"\xE2\x82", b"\xF0\x9F\x98", b"\xC0\x80", b"\xED\xA0\x80", b"\xF4\x90\x80\x80", b"\xFF"];
    agrees_on_all(&[&well[..], &ill].concat(), 4);
    agrees_on_all(&well, 7);
}

#[test]
fn every_character_is_text_and_no_part_of_it_is() {
    for letter in '\0'..=char::MAX {
        let mut bytes = [0; 4];
        let text = letter.encode_utf8(&mut bytes).as_bytes();
        assert_eq!(valid_up_to(text), text.len());
        for cut in 1..text.len() {
            assert_eq!((valid_up_to(&text[..cut]), valid_up_to(&text[cut..])), (0, 0));
        }
    }
}

/// A string: its length, these letters and the closing zero.
fn string(letters: &[u8]) -> Vec<u8> {
    [&(letters.len() as u16).to_le_bytes()[..], letters, &[0]].concat()
}

/// Image A with these strings one behind the other from 712 on, each with its length and its last byte; an empty one is absent.
fn a_with_strings(strings: [&[u8]; 6]) -> Vec<u8> {
    let mut between = Vec::new();
    let offsets = strings.map(|one| {
        let offset = if one.is_empty() { 0 } else { 712 + between.len() as u32 };
        between.extend(one);
        offset
    });
    a_with_footer(&between, offsets)
}

/// Image A with one string of these letters, which has this number.
fn a_with_text(number: usize, letters: &[u8]) -> Vec<u8> {
    let one = string(letters);
    let mut strings: [&[u8]; 6] = [&[]; 6];
    strings[number] = &one;
    a_with_strings(strings)
}

/// The image with the checksum that is due, where it is read-only.
fn summed(mut image: Vec<u8>) -> Vec<u8> {
    let sum: u32 = image[0x10..].iter().map(|&byte| u32::from(byte)).sum();
    put(&mut image, 0x0C, &sum.to_le_bytes());
    image
}

#[test]
fn refusal_19_text() {
    for number in 0..6 {
        for (letters, _) in ILL_FORMED {
            all_refuse(&a_with_text(number, letters), V1_6, 19, number as u64);
            all_refuse(&summed(a_with_text(number, letters)), V1_6, 19, number as u64);
        }
        for letters in WELL_FORMED {
            assert_eq!(validate(&summed(a_with_text(number, letters)), V1_6), Ok(()));
        }
        // Every string of one letter.
        for letter in 1..=0xFF {
            let expected = if letter < 0x80 { Ok(()) } else { refused(19, number as u64) };
            assert_eq!(validate(&summed(a_with_text(number, &[letter])), V1_6), expected);
        }
    }
}

#[test]
fn the_printed_example_is_no_text() {
    // "My app", as it is printed, and with the "a" of ASCII.
    let mut image = a_with_footer(b"\x06\x00\x4D\x79\x20\x97\x70\x70\x00", [0, 0, 0, 0, 712, 0]);
    all_refuse(&image, V1_6, 19, 4);
    image[717] = 0x61;
    assert_eq!(footer(&image, V1_6).unwrap().unwrap().offsets, [0, 0, 0, 0, 712, 0]);
}

#[test]
fn text_ends_with_its_string() {
    // What would complete the character lies behind the closing zero, or in the next string.
    all_refuse(&a_with_footer(b"\x01\x00\xC3\x00\xA9\x00", [0, 712, 0, 0, 0, 0]), V1_6, 19, 1);
    all_refuse(&a_with_strings([&string(b"\xC3"), &string(b"\xA9"), b"", b"", b"", b""]), V1_6, 19, 0);
    all_refuse(&a_with_strings([&string(b"x"), &string(b"\xA9"), b"", b"", b"", b""]), V1_6, 19, 1);
    // What follows the closing zero, and what stands before the length, is not looked at.
    assert!(footer(&a_with_footer(b"\x97\x01\x00x\x00\x97", [0, 0, 713, 0, 0, 0]), V1_6).is_ok());
    assert!(footer(&a_with_footer(b"\xC3\x02\x00\xC3\xA9\x00\xA9", [0, 0, 713, 0, 0, 0]), V1_6).is_ok());
    // A length of 0x80 and of 0xC2 is no letter.
    for length in [0x80, 0xC2, 0x8080] {
        assert!(footer(&a_with_text(2, &vec![b'x'; length]), V1_6).is_ok());
    }
}

#[test]
fn an_absent_string_is_not_looked_at_and_an_empty_one_is_text() {
    assert!(footer(&a_with_footer(b"\x01\x00\x97\x00", [0; 6]), V1_6).is_ok());
    for number in 0..6 {
        let mut offsets = [0; 6];
        offsets[number] = 712;
        assert!(footer(&a_with_footer(b"\x00\x00\x00\x97\x00", offsets), V1_6).is_ok());
        // The same string under all other numbers.
        let others = offsets.map(|offset| 712 - offset);
        assert!(footer(&a_with_footer(b"\x00\x00\x00\x97\x00", others), V1_6).is_ok());
        all_refuse(&a_with_footer(b"\x01\x00\x97\x00", others), V1_6, 19, u64::from(number == 0));
    }
}

#[test]
fn a_string_of_65_535_bytes_is_text_to_its_last() {
    let mut letters = b"\xE2\x82\xAC".repeat(21_845);
    assert_eq!(letters.len(), 65_535);
    assert!(footer(&a_with_text(5, &letters), V1_6).is_ok());
    // A letter more at the start: the last character is cut off.
    letters.insert(0, b'x');
    letters.pop();
    assert_eq!(valid_up_to(&letters), 65_533);
    all_refuse(&a_with_text(5, &letters), V1_6, 19, 5);
    // Two more, and all of it fits again.
    letters[65_533..].copy_from_slice(b"\xC2\xB5");
    assert!(footer(&a_with_text(5, &letters), V1_6).is_ok());
    for place in [0, 255, 256, 32_767, 32_768, 65_534] {
        let mut other = vec![b'x'; 65_535];
        other[place] = 0x97;
        assert_eq!(footer(&a_with_text(5, &other), V1_6), refused(19, 5));
    }
}

/// A string that is text.
const TEXT: &[u8] = b"\x02\x00\xC2\xB5\x00";

/// A string that is no text.
const NO_TEXT: &[u8] = b"\x01\x00\x97\x00";

/// A string of text that is not closed.
const NOT_CLOSED: &[u8] = b"\x02\x00hi\x01";

/// A string that is not closed, and no text.
const NEITHER: &[u8] = b"\x01\x00\x97\x01";

#[test]
fn refusal_8_of_a_string_then_19_of_it_then_the_next() {
    all_refuse(&a_with_strings([TEXT, NOT_CLOSED, b"", NO_TEXT, b"", b""]), V1_6, 8, 1);
    all_refuse(&a_with_strings([TEXT, NO_TEXT, b"", NOT_CLOSED, b"", b""]), V1_6, 19, 1);
    all_refuse(&a_with_strings([b"", b"", b"", NEITHER, b"", NO_TEXT]), V1_6, 8, 3);
    all_refuse(&a_with_strings([b"", b"", b"", NO_TEXT, b"", NEITHER]), V1_6, 19, 3);
    // A zero inside, no room for the zero below the footer, no room at all, and a place in the table.
    all_refuse(&a_with_strings([b"", b"", b"", b"", b"\x02\x00\x97\x00\x00", b""]), V1_6, 8, 4);
    all_refuse(&a_with_footer(b"\x01\x00\x97", [0, 712, 0, 0, 0, 0]), V1_6, 8, 1);
    all_refuse(&a_with_footer(b"\x09\x00\x97\x00", [0, 712, 0, 0, 0, 0]), V1_6, 8, 1);
    let mut low = a_with_footer(&[], [0, 0, 684, 0, 0, 0]);
    put(&mut low, 684, NO_TEXT);
    all_refuse(&low, V1_6, 8, 2);
}

#[test]
fn the_first_faulty_string_refuses_whatever_the_others_are() {
    let kinds = [(&b""[..], 0), (TEXT, 0), (NO_TEXT, 19), (NOT_CLOSED, 8), (NEITHER, 8)];
    for number in 0..5_usize.pow(6) {
        let chosen = [1, 5, 25, 125, 625, 3_125].map(|power| kinds[number / power % 5]);
        let expected = match chosen.iter().position(|&(_, fault)| fault != 0) {
            Some(first) => refused(chosen[first].1, first as u64),
            None => Ok(()),
        };
        assert_eq!(header(&a_with_strings(chosen.map(|(one, _)| one)), V1_6).map(|_| ()), expected);
    }
}

#[test]
fn refusals_1_to_7_come_before_19_and_9_to_12_after_it() {
    // Everything is wrong, then one fault after the other is mended. The string lies at 712, the footer from 716 on.
    let mut image = a_with_text(3, b"\x97");
    put(&mut image, 0, b"scp\x16\x00\x00\x02\x01\x21\x08\x03");
    put(&mut image, 688, b"TRQ");
    put(&mut image, 696, &[7]);
    put(&mut image, 763, b"T");
    all_refuse(&image[..687], V1_6, 1, 0);
    let mends: [(usize, &[u8], u32, u64); 10] = [
        (0, b"SCP", 2, 0),
        (9, &[0], 3, 0),
        (5, &[1], 4, 0),
        (7, &[2], 5, 0),
        (0x0A, &[0], 6, 0),
        (763, b"S", 7, 0),
        (714, b"x", 19, 3),
        (6, &[0], 9, 0),
        (688, b"TRK", 10, 0),
        (696, &[4], 11, 0),
    ];
    for (place, bytes, number, position) in mends {
        all_refuse(&image, V1_6, number, position);
        put(&mut image, place, bytes);
    }
    assert_eq!(validate(&image, V1_6), refused(12, 0));
    assert_eq!(validate(&summed(image), V1_6), Ok(()));
    // Each of 9, 10 and 11 alone.
    for bad in [a_with(6, &[1, 1]), a_with(690, b"Q"), a_with(696, &[7])] {
        assert!(header(&bad, V1_6).is_err());
        all_refuse(&with_footer(bad, NO_TEXT, [0, 0, 0, 0, 712, 0]), V1_6, 19, 4);
    }
}

#[test]
fn refusal_19_never_under_1_4() {
    for (letters, _) in ILL_FORMED {
        let image = summed(a_with_text(3, letters));
        assert_eq!(validate(&image, V1_4), Ok(()));
        assert_eq!(footer(&image, V1_4), Ok(None));
        assert_eq!(revolution(&image, V1_4, 0, 0), Ok(Revolution { duration: 8_000_000, words: 4, place: 704 }));
        assert_eq!(track_speed(&image, V1_4, 0), Ok(Some((300.0, 300.0))));
        let mut copy = image.clone();
        assert_eq!(rewrite(&mut copy, V1_4, 0, 0, 8_000_000, &NEW_FLUX), Ok(()));
        assert_eq!(validate(&copy, V1_4), Ok(()));
        assert_eq!(copy[704..712], NEW_FLUX);
    }
    // Under 1.6 the string comes before the track, which lies too low.
    let old = summed(with_footer(old_a(), NO_TEXT, [704; 6]));
    assert_eq!(validate(&old, V1_4), Ok(()));
    assert_eq!(track(&old, V1_4, 0), Ok(Track { cylinder: 0, head: 0, place: 680, revolutions: 1 }));
    all_refuse(&old, V1_6, 19, 0);
}

#[test]
fn refusal_19_never_in_the_direct_calls() {
    // The flux of revolution k lies at 3,752 + 2k and ends at 4,262, where the string starts.
    for one in [NO_TEXT, TEXT] {
        let image = with_footer(revolutions_of_track_0(688, 255), one, [0, 0, 0, 0, 0, 4_262]);
        assert_eq!(header(&image, V1_6).is_ok(), one == TEXT);
        assert_eq!(direct::track(&image, V1_6, 0), Ok(Track { cylinder: 0, head: 0, place: 688, revolutions: 255 }));
        for number in 0..255 {
            let expected = Revolution { duration: number, words: 1, place: 3_752 + 2 * u64::from(number) };
            assert_eq!(direct::revolution(&image, V1_6, 0, number), Ok(expected));
            assert_eq!(direct::flux(&image, V1_6, 0, number), Ok(vec![0, number as u8 + 1]));
        }
        assert_eq!(direct::revolution(&image, V1_6, 0, 255), refused(14, 0));
        for absent in [1, 167, 168, u32::MAX] {
            assert_eq!(direct::track(&image, V1_6, absent), refused(13, 0));
            assert_eq!(direct::flux(&image, V1_6, absent, 0), refused(13, 0));
        }
        // Its own faults come as ever.
        let mut bad = image.clone();
        put(&mut bad, 3_748, &[0xFF; 4]);
        assert_eq!(direct::track(&bad, V1_6, 0), refused(11, 0));
        put(&mut bad, 688, b"X");
        assert_eq!(direct::track(&bad, V1_6, 0), refused(10, 0));
        put(&mut bad, 0x0A, &[2]);
        assert_eq!(direct::track(&bad, V1_6, 0), refused(9, 0));
    }
}

#[test]
fn a_rewrite_is_refused_and_changes_no_byte() {
    let sound = with_footer(two_tracks(), TEXT, [0, 768, 0, 0, 0, 0]);
    let bad = with_footer(two_tracks(), NO_TEXT, [0, 768, 0, 0, 0, 0]);
    // Those that are accepted with text; then 13, 14 and 17, and 18 with the flux on the string.
    for (number, turn) in [(0, 0), (0, 1), (3, 0), (3, 1)] {
        for words in [&[][..], &[0, 9], &[0, 9, 0, 8]] {
            let mut copy = sound.clone();
            assert_eq!(rewrite(&mut copy, V1_6, number, turn, 9, words), Ok(()));
            assert_ne!(copy, sound);
            let mut copy = bad.clone();
            assert_eq!(rewrite(&mut copy, V1_6, number, turn, 9, words), refused(19, 1));
            assert_eq!(copy, bad);
        }
    }
    let mut shared = (sound, bad);
    put(&mut shared.0, 756, &[36]);
    put(&mut shared.1, 756, &[36]);
    let others: [(u32, u32, &[u8], u32); 5] = [(1, 0, &[], 13), (168, 0, &[], 13), (3, 2, &[], 14), (3, 0, &[1], 17), (3, 1, &[], 18)];
    for (number, turn, words, refusal) in others {
        assert_eq!(rewrite(&mut shared.0.clone(), V1_6, number, turn, 9, words), refused(refusal, 0));
        let mut copy = shared.1.clone();
        assert_eq!(rewrite(&mut copy, V1_6, number, turn, 9, words), refused(19, 1));
        assert_eq!(copy, shared.1);
    }
}

#[test]
fn replay_gives_19_with_its_position() {
    let mut image = a_with_text(5, b"caf\xE9");
    let first = image.clone();
    let kinds = [0, 1, 2, 3, 4, 5, 6, 7, 8, 9, u64::MAX];
    replays(&mut image, &kinds.map(|kind| [kind, 0, 0, 9, 0, 8, 16]), &NEW_FLUX, &[&[19, 5][..]; 11]);
    assert_eq!(image, first);
    // By 1.4 the same calls are answered, and the rewrite is done.
    let rpm = 300.0_f64.to_bits();
    let expected: [&[u64]; 9] = [
        &[12],
        &[0, 0, 0x16, 0, 1, 0, 0, 0x21, 0, 0, 980],
        &[],
        &[0, 0, 0, 0, 688, 1],
        &[0, 0, 8_000_000, 4, 704],
        &[0, 0, 704, 8, 0xA0 + 1 + 0xF0],
        &[0, 0, 1, rpm],
        &[0, 0, 1, rpm, rpm],
        &[],
    ];
    replays(&mut image, &[0, 1, 2, 3, 4, 5, 6, 7, 8].map(|kind| [kind, 0, 0, 9, 0, 8, 14]), &NEW_FLUX, &expected);
    assert_eq!(image[704..712], NEW_FLUX);
    replays(&mut image, &[[4, 0, 0, 0, 0, 0, 14], [4, 0, 0, 0, 0, 0, 16]], &[], &[&[0, 0, 9, 4, 704], &[19, 5]]);
}

#[test]
fn a_rewrite_named_1_4_makes_text_of_1_6_ill_formed_and_undo_well_formed_again() {
    // The flux at 704 to 711 holds the string C3 A9, at 706 to 710; then it is C3 C3, and then C3 A8.
    let sound = [0x00, 0xA0, 0x02, 0x00, 0xC3, 0xA9, 0x00, 0x01];
    let broken = [0x00, 0xA0, 0x02, 0x00, 0xC3, 0xC3, 0x00, 0x01];
    let other = [0x00, 0xA0, 0x02, 0x00, 0xC3, 0xA8, 0x00, 0x01];
    let mut image = a_with_footer(&[], [0, 0, 706, 0, 0, 0]);
    put(&mut image, 704, &sound);
    // 980 - 401 + 527, offset 194 + 2, times 2,040 and 625, versions 80, sign 300.
    put(&mut image, 0x0C, &4_347_u32.to_le_bytes());
    let first = image.clone();
    let words = [broken, other].concat();
    let row = footer_row(706);
    let calls = [
        [2, 0, 0, 0, 0, 0, 16],
        [0, 0, 0, 0, 0, 0, 16],
        [8, 0, 0, 7, 0, 8, 16],
        [8, 0, 0, 8_000_000, 0, 8, 14],
        [2, 0, 0, 0, 0, 0, 16],
        [0, 0, 0, 0, 0, 0, 16],
        [8, 0, 0, 7, 8, 8, 16],
        [0, 0, 0, 0, 0, 0, 14],
        [1, 0, 0, 0, 0, 0, 14],
        [8, 0, 0, 8_000_000, 8, 8, 14],
        [2, 0, 0, 0, 0, 0, 16],
        [0, 0, 0, 0, 0, 0, 16],
    ];
    let expected: [&[u64]; 12] =
        [&row, &[], &[18], &[], &[19, 2], &[19, 2], &[19, 2], &[], &[0, 0, 0x16, 0, 1, 0, 0, 0x21, 0, 0, 4_373], &[], &row, &[]];
    replays(&mut image, &calls, &words, &expected);
    // The two rewrites by 1.4 are taken back, over the text that is none.
    let (rows, former) = undo(&first, &calls.concat(), &words);
    assert_eq!(rows, [[8, 0, 0, 8_000_000, 0, 8, 14], [8, 0, 0, 8_000_000, 8, 8, 14]].concat());
    assert_eq!(former, [broken, sound].concat());
    let back: [[u64; 7]; 2] = [rows[..7].try_into().unwrap(), rows[7..].try_into().unwrap()];
    let checked = [back[0], [2, 0, 0, 0, 0, 0, 16], back[1], [2, 0, 0, 0, 0, 0, 16]];
    replays(&mut image, &checked, &former, &[&[], &[19, 2], &[], &row]);
    assert_eq!(image, first);
}

#[test]
fn an_image_with_a_string_that_is_no_text_gives_nothing_to_take_back_by_1_6() {
    let image = a_with_text(0, b"\x97");
    let calls = [[8, 0, 0, 9, 0, 8, 16], [8, 0, 0, 9, 0, 8, 14], [8, 0, 0, 8, 0, 8, 16]];
    assert_eq!(undo(&image, &calls[0], &NEW_FLUX), (vec![], vec![]));
    let former = image_a()[704..].to_vec();
    assert_eq!(undo(&image, &calls.concat(), &NEW_FLUX), (vec![8, 0, 0, 8_000_000, 0, 8, 14], former));
    // Without FLAGS bit 5 there is no footer, and all three are taken back.
    let mut bare = image;
    put(&mut bare, 8, &[0x01]);
    assert_eq!(undo(&bare, &calls.concat(), &NEW_FLUX).0.len(), 3 * 7);
}
