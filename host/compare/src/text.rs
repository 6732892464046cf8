//! Texts by chance: well-formed UTF-8 of characters of every width, and texts that are ill-formed in each way. No byte of either is zero,
//! as no byte of a string may be.

use crate::random::Random;

/// Of each width, 1 to 4 bytes, the first and the last character but zero, and those at the edges of what a second byte may be.
const EDGES: [&[char]; 4] = [
    &['\u{1}', ' ', 'a', '\u{7F}'],
    &['\u{80}', '\u{B5}', '\u{7FF}'],
    &['\u{800}', '\u{FFF}', '\u{1000}', '\u{20AC}', '\u{CFFF}', '\u{D000}', '\u{D7FF}', '\u{E000}', '\u{FEFF}', '\u{FFFF}'],
    &['\u{10000}', '\u{1F4BE}', '\u{3FFFF}', '\u{40000}', '\u{FFFFF}', '\u{100000}', '\u{10FFFF}'],
];

/// Of each width the least and the greatest character but zero.
const RANGES: [(usize, usize); 4] = [(1, 0x7F), (0x80, 0x7FF), (0x800, 0xFFFF), (0x1_0000, 0x10_FFFF)];

/// The bytes at the edges of what may be a character by itself, a lead byte, or a continuation byte behind some lead byte.
pub const EDGE_BYTES: [u8; 30] = [
    0x00, 0x01, 0x7F, 0x80, 0x81, 0x8F, 0x90, 0x91, 0x9F, 0xA0, 0xA1, 0xBE, 0xBF, 0xC0, 0xC1, 0xC2, 0xDF, 0xE0, 0xE1, 0xEC, 0xED, 0xEE,
    0xEF, 0xF0, 0xF1, 0xF3, 0xF4, 0xF5, 0xF8, 0xFF,
];

/// The widths that a text is made of.
const WIDTHS: [&[usize]; 6] = [&[1], &[1, 2, 3, 4], &[1, 1, 1, 1, 1, 1, 1, 1, 2, 3, 4], &[2], &[3], &[4]];

/// Ill-formed sequences: none is part of a well-formed text, wherever it starts, even if it is truncated.
pub const ILL_FORMED: [&[u8]; 46] = [
    // continuation bytes without a lead byte; 0x97 is what a capture tool wrote for a letter
    &[0x80],
    &[0x97],
    &[0xBF],
    &[0x9F, 0xA0, 0x8F, 0x90],
    // longer than the shortest form
    &[0xC0, 0x80],
    &[0xC0, 0xAF],
    &[0xC1, 0xBF],
    &[0xE0, 0x80, 0x80],
    &[0xE0, 0x82, 0x80],
    &[0xE0, 0x9F, 0xBF],
    &[0xF0, 0x80, 0x80, 0x80],
    &[0xF0, 0x82, 0x82, 0xAC],
    &[0xF0, 0x8F, 0xBF, 0xBF],
    // surrogates, and a pair of them
    &[0xED, 0xA0, 0x80],
    &[0xED, 0xAF, 0xBF, 0xED, 0xB0, 0x80],
    &[0xED, 0xBF, 0xBF],
    // above U+10FFFF, and bytes that never occur
    &[0xF4, 0x90, 0x80, 0x80],
    &[0xF4, 0xBF, 0xBF, 0xBF],
    &[0xF5, 0x80, 0x80, 0x80],
    &[0xF7, 0xBF, 0xBF, 0xBF],
    &[0xF8, 0x88, 0x80, 0x80, 0x80],
    &[0xFC, 0x84, 0x80, 0x80, 0x80, 0x80],
    &[0xFE],
    &[0xFF],
    &[0xFF, 0xFE],
    // truncated to one, two, three bytes
    &[0xC2],
    &[0xDF],
    &[0xE0],
    &[0xE2, 0x82],
    &[0xED],
    &[0xEF, 0xBF],
    &[0xF0],
    &[0xF0, 0x9F],
    &[0xF0, 0x9F, 0x92],
    &[0xF1, 0x80, 0x80],
    &[0xF4, 0x8F, 0xBF],
    // a letter or a lead byte in the place of a continuation byte
    &[0xC3, b'a'],
    &[0xC3, 0xC3, 0xA9],
    &[0xE2, b'a', 0xAC],
    &[0xE2, 0x82, b'a'],
    &[0xE2, 0x82, 0xE2, 0x82, 0xAC],
    &[0xF0, b'a', 0x92, 0xBE],
    &[0xF0, 0x9F, b'a', 0xBE],
    &[0xF0, 0x9F, 0x92, b'a'],
    &[0xF3, 0xBF, b'a', 0xBF],
    &[0xF0, 0x9F, 0x92, 0xF0, 0x9F, 0x92, 0xBE],
];

/// How many bytes a text has: none, a few, about as many as some blocks of 32, or some hundred.
pub fn size(random: &mut Random) -> usize {
    match random.below(8) {
        0 => 0,
        1 | 2 => random.between(1, 4),
        3 => random.between(5, 30),
        4 => random.between(0, 130),
        5 | 6 => 32 * random.between(1, 4) + random.below(3) - 1,
        _ => 300,
    }
}

/// Well-formed text of so many bytes: of ASCII alone, of ASCII but for one character at any place, of all widths or of one.
pub fn well_formed(size: usize, random: &mut Random) -> Vec<u8> {
    if size > 1 && random.once_in(3) {
        let width = random.between(2, size.min(4));
        let before = random.between(0, size - width);
        let mut part = |size, width| of_widths(size, &[width], random);
        return [part(before, 1), part(width, width), part(size - width - before, 1)].concat();
    }
    let widths = random.pick(&WIDTHS);
    of_widths(size, widths, random)
}

/// Well-formed text of so many bytes, of characters of these widths; its last one is narrower where that is all there is room for.
pub fn of_widths(size: usize, widths: &[usize], random: &mut Random) -> Vec<u8> {
    let mut text = String::with_capacity(size);
    while text.len() < size {
        let width = random.pick(widths).min(size - text.len());
        text.push(character(width, random));
    }
    text.into_bytes()
}

/// A character of a width: any, or one at an edge.
fn character(width: usize, random: &mut Random) -> char {
    let (edges, (low, high)) = (EDGES[width - 1], RANGES[width - 1]);
    match char::from_u32(random.between(low, high) as u32) {
        Some(character) if !random.once_in(3) => character,
        _ => random.pick(edges),
    }
}

/// Text of so many bytes, at least 1, that is well-formed but for one sequence: at its start, at its end, or anywhere. That sequence is
/// truncated where there is no room for it.
pub fn ill_formed(size: usize, random: &mut Random) -> Vec<u8> {
    let sequence = random.pick(&ILL_FORMED);
    let sequence = &sequence[..sequence.len().min(size)];
    let room = size - sequence.len();
    let before = match random.below(4) {
        0 => 0,
        1 => room,
        _ => random.between(0, room),
    };
    [&well_formed(before, random), sequence, &well_formed(room - before, random)].concat()
}

/// So many bytes at the edges, zeros among them.
pub fn edge_bytes(size: usize, random: &mut Random) -> Vec<u8> {
    (0..size).map(|_| random.pick(&EDGE_BYTES)).collect()
}

#[cfg(test)]
mod tests {
    use super::*;
    use std::collections::BTreeSet;

    /// Where the text stops being well-formed, if anywhere.
    fn ill_formed_from(text: &[u8]) -> Option<usize> {
        std::str::from_utf8(text).err().map(|error| error.valid_up_to())
    }

    #[test]
    fn well_formed_texts_have_characters_of_every_width() {
        let (mut random, mut widths, mut alone) = (Random::new(7), BTreeSet::new(), BTreeSet::new());
        for _ in 0..20_000 {
            let size = size(&mut random);
            let text = well_formed(size, &mut random);
            assert!(text.len() == size && !text.contains(&0), "{text:02X?}");
            let text = std::str::from_utf8(&text).unwrap();
            widths.extend(text.chars().map(char::len_utf8));
            let wide: Vec<usize> = text.char_indices().filter(|(_, one)| !one.is_ascii()).map(|(place, _)| place).collect();
            if let ([place], 62..=66) = (&wide[..], size) {
                alone.insert(*place);
            }
        }
        assert_eq!(widths, BTreeSet::from([1, 2, 3, 4]));
        assert!(alone.len() > 60, "one character that is not ASCII, at {alone:?}");
    }

    #[test]
    fn every_sequence_is_ill_formed_wherever_it_is_truncated() {
        for sequence in ILL_FORMED {
            assert!(!sequence.contains(&0));
            for cut in 1..=sequence.len() {
                assert_eq!(ill_formed_from(&sequence[..cut]), Some(0), "{:02X?}", &sequence[..cut]);
            }
            for next in ["a", "\u{80}", "\u{10FFFF}"] {
                assert_eq!(ill_formed_from(&[b"abc", sequence, next.as_bytes()].concat()), Some(3), "{sequence:02X?} before {next}");
            }
        }
        assert_eq!(BTreeSet::from(ILL_FORMED).len(), ILL_FORMED.len());
    }

    #[test]
    fn ill_formed_texts_are_so_from_every_place_on() {
        let (mut random, mut places, mut leads) = (Random::new(8), BTreeSet::new(), BTreeSet::new());
        for number in 0..20_000 {
            let size = if number % 4 == 0 { 65 } else { size(&mut random).max(1) };
            let text = ill_formed(size, &mut random);
            assert!(text.len() == size && !text.contains(&0), "{text:02X?}");
            let from = ill_formed_from(&text).expect("it is ill-formed");
            leads.insert(text[from]);
            if size == 65 {
                places.insert(from);
            }
        }
        assert_eq!(leads, ILL_FORMED.iter().map(|sequence| sequence[0]).collect());
        assert_eq!(places, (0..65).collect());
    }
}
