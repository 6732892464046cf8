//! What is wrong with a text that is not well-formed UTF-8.

use std::ops::Range;

use crate::escapes::quoted;
use crate::numbers::{counted, grouped, hexadecimal};

/// How many bytes are shown before and behind those that are wrong.
const AROUND: usize = 16;

/// Why bytes are no character.
#[derive(Clone, Copy, Debug, PartialEq, Eq)]
enum Wrong {
    /// The first one cannot start any.
    NoStart,
    /// Some are missing.
    CutOff,
    /// They are more than the character has.
    Overlong,
    /// Their number is that of a surrogate.
    Surrogate,
    /// Their number is above that of the last character.
    TooHigh,
}

/// Bytes that belong together, and are no character.
struct Found<'a> {
    /// The bytes.
    bytes: &'a [u8],
    /// How many the first one announces.
    size: usize,
    /// What is wrong with them.
    wrong: Wrong,
}

/// What is wrong with a text that stands at an offset of the file, if anything is; the library says where.
pub fn fault(text: &[u8], offset: u64) -> Option<String> {
    let place = scp::valid_up_to(text);
    let found = Found::of(text.get(place..)?)?;
    let end = place + found.bytes.len();
    let (at, before, size) = (grouped(offset + place as u64), grouped(place as u64), counted(text.len() as u64, "byte"));
    let (why, context) = (found.say(text.get(end).copied()), around(text, place..end));
    Some(format!("not UTF-8 at {at}, after {before} of its {size}: {why}, in {context}"))
}

impl Found<'_> {
    /// The first bytes of some that do not start with a character; nothing where there are none.
    fn of(rest: &[u8]) -> Option<Found<'_>> {
        let (first, others) = rest.split_first()?;
        let size = match first {
            0xC0..=0xDF => 2,
            0xE0..=0xEF => 3,
            0xF0..=0xF7 => 4,
            _ => 1,
        };
        let bytes = &rest[..1 + continuing(others, size - 1)];
        let wrong = match bytes {
            [0xC0 | 0xC1, _] | [0xE0, 0x80..=0x9F, ..] | [0xF0, 0x80..=0x8F, ..] => Wrong::Overlong,
            [0xED, 0xA0..=0xBF, ..] => Wrong::Surrogate,
            [0xF4, 0x90..=0xBF, ..] | [0xF5..=0xF7, _, ..] => Wrong::TooHigh,
            [0xC2..=0xF4, ..] => Wrong::CutOff,
            _ => Wrong::NoStart,
        };
        Some(Found { bytes, size, wrong })
    }

    /// What is wrong, in words; the next byte is what follows them, if anything does.
    fn say(&self, next: Option<u8>) -> String {
        let (bytes, number) = (hexadecimal(self.bytes), self.number().map(|number| format!("U+{number:04X}")));
        match (self.wrong, number) {
            (Wrong::NoStart, _) => format!("{bytes} cannot start a character"),
            (Wrong::CutOff, _) => {
                let end = next.map_or("the end of the string cuts off".to_string(), |next| format!("{next:02X} does not continue"));
                format!("{bytes} starts a character of {} bytes, which {end}", self.size)
            }
            (Wrong::Overlong, Some(number)) => format!("{bytes} is an overlong form of {number}"),
            (Wrong::Overlong, None) => format!("{bytes} starts an overlong form"),
            (Wrong::Surrogate, Some(number)) => format!("{bytes} is the surrogate {number}, no character"),
            (Wrong::Surrogate, None) => format!("{bytes} starts a surrogate, no character"),
            (Wrong::TooHigh, Some(number)) => format!("{bytes} is {number}, above U+10FFFF"),
            (Wrong::TooHigh, None) => format!("{bytes} starts a number above U+10FFFF"),
        }
    }

    /// The number that the bytes stand for, where none is missing.
    fn number(&self) -> Option<u32> {
        let [first, others @ ..] = self.bytes else { return None };
        let high = u32::from(first & (0x7F >> self.size));
        (self.bytes.len() == self.size).then(|| others.iter().fold(high, |number, byte| number << 6 | u32::from(byte & 0x3F)))
    }
}

/// How many of the first bytes, up to a number, can only continue a character.
fn continuing(bytes: &[u8], most: usize) -> usize {
    bytes.iter().take(most).take_while(|byte| matches!(byte, 0x80..=0xBF)).count()
}

/// The text around bytes that are wrong; dots stand for what is left out, and no character is cut.
fn around(text: &[u8], wrong: Range<usize>) -> String {
    let start = wrong.start.saturating_sub(AROUND);
    let start = start + continuing(&text[start..wrong.start], AROUND);
    let end = text.len().min(wrong.end + AROUND);
    let end = end + continuing(&text[end..], 3);
    let dots = |left_out: bool| if left_out { ".." } else { "" };
    format!("{}{}{}", dots(start > 0), quoted(&text[start..end]), dots(end < text.len()))
}

#[cfg(test)]
mod tests {
    use super::*;
    use std::str::from_utf8;

    /// What is wrong with a text that is wrong at its first byte.
    fn wrong(text: &[u8]) -> Wrong {
        Found::of(text).expect("a text").wrong
    }

    /// Bytes of a number in a form of so many, whether that is its own or not.
    fn form(number: u32, size: usize) -> Vec<u8> {
        let part = |index: usize| (number >> (6 * (size - 1 - index))) as u8;
        let lead = [0xC0, 0xE0, 0xF0][size - 2];
        (0..size).map(|index| if index == 0 { lead | part(0) } else { 0x80 | part(index) & 0x3F }).collect()
    }

    /// Looks at a text beside the standard library: where it is wrong, and how many bytes are looked at until that is known.
    fn beside_std(text: &[u8]) {
        let (place, due) = (scp::valid_up_to(text), from_utf8(text).err());
        assert_eq!(place, due.map_or(text.len(), |error| error.valid_up_to()), "{text:02X?}");
        let (Some(found), Some(due)) = (Found::of(&text[place..]), due) else {
            return assert!(place == text.len() && due.is_none(), "{text:02X?}");
        };
        let to_the_end = place + found.bytes.len() == text.len();
        match (found.wrong, due.error_len()) {
            (Wrong::CutOff, None) => assert!(to_the_end, "{text:02X?}"),
            (Wrong::CutOff, Some(known)) => assert!(!to_the_end && known == found.bytes.len(), "{text:02X?}"),
            (_, known) => assert_eq!(known, Some(1), "{text:02X?}"),
        }
    }

    #[test]
    fn every_text_of_up_to_three_bytes_is_judged_as_by_the_standard_library() {
        beside_std(&[]);
        for first in 0..=u8::MAX {
            beside_std(&[first]);
            for second in 0..=u8::MAX {
                beside_std(&[first, second]);
                (0..=u8::MAX).for_each(|third| beside_std(&[first, second, third]));
            }
        }
    }

    #[test]
    fn every_form_of_every_number_is_told() {
        for number in 0..0x200000 {
            let own = char::from_u32(number).map_or(0, char::len_utf8);
            for size in 2..=4 {
                if number >= [0x800, 0x10000, 0x200000][size - 2] {
                    continue;
                }
                let bytes = form(number, size);
                let due = match number {
                    0xD800..=0xDFFF if size == 3 => Wrong::Surrogate,
                    0xD800..=0xDFFF => Wrong::Overlong,
                    0x110000.. => Wrong::TooHigh,
                    _ if size > own => Wrong::Overlong,
                    _ => {
                        assert_eq!(scp::valid_up_to(&bytes), size, "{bytes:02X?}");
                        continue;
                    }
                };
                let found = Found::of(&bytes).expect("bytes");
                assert_eq!((scp::valid_up_to(&bytes), found.wrong, found.number()), (0, due, Some(number)), "{bytes:02X?}");
            }
        }
    }

    #[test]
    fn every_way_to_be_wrong_has_its_words() {
        for (text, due) in [
            (&b"\x97"[..], "97 cannot start a character"),
            (b"\x80\x80", "80 cannot start a character"),
            (b"\xBFa", "BF cannot start a character"),
            (b"\xC0", "C0 cannot start a character"),
            (b"\xC1a", "C1 cannot start a character"),
            (b"\xF5\xC3\xA9", "F5 cannot start a character"),
            (b"\xF8\x88\x80\x80\x80", "F8 cannot start a character"),
            (b"\xFE\xFFa", "FE cannot start a character"),
            (b"\xC3", "C3 starts a character of 2 bytes, which the end of the string cuts off"),
            (b"\xE2\x82", "E2 82 starts a character of 3 bytes, which the end of the string cuts off"),
            (b"\xF0\x9F\x92", "F0 9F 92 starts a character of 4 bytes, which the end of the string cuts off"),
            (b"\xE9t\xE9", "E9 starts a character of 3 bytes, which 74 does not continue"),
            (b"\xE2\x82\x0A", "E2 82 starts a character of 3 bytes, which 0A does not continue"),
            (b"\xF4\x8F\xBF\xF4", "F4 8F BF starts a character of 4 bytes, which F4 does not continue"),
            (b"\xC0\x80", "C0 80 is an overlong form of U+0000"),
            (b"\xC1\xBF\xBF", "C1 BF is an overlong form of U+007F"),
            (b"\xE0\x9F\xBF", "E0 9F BF is an overlong form of U+07FF"),
            (b"\xE0\x80", "E0 80 starts an overlong form"),
            (b"\xF0\x82\x82\xAC", "F0 82 82 AC is an overlong form of U+20AC"),
            (b"\xF0\x8F\xBFa", "F0 8F BF starts an overlong form"),
            (b"\xED\xA0\xBD\xED\xB8\x80", "ED A0 BD is the surrogate U+D83D, no character"),
            (b"\xED\xBF\xBF", "ED BF BF is the surrogate U+DFFF, no character"),
            (b"\xED\xA0a", "ED A0 starts a surrogate, no character"),
            (b"\xF4\x90\x80\x80", "F4 90 80 80 is U+110000, above U+10FFFF"),
            (b"\xF7\xBF\xBF\xBF\xBF", "F7 BF BF BF is U+1FFFFF, above U+10FFFF"),
            (b"\xF5\x80", "F5 80 starts a number above U+10FFFF"),
        ] {
            let said = fault(text, 1000).expect("it is wrong");
            let size = counted(text.len() as u64, "byte");
            assert_eq!(said, format!("not UTF-8 at 1,000, after 0 of its {size}: {due}, in {}", quoted(text)));
            let behind = [b"\xE2\x82\xACs ", text].concat();
            let (said, size) = (fault(&behind, 1000).expect("it is wrong"), behind.len());
            assert_eq!(said, format!("not UTF-8 at 1,005, after 5 of its {size} bytes: {due}, in {}", quoted(&behind)));
        }
        assert_eq!([fault(b"", 7), fault("4 \u{B5}s\u{10FFFF}".as_bytes(), 7)], [None, None]);
        assert_eq!([wrong(b"\xF4\x90"), wrong(b"\xF4\x8F"), wrong(b"\xED\x9F")], [Wrong::TooHigh, Wrong::CutOff, Wrong::CutOff]);
    }

    #[test]
    fn a_long_text_is_cut_between_characters() {
        let euros = |count: usize| "\u{20AC}".repeat(count).into_bytes();
        for before in 0..40 {
            for behind in 0..40 {
                let text = [euros(before), b"\x97".to_vec(), euros(behind)].concat();
                let said = fault(&text, 0).expect("it is wrong");
                let (_, shown) = said.split_once(", in ").expect("the text around");
                // 16 bytes hold five euro signs whole; the sixth is left out before, and not behind.
                let due = |count: usize, most: usize| if count > most { (most, "..") } else { (count, "") };
                let ((left, dots), (right, more)) = (due(before, 5), due(behind, 6));
                assert_eq!(shown, format!("{dots}\"{}\\x97{}\"{more}", "\u{20AC}".repeat(left), "\u{20AC}".repeat(right)));
            }
        }
        let said = fault(&[0x97; 65_535], 0).expect("it is wrong");
        assert!(said.ends_with(&format!("in \"{}\"..", "\\x97".repeat(20))), "{said}");
    }
}
