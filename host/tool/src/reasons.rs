//! What a refusal is about: which of its cases it is, where, what was found and what was due.
//!
//! The verdict is always the library's. What is said here is looked up in the bytes once the library has refused, by the same edition and
//! only for that number and position; should nothing be found, the refusal's own text is said.

mod claims;
mod faults;
mod text;

use scp::{Reason, Refusal, ZERO_WORD_TICKS};

use crate::editions::OneTrack;
use crate::faults::{of_image, said};
use crate::layout::Layout;
use crate::numbers::{counted, grouped};
pub use faults::{faults, faults_of_track, Fault};

/// What was asked of a track, as far as a refusal may be about it.
#[derive(Clone, Copy)]
pub struct Asked {
    /// The track.
    pub track: u32,
    /// The revolution.
    pub revolution: u32,
    /// How many bytes the new words of a rewrite have.
    pub size: usize,
}

/// A refusal of a question about a revolution, or of its rewrite.
pub fn of_asked(layout: Layout, asked: Asked, refusal: Refusal) -> String {
    let text = match refusal.reason {
        Reason::Absent => absent(layout, asked.track),
        Reason::Revolution => revolutions(layout, asked),
        Reason::Words => words(layout, asked),
        Reason::Shared => claims::shared(layout, asked.track, asked.revolution),
        _ => return of_image(layout.edition, layout.bytes, refusal),
    };
    said(refusal, text)
}

/// A refusal of a direct question about a revolution: what is said of the image is said of its header or of this track.
pub fn of_direct(layout: Layout, asked: Asked, refusal: Refusal) -> String {
    match refusal.reason {
        Reason::Absent | Reason::Revolution => of_asked(layout, asked, refusal),
        _ => of_image(OneTrack { edition: layout.edition, track: asked.track }, layout.bytes, refusal),
    }
}

/// A refusal of a time.
pub fn of_time(ticks: u64, refusal: Refusal) -> String {
    let text = match ticks {
        0 => "0 ticks, where 1 is the least".to_string(),
        _ if ticks > u64::from(u32::MAX) => format!("{} ticks, above {}", grouped(ticks), grouped(u32::MAX.into())),
        _ => format!("{} ticks, a multiple of {}, which no word closes", grouped(ticks), grouped(ZERO_WORD_TICKS)),
    };
    said(refusal, Some(text))
}

/// A refusal of more words than a revolution has.
pub fn of_too_many_words(need: u128, most: u32) -> String {
    said(Refusal { reason: Reason::Words, position: 0 }, Some(too_many(need, most)))
}

/// Why a track is not there.
fn absent(layout: Layout, track: u32) -> Option<String> {
    let tracks = layout.edition.tracks();
    if track >= tracks {
        return Some(format!("track {track} is above {}", tracks - 1));
    }
    let present = layout.entries().count() as u64;
    Some(format!("track {track} has no entry in the table, which has {}", counted(present, "track")))
}

/// Why a revolution is not there.
fn revolutions(layout: Layout, asked: Asked) -> Option<String> {
    let most = u64::from(layout.revolutions());
    Some(format!("revolution {} of track {}: a track has {}, from 0 on", asked.revolution, asked.track, counted(most, "revolution")))
}

/// Why the new words of a revolution are not taken.
fn words(layout: Layout, asked: Asked) -> Option<String> {
    if asked.size % 2 == 1 {
        return Some(format!("an odd number of bytes, {}", grouped(asked.size as u64)));
    }
    let most = scp::revolution(layout.bytes, layout.edition, asked.track, asked.revolution).ok()?.words;
    Some(too_many(asked.size as u128 / 2, most))
}

/// More words than a revolution has.
fn too_many(need: u128, most: u32) -> String {
    let need = u64::try_from(need).map_or_else(|_| need.to_string(), |need| counted(need, "word"));
    format!("{need}, where the revolution has {}", grouped(most.into()))
}

#[cfg(test)]
mod tests {
    use super::*;
    use scp::Edition;
    use scp_compare::cases::case;
    use scp_compare::edition::V1_4;
    use scp_compare::question::{self, Question};

    /// How many cases of the comparison are looked at.
    const CASES: u64 = 60_000;

    /// How many numbers there are, with 0 for what is accepted.
    const NUMBERS: usize = 1 + Reason::ALL.len();

    /// Each image is judged by both editions, whichever it is made by.
    #[test]
    fn the_first_fault_is_what_the_library_refuses() {
        let mut met = [[0; NUMBERS]; 2];
        for number in 0..CASES {
            let bytes = case(7, number).bytes;
            for (edition, met) in Edition::ALL.into_iter().zip(&mut met) {
                let verdict = scp::validate(&bytes, edition).err();
                let faults = faults(Layout { bytes: &bytes, edition });
                assert_eq!(faults.first().map(|fault| fault.refusal), verdict, "case {number} by {edition}: {faults:?}");
                met[verdict.map_or(0, |refusal| usize::from(refusal.reason.number()))] += 1;
            }
        }
        for (edition, met) in Edition::ALL.into_iter().zip(met) {
            let due = |number: usize| match number {
                7 | 8 | 19 => edition.has_footer(),
                _ => number <= 12,
            };
            assert!((0..NUMBERS).all(|number| (met[number] > 0) == due(number)), "how often each number came up by {edition}: {met:?}");
        }
    }

    /// Image A with a footer whose strings have these texts, behind one another.
    fn footed(texts: [&[u8]; 6]) -> Vec<u8> {
        let (mut image, mut footer) = (scp::example::image_a(), Vec::new());
        for text in texts {
            footer.extend((image.len() as u32).to_le_bytes());
            image.extend([&(text.len() as u16).to_le_bytes(), text, &[0]].concat());
        }
        image.extend(footer);
        image.extend([0; 16]);
        image.extend(b"\0\0\0\x16FPCS");
        image[8] |= 0x20;
        let sum = Layout { bytes: &image, edition: Edition::V1_6 }.sum();
        image[12..16].copy_from_slice(&sum.to_le_bytes());
        image
    }

    /// The bytes at which the table of well-formed sequences turns, and zero, which no string holds.
    #[test]
    fn the_first_fault_of_strings_is_what_the_library_refuses() {
        let edges = *b"\0a\x7F\x80\x8F\x90\x9F\xA0\xBF\xC0\xC1\xC2\xDF\xE0\xE1\xEC\xED\xEE\xF0\xF1\xF3\xF4\xF5\xF7\xF8\xFF";
        let mut met = [0; NUMBERS];
        for number in 0..2 * edges.len().pow(3) {
            let [first, second, third] = [0, 1, 2].map(|digit| edges[number / edges.len().pow(digit) % edges.len()]);
            let text = [first, second, third, [0x80, b'a'][number / edges.len().pow(3)]];
            let image = footed([b"", "\u{B5}".as_bytes(), &text, &text[2..], &text[..1], b"\x97"]);
            let verdict = scp::validate(&image, Edition::V1_6).expect_err("the last string is wrong");
            let faults = faults(Layout { bytes: &image, edition: Edition::V1_6 });
            assert_eq!(faults[0].refusal, verdict, "{text:02X?}: {faults:?}");
            let places: Vec<u64> = faults.iter().map(|fault| fault.refusal.position).collect();
            assert!(places.is_sorted_by(|left, right| left < right), "one for each string, in order: {faults:?}");
            assert_eq!(scp::validate(&image, Edition::V1_4), Ok(()));
            met[usize::from(verdict.reason.number())] += 1;
        }
        assert!((0..NUMBERS).all(|number| (met[number] > 0) == matches!(number, 8 | 19)), "how often each number came up: {met:?}");
    }

    /// What is said starts with the refusal, and goes on with what was asked for, where it is about a track.
    #[test]
    fn the_first_fault_of_a_track_is_what_a_direct_question_refuses() {
        let mut met = [[0; 15]; 2];
        for number in 0..CASES {
            let bytes = case(9, number).bytes;
            for (edition, met) in Edition::ALL.into_iter().zip(&mut met) {
                let layout = Layout { bytes: &bytes, edition };
                let tracks = layout.entries().map(|(track, _)| track).chain([0, 165, 166, 167, 168]);
                for (track, revolution) in tracks.flat_map(|track| [(track, 0), (track, 255)]) {
                    let verdict = scp::direct::revolution(&bytes, edition, track, revolution).err();
                    let due = verdict.filter(|refusal| !matches!(refusal.reason, Reason::Absent | Reason::Revolution));
                    let faults = faults_of_track(layout, track);
                    assert_eq!(faults.first().map(|fault| fault.refusal), due, "case {number}, track {track} by {edition}: {faults:?}");
                    met[verdict.map_or(0, |refusal| usize::from(refusal.reason.number()))] += 1;
                    let Some(refusal) = verdict else { continue };
                    let about = match refusal.reason {
                        Reason::Slot | Reason::Absent => format!("track {track} "),
                        Reason::Track => format!("track {track}: "),
                        Reason::Flux => format!("track {track}, revolution "),
                        Reason::Revolution => format!("revolution {revolution} of track {track}: "),
                        _ => String::new(),
                    };
                    let start = format!("refused {} {:?}: {about}", refusal.reason.number(), refusal.reason);
                    let said = of_direct(layout, Asked { track, revolution, size: 0 }, refusal);
                    assert!(said.starts_with(&start), "case {number}, track {track} by {edition}: {said}");
                }
            }
        }
        for (edition, met) in Edition::ALL.into_iter().zip(met) {
            let due = |number: usize| !matches!(number, 7 | 8 | 12);
            assert!((0..15).all(|number| (met[number] > 0) == due(number)), "how often each number came up by {edition}: {met:?}");
        }
    }

    #[test]
    fn the_reason_of_a_refused_rewrite_is_there_just_when_it_is_refused() {
        let mut met = [[0; NUMBERS]; 2];
        for number in 0..CASES {
            let case = case(8, number);
            for question in &case.questions {
                // every rewrite is asked by both editions, and tried by both where it is asked by the first
                let Question::OnImage { edition: V1_4, asked } = question else { continue };
                let question::Asked::Rewrite { track, revolution, duration, words } = asked else { continue };
                let asked = Asked { track: *track, revolution: *revolution, size: words.len() };
                for (edition, met) in Edition::ALL.into_iter().zip(&mut met) {
                    let layout = Layout { bytes: &case.bytes, edition };
                    let done = scp::rewrite(&mut case.bytes.clone(), edition, *track, *revolution, *duration, words);
                    let shared = claims::shared(layout, *track, *revolution);
                    match done {
                        Ok(()) => assert_eq!(shared, None, "case {number} by {edition}"),
                        Err(refusal) => {
                            let said = of_asked(layout, asked, refusal);
                            let start = format!("refused {} {:?}: ", refusal.reason.number(), refusal.reason);
                            assert!(said.starts_with(&start), "case {number} by {edition}: {said}");
                            met[usize::from(refusal.reason.number())] += 1;
                        }
                    }
                }
            }
        }
        for (edition, met) in Edition::ALL.into_iter().zip(met) {
            let asked = [13, 14, 17, 18].into_iter().all(|number| met[number] > 0);
            assert!(asked && (met[19] > 0) == edition.has_footer(), "how often each number came up by {edition}: {met:?}");
        }
    }

    #[test]
    fn the_reason_of_a_time_is_there_just_when_it_is_refused() {
        for ticks in [0, 1, 65_535, 65_536, 65_537, 131_072, 4_294_901_760, 4_294_967_295, 4_294_967_296, u64::MAX] {
            let refused = scp::words(&[ticks], &mut vec![0; 1 << 18]).err();
            let due = ticks == 0 || ticks.is_multiple_of(ZERO_WORD_TICKS) || ticks > u64::from(u32::MAX);
            assert_eq!(refused.map(|refusal| refusal.reason), due.then_some(Reason::Time), "{ticks}");
        }
        for (ticks, said) in [
            (0, "0 ticks, where 1 is the least"),
            (131_072, "131,072 ticks, a multiple of 65,536, which no word closes"),
            (4_294_967_296, "4,294,967,296 ticks, above 4,294,967,295"),
        ] {
            let refusal = scp::words(&[ticks], &mut [0; 8]).expect_err("it is refused");
            assert_eq!(of_time(ticks, refusal), format!("refused 16 Time: {said}"));
        }
    }
}
