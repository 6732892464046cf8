//! Cases by number: an input by chance, and the questions that are put to both.

use crate::ask::{agree_on, Case};
use crate::edition::{is_1_4, some_number, some_row_number, V1_4, V1_6};
use crate::generate;
use crate::image::{duration_at, entry_at, flux_bytes, number_at};
use crate::outside::{string_in_flux, ILL_FORMED, NO_STRING, STRING};
use crate::patches::patches;
use crate::question::{number, Asked, Question};
use crate::random::Random;
use crate::sequence::{Calls, ANSWER, CALL, EDITION, REWRITE};
use crate::text;
use scp::Edition;

/// The case of a number, under a seed: an image, flux, times or a text, and questions about it.
pub fn case(seed: u64, number: u64) -> Case<Question> {
    let mut random = Random::of_case(seed, number);
    match number % 8 {
        0..=3 => image_case(&mut random),
        4 | 5 => sequence_case(&mut random),
        6 => flux_case(&mut random),
        _ if number % 16 == 7 => times_case(&mut random),
        _ => text_case(&mut random),
    }
}

// ---- images

/// An image, and every question about some of its tracks, present, absent and none, by both editions.
fn image_case(random: &mut Random) -> Case<Question> {
    let bytes = generate::image(random);
    let mut asked = vec![Asked::Validate, Asked::Header { places: places(random, 9) }, Asked::Footer { places: places(random, 13) }];
    for _ in 0..3 {
        let track = some_track(&bytes, random);
        asked.push(Asked::Track { track, places: places(random, 4) });
        asked.push(Asked::TrackSpeed { track, places: places(random, 3) });
        for _ in 0..2 {
            let revolution = some_revolution(&bytes, random);
            let size = 2 * count(&bytes, track, revolution).min(1 << 20) as usize;
            asked.push(Asked::Revolution { track, revolution, places: places(random, 3) });
            asked.push(Asked::Flux { track, revolution, places: places(random, size) });
            asked.push(Asked::Speed { track, revolution, places: places(random, 2) });
            asked.push(rewrite(&bytes, track, revolution, random));
        }
    }
    let by_both = |asked: Asked| Edition::ALL.map(|edition| asked.clone().by(some_number(edition, random)));
    Case { bytes, questions: with_direct(asked).into_iter().flat_map(by_both).collect() }
}

/// These questions, and the direct one for each that has one.
fn with_direct(mut asked: Vec<Asked>) -> Vec<Asked> {
    let direct: Vec<Asked> = asked.iter().filter_map(Asked::directly).collect();
    asked.extend(direct);
    asked
}

/// The questions about an image as a whole, with as many places as needed.
fn of_image() -> [Asked; 3] {
    [Asked::Validate, Asked::Header { places: 9 }, Asked::Footer { places: 13 }]
}

/// The questions about a track, with as many places as needed.
fn of_track(track: u32) -> [Asked; 2] {
    [Asked::Track { track, places: 4 }, Asked::TrackSpeed { track, places: 3 }]
}

/// The questions about a revolution, with as many places as needed.
fn of_revolution(image: &[u8], track: u32, revolution: u32) -> [Asked; 3] {
    let size = 2 * count(image, track, revolution).min(1 << 20) as usize;
    [
        Asked::Revolution { track, revolution, places: 3 },
        Asked::Flux { track, revolution, places: size },
        Asked::Speed { track, revolution, places: 2 },
    ]
}

/// Every question about an image, all 168 tracks and one more, all revolutions of each present track and some that are not there, and of an
/// absent track one that would be there and one that would not. No rewrite.
fn every_question(image: &[u8]) -> Vec<Asked> {
    let mut asked = of_image().to_vec();
    let beyond = revolutions(image);
    for track in 0..169 {
        asked.extend(of_track(track));
        let present = has_entry(image, track);
        let there = if present { 0..beyond } else { 0..1 };
        let absent = if present { &[beyond, beyond + 1, 255, 256, u32::MAX][..] } else { &[beyond + 1] };
        asked.extend(there.chain(absent.iter().copied()).flat_map(|revolution| of_revolution(image, track, revolution)));
    }
    with_direct(asked)
}

/// The questions about an image, some of its tracks, and some revolutions of each.
pub fn some_questions(image: &[u8], tracks: &[u32], revolutions: &[u32]) -> Vec<Asked> {
    let mut asked = of_image().to_vec();
    for &track in tracks {
        asked.extend(of_track(track));
        asked.extend(revolutions.iter().flat_map(|&revolution| of_revolution(image, track, revolution)));
    }
    with_direct(asked)
}

/// Asks both about the first, the middle and the last revolution of the first, a middle and the last track, rewrites one on each, and asks for
/// one that is not there; panics where they differ, or where any but the last is refused.
pub fn answer_some(image: &[u8], edition: Edition, last_track: u32) {
    let (tracks, revolutions) = ([0, last_track / 2, last_track], first_middle_last(image));
    let mut asked = some_questions(image, &tracks, &revolutions);
    for (track, revolution) in tracks.into_iter().zip(revolutions) {
        let flux = scp::flux(image, edition, track, revolution).expect("it is there");
        asked.push(Asked::Rewrite { track, revolution, duration: 8_000_000, words: flux.iter().rev().copied().collect() });
    }
    for question in asked.into_iter().map(|asked| asked.by(edition.number())) {
        assert_eq!(number(image, &question), Ok(0), "{question:?}");
    }
    let (track, revolution) = (last_track, self::revolutions(image));
    for absent in [Asked::Revolution { track, revolution, places: 3 }, Asked::DirectRevolution { track, revolution, places: 3 }] {
        assert_eq!(number(image, &absent.by(edition.number())), Ok(14));
    }
}

/// The first, the middle and the last revolution of an image.
pub fn first_middle_last(image: &[u8]) -> [u32; 3] {
    let count = revolutions(image);
    [0, count / 2, count.saturating_sub(1)]
}

/// Puts every question on the image to both, and one rewrite of each present revolution, by both editions; panics where they differ.
pub fn agree(name: &str, image: &[u8]) {
    for edition in Edition::ALL {
        let asked = every_question(image).into_iter().chain(every_rewrite(image, edition));
        agree_on(&format!("{name}, by {edition}"), image, asked.map(|asked| asked.by(edition.number())).collect());
    }
}

/// One rewrite of each revolution that is present by the edition.
fn every_rewrite(image: &[u8], edition: Edition) -> Vec<Asked> {
    let mut asked = Vec::new();
    for track in 0..edition.tracks() {
        for revolution in 0..revolutions(image) {
            let Ok(found) = scp::revolution(image, edition, track, revolution) else { break };
            let words = vec![1; 2 * found.words.min(3) as usize];
            asked.push(Asked::Rewrite { track, revolution, duration: 1, words });
        }
    }
    asked
}

/// So many places as needed, or some more or fewer.
pub fn places(random: &mut Random, needed: usize) -> usize {
    match random.below(6) {
        0 => needed.saturating_sub(1),
        1 => needed + 1 + random.below(3),
        2 => random.below(needed + 1),
        _ => needed,
    }
}

/// The tracks that the header spans and that have an entry in the table.
pub fn present_tracks(image: &[u8]) -> Vec<u32> {
    let [start, end] = [6, 7].map(|place| image.get(place).copied().unwrap_or(0).into());
    (start..=end).filter(|&track| has_entry(image, track)).collect()
}

/// A track: mostly one that is there, else any.
pub fn some_track(image: &[u8], random: &mut Random) -> u32 {
    let present = present_tracks(image);
    match random.below(8) {
        0 => random.pick(&[0, 164, 165, 166, 167, 168, 169, 255, 256, u32::MAX]),
        1 => random.edgy32(),
        _ if present.is_empty() => random.below(168) as u32,
        _ => random.pick(&present),
    }
}

/// Whether the table, of 168 entries, has one of the track that is not 0.
fn has_entry(image: &[u8], track: u32) -> bool {
    track < 168 && number_at(image, entry_at(track as usize)) != 0
}

/// A revolution: mostly one that the header counts, else any.
pub fn some_revolution(image: &[u8], random: &mut Random) -> u32 {
    let counted = revolutions(image).max(1);
    match random.below(9) {
        0 => counted,
        1 => random.edgy32(),
        2 => counted - 1,
        _ => random.below(counted as usize) as u32,
    }
}

/// How many revolutions the header counts.
pub fn revolutions(image: &[u8]) -> u32 {
    image.get(5).copied().unwrap_or(0).into()
}

/// How many words a revolution seems to have.
fn count(image: &[u8], track: u32, revolution: u32) -> u32 {
    if track > 167 || revolution >= revolutions(image) {
        return 0;
    }
    let header = number_at(image, entry_at(track as usize)) as usize;
    number_at(image, duration_at(header, revolution as usize) + 4)
}

/// A rewrite: as many words as there are or fewer, or a few too many, or a byte too many.
fn rewrite(image: &[u8], track: u32, revolution: u32, random: &mut Random) -> Asked {
    let words = new_words(image, track, revolution, random);
    Asked::Rewrite { track, revolution, duration: generate::duration(random), words }
}

/// Words for a rewrite: any, or all of them a string.
fn new_words(image: &[u8], track: u32, revolution: u32, random: &mut Random) -> Vec<u8> {
    let most = count(image, track, revolution).min(64) as usize;
    if most > 1 && random.once_in(5) {
        return generate::string_words(2 * most, random);
    }
    let words = match random.below(6) {
        0 => most + 1,
        1 => most,
        _ => random.between(0, most),
    };
    let mut bytes = some_flux(words, random);
    if random.once_in(12) {
        bytes.push(0);
    }
    bytes
}

/// So many words, zeros among them.
pub fn some_flux(words: usize, random: &mut Random) -> Vec<u8> {
    let words: Vec<u16> = (0..words).map(|_| random.pick(&[0, 1, 0x0140, 0x1234, 0xABCD, 0xFFFF])).collect();
    flux_bytes(&words)
}

// ---- sequences of calls

/// An image, now and then one with a string in its flux, and a sequence of calls on it, as it is and with each call by the other edition;
/// and a sequence, mostly a list of patches, that is taken back.
fn sequence_case(random: &mut Random) -> Case<Question> {
    let bytes = if random.once_in(16) { string_in_flux(random.pick(&[STRING, NO_STRING, ILL_FORMED])) } else { generate::image(random) };
    let (calls, words) = sequence(&bytes, random);
    let needed = ANSWER * (calls.len() / CALL);
    let places = match random.below(8) {
        0 => needed.saturating_sub(1),
        1 => needed + random.below(40),
        _ => needed,
    };
    let questions = [other_editions(&calls), calls.clone()].map(|calls| Question::Sequence { calls, words: words.clone(), places });
    let (calls, words) = if random.once_in(4) { (calls, words) } else { patches(&bytes, random) };
    let undo = Question::Undo { calls, words };
    Case { bytes, questions: questions.into_iter().chain([undo]).collect() }
}

/// Calls, most of them rewrites and questions of the same few revolutions, by one edition or by both, and their words.
pub fn sequence(bytes: &[u8], random: &mut Random) -> Calls {
    let (mut calls, mut words) = (Vec::new(), Vec::new());
    let tracks = [some_track(bytes, random), some_track(bytes, random)];
    let editions = random.pick(&[&Edition::ALL[..1], &Edition::ALL[1..], &Edition::ALL, &Edition::ALL]);
    for _ in 0..random.below(11) {
        let (track, revolution) = (random.pick(&tracks), some_revolution(bytes, random));
        let start = words.len() as u64;
        let kind = match random.below(4) {
            0 | 1 => REWRITE,
            2 => random.below(9) as u64,
            _ => random.pick(&[0, 4, 5, 9, u64::MAX]),
        };
        if kind == REWRITE {
            words.extend(new_words(bytes, track, revolution, random));
        }
        let duration = u64::from(generate::duration(random)) + (random.below(2) as u64 * (1 << 32));
        let edition = some_row_number(random.pick(editions), random);
        calls.extend([kind, track.into(), revolution.into(), duration, start, words.len() as u64 - start, edition]);
        if random.once_in(12) {
            let field = calls.len() - 1 - random.below(CALL - 1);
            calls[field] = random.pick(&[0, 1, 7, u64::MAX, 1 << 32, (1 << 32) + 1, u64::from(u32::MAX)]);
        }
    }
    // now and then less than a call behind the last
    calls.extend(vec![REWRITE; if random.once_in(3) { random.below(CALL) } else { 0 }]);
    (calls, words)
}

/// The calls, each by the other edition.
fn other_editions(calls: &[u64]) -> Vec<u64> {
    let mut others = calls.to_vec();
    for call in others.chunks_exact_mut(CALL) {
        call[EDITION] = if is_1_4(call[EDITION]) { V1_6 } else { V1_4 }.into();
    }
    others
}

// ---- texts

/// A text that is well-formed, that is but for one sequence or one byte, or of bytes at the edges; into enough places, too few and more.
fn text_case(random: &mut Random) -> Case<Question> {
    let size = text::size(random);
    let bytes = match random.below(4) {
        0 => text::well_formed(size, random),
        1 => text::ill_formed(size.max(1), random),
        2 => {
            let mut bytes = text::well_formed(size.max(1), random);
            bytes[random.below(size.max(1))] = random.byte();
            bytes
        }
        _ => text::edge_bytes(size.min(8), random),
    };
    let more = 2 + random.below(3);
    Case { bytes, questions: [1, 0, more].map(|places| Question::ValidUpTo { places }).to_vec() }
}

// ---- flux and times

/// Flux of words, and now and then of an odd number of bytes: steps from some words, and all intervals into some places, with their closing
/// words and without.
fn flux_case(random: &mut Random) -> Case<Question> {
    let words = some_words(random);
    let closing = words.iter().filter(|&&word| word != 0).count();
    let count = words.len() as u64;
    let mut bytes = flux_bytes(&words);
    if random.once_in(10) {
        bytes.push(random.byte());
    }
    let mut questions: Vec<Question> = (0..count.min(20)).map(|word| Question::Step { word, places: 4 }).collect();
    let inside = random.below(words.len() + 1) as u64;
    for word in [inside, count.saturating_sub(1), count, count + 1, 1 << 63, u64::MAX, u64::MAX / 2] {
        questions.push(Question::Step { word, places: places(random, 4) });
    }
    for _ in 0..4 {
        questions.push(Question::Intervals { times: places(random, closing), places: places(random, 2) });
    }
    questions.extend(closed_intervals(closing, random));
    Case { bytes, questions }
}

/// Words of flux: a few or some hundred, and now and then some more behind so many zeros that their numbers pass 16 bits.
fn some_words(random: &mut Random) -> Vec<u16> {
    let most = random.pick(&[3, 12, 12, 300]);
    let mut words = generate::words(random, most);
    if random.once_in(400) {
        words.resize(random.between(65_530, 65_540), 0);
        words.extend(generate::words(random, 12));
    }
    words
}

/// All intervals with their closing words: enough places or more, either list or both one short, too few places for the values, or any.
fn closed_intervals(needed: usize, random: &mut Random) -> Vec<Question> {
    let (short, more) = (needed.saturating_sub(1), needed + 1 + random.below(3));
    let enough = [(needed, needed), (needed, more), (more, needed), (more, more)];
    let one_short = [(short, needed), (short, more), (needed, short), (more, short), (short, short)];
    let mut lent: Vec<_> = enough.iter().chain(&one_short).map(|&(times, closings)| (times, closings, 2 + random.below(2))).collect();
    lent.extend([(needed, needed, random.below(2)), (short, more, random.below(2))]);
    lent.push((places(random, needed), places(random, needed), places(random, 2)));
    lent.into_iter().map(|(times, closings, places)| Question::ClosedIntervals { times, closings, places }).collect()
}

/// Times at the edges of what words express, into some room.
fn times_case(random: &mut Random) -> Case<Question> {
    let long = random.once_in(60);
    let time = |random: &mut Random| match random.below(40) {
        0 => random.pick(&[0, 65_536, 131_072, 4_294_967_296, 4_294_967_297, 1 << 40, u64::MAX, 4_294_901_760]),
        1 if long => random.pick(&[4_294_967_295, 4_294_967_294, 4_294_901_761, 2_147_483_649]),
        2..=6 => random.pick(&[1, 2, 65_535, 65_537, 65_538, 131_071, 131_073, 196_607, 1_000_001]),
        _ => 1 + random.below(60_000) as u64,
    };
    let count = random.pick(&[0, 1, 2, 3, 8, 30]);
    let times: Vec<u64> = (0..count).map(|_| time(random)).collect();
    let needed: u64 = times.iter().map(|time| (2 * (time / 65_536 + 1)).min(1 << 20)).sum();
    let question = |random: &mut Random| Question::Words {
        times: times.clone(),
        room: places(random, needed as usize).min(1 << 22),
        places: places(random, 1),
    };
    let questions = (0..3).map(|_| question(random)).collect();
    Case { bytes: Vec::new(), questions }
}
