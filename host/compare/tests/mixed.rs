//! Sequences of calls that name both editions: what the claim says of every sequence, on many by chance, and examples that show why it
//! says more of those alone that name one edition throughout.

use scp::{Edition, Reason};
use scp_compare::cases;
use scp_compare::edition::{of_row, opens};
use scp_compare::generate;
use scp_compare::image::{checksum_kept, duration_at, entry_at, number_at, CHECKSUM};
use scp_compare::outside::{string_in_flux, ILL_FORMED, NO_STRING, STRING};
use scp_compare::random::Random;
use scp_compare::sequence::{self, arguments, words_of, ANSWER, CALL, DURATION, EDITION, REWRITE};
use std::collections::BTreeMap;
use std::ops::Range;

/// The kinds of the other calls of the examples.
const VALIDATE: u64 = 0;
const REVOLUTION: u64 = 4;

/// Runs the calls, on which library and reader agree, and gives number and position of each answer.
fn run(image: &mut Vec<u8>, calls: &[u64], words: &[u8]) -> Vec<[u64; 2]> {
    let ran = sequence::run(image, calls, words, ANSWER * (calls.len() / CALL));
    let ran = ran.unwrap_or_else(|difference| panic!("{calls:?}, {words:?}: {difference:?}"));
    *image = ran.image;
    ran.answers.chunks_exact(ANSWER).map(|row| [row[0], row[1]]).collect()
}

/// Whether all rewrites name the edition; a question changes nothing, whatever it names.
fn all_name(edition: Edition, calls: &[u64]) -> bool {
    calls.chunks_exact(CALL).all(|call| call[0] != REWRITE || of_row(call[EDITION]) == edition)
}

// ---- examples

/// A call about a revolution of track 0; a rewrite puts all words.
fn call(edition: Edition, kind: u64, revolution: u64) -> [u64; CALL] {
    [kind, 0, revolution, 8_000_000, 0, 8, edition.number().into()]
}

#[test]
fn a_rewrite_by_1_4_can_break_what_1_6_reads() {
    use Edition::{V1_4, V1_6};
    let before = string_in_flux(STRING);
    let calls = [
        call(V1_6, REVOLUTION, 1),
        call(V1_6, REWRITE, 0),
        call(V1_4, REWRITE, 0),
        call(V1_6, REVOLUTION, 1),
        call(V1_4, REVOLUTION, 1),
        call(V1_4, VALIDATE, 0),
    ];
    // by 1.6 the string claims the words; by 1.4 nothing does, and then the image opens no more by 1.6
    for (words, number) in [(NO_STRING, 8), (ILL_FORMED, 19)] {
        let mut image = before.clone();
        assert_eq!(run(&mut image, &calls.concat(), words), [[0, 0], [18, 0], [0, 0], [number, 4], [0, 0], [0, 0]]);
        // the other revolution reads as before by the rewrite's edition
        assert_eq!(scp::revolution(&image, V1_4, 0, 1), scp::revolution(&before, V1_6, 0, 1));
        assert_eq!(scp::flux(&image, V1_4, 0, 1), scp::flux(&before, V1_6, 0, 1));
    }
}

#[test]
fn a_rewrite_by_1_4_can_open_what_1_6_refuses() {
    use Edition::{V1_4, V1_6};
    let calls =
        [call(V1_6, VALIDATE, 0), call(V1_6, REWRITE, 0), call(V1_4, REWRITE, 0), call(V1_6, VALIDATE, 0), call(V1_6, REVOLUTION, 1)];
    for (words, number) in [(NO_STRING, 8), (ILL_FORMED, 19)] {
        let mut image = string_in_flux(words);
        assert_eq!(run(&mut image, &calls.concat(), STRING), [[number, 4], [number, 4], [0, 0], [0, 0], [0, 0]]);
    }
}

// ---- every sequence

/// A revolution, by its track and its own number, and what it reads as: its duration and its words.
type Place = (u32, u32);
type Reading = (u32, Vec<u8>);

/// What a revolution reads as, taken from the bytes themselves.
fn reading(image: &[u8], (track, revolution): Place) -> Reading {
    let header = number_at(image, entry_at(track as usize)) as usize;
    let record = duration_at(header, revolution as usize);
    let [duration, count, distance] = [0, 4, 8].map(|field| number_at(image, record + field));
    (duration, image[header + distance as usize..][..2 * count as usize].to_vec())
}

/// All revolutions that are present by an edition, as its questions answer, each with its place in the file.
fn readings(image: &[u8], edition: Edition) -> BTreeMap<Place, (u64, Reading)> {
    let mut readings = BTreeMap::new();
    for track in (0..edition.tracks()).filter(|&track| number_at(image, entry_at(track as usize)) != 0) {
        let revolutions = scp::track(image, edition, track).map_or(0, |found| found.revolutions);
        for revolution in 0..revolutions {
            let found = scp::revolution(image, edition, track, revolution).unwrap();
            let flux = scp::flux(image, edition, track, revolution).unwrap();
            readings.insert((track, revolution), (found.offset, (found.duration, flux.to_vec())));
        }
    }
    readings
}

/// What a rewrite puts, and into which revolution.
fn put(call: &[u64], words: &[u8]) -> (Place, Reading) {
    let [_, track, revolution] = arguments(call);
    ((track, revolution), (call[DURATION] as u32, words_of(call, words).to_vec()))
}

/// By the edition of an accepted rewrite its revolution reads as put and every other one as before; gives the bytes that it set.
fn check_rewrite(before: &[u8], after: &[u8], edition: Edition, (place, new): &(Place, Reading)) -> [Range<usize>; 2] {
    let mut due = readings(before, edition);
    let (offset, reading) = due.get_mut(place).expect("it is there");
    reading.clone_from(new);
    let flux = *offset as usize;
    assert_eq!(readings(after, edition), due);
    let header = scp::track(before, edition, place.0).unwrap().offset as usize;
    let record = duration_at(header, place.1 as usize);
    [record..record + 8, flux..flux + new.1.len()]
}

/// By an edition that opens the first image every revolution reads as it was put last, whatever edition the rewrite named, or as before.
fn check_readings(first: &[u8], last: &[u8], puts: &BTreeMap<Place, Reading>) {
    for edition in Edition::ALL {
        for (place, (_, before)) in readings(first, edition) {
            assert_eq!(&reading(last, place), puts.get(&place).unwrap_or(&before));
        }
    }
}

/// What the claim says of the bytes after any sequence, where these were set by accepted rewrites.
fn check_bytes(first: &[u8], last: &[u8], set: &[bool]) {
    assert_eq!(first.len(), last.len());
    let may_change = |place: usize| set[place] || CHECKSUM.contains(&place);
    assert!((0..first.len()).all(|place| first[place] == last[place] || may_change(place)));
    assert_eq!(checksum_kept(first), checksum_kept(last));
}

/// Runs a sequence call by call, checks what the claim says of it, and gives its last image and how many rewrites were accepted.
fn check_sequence(first: &[u8], calls: &[u64], words: &[u8]) -> (Vec<u8>, u32) {
    let (mut image, mut set, mut accepted) = (first.to_vec(), vec![false; first.len()], 0);
    let mut puts = BTreeMap::new();
    for call in calls.chunks_exact(CALL) {
        let before = image.clone();
        let answer = run(&mut image, call, words)[0];
        if call[0] == REWRITE && answer == [0, 0] {
            let put = put(call, words);
            check_rewrite(&before, &image, of_row(call[EDITION]), &put).into_iter().for_each(|part| set[part].fill(true));
            puts.extend([put]);
            accepted += 1;
        } else {
            assert_eq!(image, before);
        }
    }
    check_bytes(first, &image, &set);
    check_readings(first, &image, &puts);
    let mut at_one_go = first.to_vec();
    run(&mut at_one_go, calls, words);
    assert_eq!(at_one_go, image);
    (image, accepted)
}

/// Where all rewrites name one edition, an image that it opens stays so, and one that it refuses stays as it is.
fn check_one_edition(first: &[u8], last: &[u8], calls: &[u64]) {
    for edition in Edition::ALL.into_iter().filter(|&edition| all_name(edition, calls)) {
        assert_eq!(opens(first, edition), opens(last, edition));
        assert!(opens(first, edition) || first == last);
    }
}

#[test]
fn what_the_claim_says_holds_of_every_sequence() {
    let mut random = Random::new(14);
    let (mut accepted, mut broken, mut mended, mut texts) = ([0; 2], 0, 0, 0);
    for number in 0..50_000 {
        let first = match number % 10 {
            0 => string_in_flux(STRING),
            1 => string_in_flux(NO_STRING),
            2 => string_in_flux(ILL_FORMED),
            _ => generate::image(&mut random),
        };
        let (calls, words) = cases::sequence(&first, &mut random);
        let (last, rewrites) = check_sequence(&first, &calls, &words);
        check_one_edition(&first, &last, &calls);
        let mixed = !Edition::ALL.into_iter().any(|edition| all_name(edition, &calls));
        accepted[usize::from(mixed)] += rewrites;
        let refused = [&first, &last].map(|image| scp::header(image, Edition::V1_6).err().map(|refusal| refusal.reason));
        broken += u32::from(matches!(refused, [None, Some(_)]));
        mended += u32::from(matches!(refused, [Some(_), None]));
        texts += u32::from(matches!(refused, [None, Some(Reason::Text)] | [Some(Reason::Text), None]));
    }
    let enough = accepted.iter().all(|&rewrites| rewrites > 1000) && broken > 100 && mended > 50 && texts > 50;
    assert!(enough, "{accepted:?} accepted, {broken} broken, {mended} mended, of both {texts} by a text");
}
