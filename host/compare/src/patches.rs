//! Lists of patches by chance: rewrites of revolutions that are there, most of them accepted and with as many words as these then hold.

use crate::cases::{present_tracks, revolutions, some_flux, some_revolution, some_track};
use crate::edition::{opening, some_row_number};
use crate::generate::{duration, string_words};
use crate::random::Random;
use crate::sequence::{Calls, ANSWER, CALL, LENGTH, REWRITE};
use scp::{raw, Edition};

/// A track and a revolution of it.
type Place = (u32, u32);

/// A list in the making, and the image that its calls leave.
struct List {
    image: Vec<u8>,
    calls: Vec<u64>,
    words: Vec<u8>,
}

impl List {
    /// No call yet.
    fn new(image: &[u8]) -> List {
        List { image: image.to_vec(), calls: Vec::new(), words: Vec::new() }
    }

    /// Adds a call, and runs it.
    fn add(&mut self, call: [u64; CALL]) {
        assert_eq!(raw::replay(&mut self.image, &call, &self.words, &mut [0; ANSWER]), 0, "there are places for the answer");
        self.calls.extend(call);
    }

    /// Adds a rewrite with these words.
    fn rewrite(&mut self, edition: Edition, (track, revolution): Place, words: &[u8], random: &mut Random) {
        let [start, length] = [self.words.len(), words.len()].map(|size| size as u64);
        self.words.extend(words);
        let duration = u64::from(duration(random)) + (random.below(2) as u64 * (1 << 32));
        self.add([REWRITE, track.into(), revolution.into(), duration, start, length, some_row_number(edition, random)]);
    }

    /// How many words a revolution holds now, 0 where it is not there.
    fn held(&self, edition: Edition, (track, revolution): Place) -> usize {
        scp::revolution(&self.image, edition, track, revolution).map_or(0, |found| found.words as usize)
    }
}

/// 1 to 12 rewrites of a few revolutions, by one edition or by both, and between them calls that change nothing. In three lists of four each
/// accepted rewrite has as many words as its revolution then holds.
pub fn patches(image: &[u8], random: &mut Random) -> Calls {
    let (mut list, editions) = (List::new(image), some_editions(image, random));
    let places: Vec<Place> = (0..random.between(1, 3)).map(|_| some_place(image, random)).collect();
    let (fewer, most) = (random.once_in(4), random.pick(&[1, 3, 6, 12]));
    for _ in 0..random.between(1, most) {
        let (edition, place) = (random.pick(&editions), random.pick(&places));
        let words = some_words(list.held(edition, place), fewer, random);
        list.rewrite(edition, place, &words, random);
        if random.once_in(4) {
            list.add(idle_call(some_row_number(edition, random), place, random));
        }
    }
    // now and then the last call names more words than there are, and less than a call stands behind it
    if random.once_in(8) && list.calls[list.calls.len() - CALL] == REWRITE {
        let length = list.calls.len() - CALL + LENGTH;
        list.calls[length] = random.pick(&[list.calls[length] + 1, u64::MAX]);
    }
    list.calls.extend(vec![REWRITE; if random.once_in(4) { random.below(CALL) } else { 0 }]);
    (list.calls, list.words)
}

/// So many rewrites of revolutions that are there, some of them several times, by one of these editions each, and each with as many words as
/// its revolution then holds.
pub fn rewrites(image: &[u8], editions: &[Edition], count: usize, random: &mut Random) -> Calls {
    let mut list = List::new(image);
    let places: Vec<Place> = (0..count.div_ceil(2)).map(|_| present_place(image, random)).collect();
    for _ in 0..count {
        let (edition, place) = (random.pick(editions), random.pick(&places));
        let words = some_flux(list.held(edition, place), random);
        list.rewrite(edition, place, &words, random);
    }
    (list.calls, list.words)
}

/// Editions to rewrite by: mostly those that open the image, one of them or both.
fn some_editions(image: &[u8], random: &mut Random) -> Vec<Edition> {
    let open = opening(image);
    match open.len() {
        1 if !random.once_in(3) => open,
        2 => random.pick(&[&Edition::ALL[..1], &Edition::ALL[1..], &Edition::ALL, &Edition::ALL]).to_vec(),
        _ => Edition::ALL.to_vec(),
    }
}

/// A revolution of a track that has an entry in the table; now and then any.
fn some_place(image: &[u8], random: &mut Random) -> Place {
    if random.once_in(12) {
        return (some_track(image, random), some_revolution(image, random));
    }
    present_place(image, random)
}

/// A revolution of a track that has an entry in the table; the first of track 0 where there is none.
fn present_place(image: &[u8], random: &mut Random) -> Place {
    let tracks = present_tracks(image);
    let track = if tracks.is_empty() { 0 } else { random.pick(&tracks) };
    (track, random.below(revolutions(image).max(1) as usize) as u32)
}

/// Words for a revolution that holds so many: as many or, where that is allowed, fewer; now and then a word or a byte too many.
fn some_words(held: usize, fewer: bool, random: &mut Random) -> Vec<u8> {
    let count = match random.below(16) {
        0 => held + 1,
        1..=5 if fewer => random.between(0, held),
        _ => held,
    };
    if count > 1 && random.once_in(5) {
        return string_words(2 * count, random);
    }
    let mut words = some_flux(count, random);
    if random.once_in(24) {
        words.push(0);
    }
    words
}

/// A call that changes nothing: a question, or a rewrite without words but for a number that is above 32 bits.
fn idle_call(edition: u64, (track, revolution): Place, random: &mut Random) -> [u64; CALL] {
    let mut call = [random.pick(&[0, 1, 2, 3, 4, 5, 6, 7, 9, u64::MAX]), track.into(), revolution.into(), 1, 0, 0, edition];
    if random.once_in(3) {
        call[0] = REWRITE;
        call[random.below(3)] += 1 << 32;
    }
    call
}
