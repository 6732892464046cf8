//! The words that closed the intervals, step by step and at one go; expected values by hand.

use scp_reader::{closed_intervals, intervals, step, words, Refusal, Step};

/// Refusal 15: a lent list is too short.
const PLACES: Refusal = Refusal { number: 15, position: 0 };

/// Refusal 17: the flux has an odd number of bytes or is too long.
const WORDS: Refusal = Refusal { number: 17, position: 0 };

/// Image A's flux, of which words 0, 2 and 3 close 160, 65,537 and 240.
const A_FLUX: [u8; 8] = [0x00, 0xA0, 0x00, 0x00, 0x00, 0x01, 0x00, 0xF0];

/// Flux of these words, high byte first.
fn flux_of(words: &[u16]) -> Vec<u8> {
    words.iter().flat_map(|word| [(word >> 8) as u8, *word as u8]).collect()
}

/// All intervals, their closing words and the open time, with places to spare.
fn closed(flux: &[u8]) -> (Vec<u64>, Vec<u64>, u64) {
    closed_intervals(flux, usize::MAX, usize::MAX).unwrap()
}

/// A step of an interval with its closing word; the next word is the one behind that.
fn closes(ticks: u64, closing: u64) -> Result<Step, Refusal> {
    Ok(Step { interval: Some(ticks), open: 0, closing: Some(closing), next: closing + 1 })
}

/// A step without an interval from a word on.
fn stays(open: u64, word: u64) -> Result<Step, Refusal> {
    Ok(Step { interval: None, open, closing: None, next: word })
}

#[test]
fn closing_words_of_the_starred_examples() {
    assert_eq!(closed(&[]), (vec![], vec![], 0));
    assert_eq!(closed(&[0x00, 0x00]), (vec![], vec![], 65_536));
    assert_eq!(closed(&[0x00, 0x00, 0x00, 0x00, 0x7F, 0xFF]), (vec![163_839], vec![2], 0));
    assert_eq!(closed(&[0xFF, 0xFF]), (vec![65_535], vec![0], 0));
    assert_eq!(closed(&[0x00, 0x00, 0x00, 0x01]), (vec![65_537], vec![1], 0));
    assert_eq!(closed(&A_FLUX), (vec![160, 65_537, 240], vec![0, 2, 3], 0));
}

#[test]
fn steps_of_the_starred_examples() {
    assert_eq!(step(&[], 0), stays(0, 0));
    assert_eq!(step(&[0x00, 0x00], 0), stays(65_536, 0));
    assert_eq!(step(&[0x00, 0x00, 0x00, 0x00, 0x7F, 0xFF], 0), closes(163_839, 2));
    assert_eq!(step(&[0xFF, 0xFF], 0), closes(65_535, 0));
    assert_eq!(step(&[0x00, 0x00, 0x00, 0x01], 0), closes(65_537, 1));
    assert_eq!(step(&A_FLUX, 0), closes(160, 0));
    assert_eq!(step(&A_FLUX, 1), closes(65_537, 2));
    assert_eq!(step(&A_FLUX, 3), closes(240, 3));
    assert_eq!(step(&A_FLUX, 4), stays(0, 4));
}

#[test]
fn zero_words_count_but_do_not_close() {
    // None, before, between, after, and all of these.
    assert_eq!(closed(&flux_of(&[7, 9])), (vec![7, 9], vec![0, 1], 0));
    assert_eq!(closed(&flux_of(&[0, 0, 0, 7])), (vec![196_615], vec![3], 0));
    assert_eq!(closed(&flux_of(&[7, 0, 0, 9])), (vec![7, 131_081], vec![0, 3], 0));
    assert_eq!(closed(&flux_of(&[7, 9, 0, 0])), (vec![7, 9], vec![0, 1], 131_072));
    assert_eq!(closed(&flux_of(&[0, 7, 0, 0, 9, 0, 0, 0])), (vec![65_543, 131_081], vec![1, 4], 196_608));
    assert_eq!(closed(&flux_of(&[0, 0, 0, 0])), (vec![], vec![], 262_144));
    // Neither half of a word alone makes it zero.
    assert_eq!(closed(&flux_of(&[0x0100, 0, 0x0001, 0x8000])), (vec![256, 65_537, 32_768], vec![0, 2, 3], 0));
}

#[test]
fn a_step_from_any_word_counts_from_the_first() {
    let flux = flux_of(&[0, 0, 7, 0, 9, 0, 0]);
    assert_eq!(step(&flux, 0), closes(131_079, 2));
    assert_eq!(step(&flux, 1), closes(65_543, 2));
    assert_eq!(step(&flux, 2), closes(7, 2));
    assert_eq!(step(&flux, 3), closes(65_545, 4));
    assert_eq!(step(&flux, 4), closes(9, 4));
    assert_eq!(step(&flux, 5), stays(131_072, 5));
    assert_eq!(step(&flux, 6), stays(65_536, 6));
    for past in [7, 8, 9, 14, 1 << 31, 1 << 32, 1 << 62, 1 << 63, (1 << 63) + 2, u64::MAX] {
        assert_eq!(step(&flux, past), stays(0, past));
    }
}

#[test]
fn either_list_too_short_is_refused() {
    for few in [0, 1, 2] {
        assert_eq!(closed_intervals(&A_FLUX, few, 3), Err(PLACES));
        assert_eq!(closed_intervals(&A_FLUX, few, usize::MAX), Err(PLACES));
        assert_eq!(closed_intervals(&A_FLUX, 3, few), Err(PLACES));
        assert_eq!(closed_intervals(&A_FLUX, usize::MAX, few), Err(PLACES));
        assert_eq!(closed_intervals(&A_FLUX, few, few), Err(PLACES));
    }
    assert_eq!(closed_intervals(&[0, 1], 0, 0), Err(PLACES));
}

#[test]
fn as_many_places_as_intervals_are_enough() {
    let answer = (vec![160, 65_537, 240], vec![0, 2, 3], 0);
    for (places, closing_places) in [(3, 3), (3, 4), (4, 3), (9, 9), (3, usize::MAX), (usize::MAX, 3)] {
        assert_eq!(closed_intervals(&A_FLUX, places, closing_places), Ok(answer.clone()));
    }
    // Zero words take no place in either list.
    assert_eq!(closed_intervals(&[], 0, 0), Ok((vec![], vec![], 0)));
    assert_eq!(closed_intervals(&[0; 6], 0, 0), Ok((vec![], vec![], 196_608)));
    assert_eq!(closed_intervals(&flux_of(&[0, 0, 5, 0]), 1, 1), Ok((vec![131_077], vec![2], 65_536)));
}

#[test]
fn flux_of_a_wrong_length_comes_before_short_lists() {
    for places in [0, 1, 9] {
        assert_eq!(closed_intervals(&[1], places, 0), Err(WORDS));
        assert_eq!(closed_intervals(&[0, 1, 0], 0, places), Err(WORDS));
        assert_eq!(closed_intervals(&[0, 1, 0], places, places), Err(WORDS));
    }
    let mut long = vec![0; 268_435_458];
    long[268_435_455] = 1;
    assert_eq!(closed_intervals(&long, 0, 0), Err(WORDS));
    assert_eq!(closed_intervals(&long, 9, 9), Err(WORDS));
    assert_eq!(closed_intervals(&long[1..], 9, 9), Err(WORDS));
    // The longest flux has 134,217,728 words, of which here the last closes.
    let longest = &long[..268_435_456];
    assert_eq!(step(longest, 134_217_726), closes(65_537, 134_217_727));
    assert_eq!(step(longest, 134_217_728), stays(0, 134_217_728));
}

#[test]
fn a_long_interval_is_closed_far_from_its_first_word() {
    // 65,535 zero words and then 65,535, the longest time that can be made words; and one tick.
    let mut flux = [vec![0; 131_070], flux_of(&[65_535, 1])].concat();
    assert_eq!(closed_intervals(&flux, 2, 2), Ok((vec![4_294_967_295, 1], vec![65_535, 65_536], 0)));
    assert_eq!(step(&flux, 0), closes(4_294_967_295, 65_535));
    assert_eq!(step(&flux, 65_534), closes(131_071, 65_535));
    assert_eq!(step(&flux, 65_535), closes(65_535, 65_535));
    assert_eq!(step(&flux, 65_536), closes(1, 65_536));
    // One zero word more: longer than any time that can be made words.
    flux.splice(..0, [0, 0]);
    assert_eq!(closed_intervals(&flux, 2, 2), Ok((vec![4_295_032_831, 1], vec![65_536, 65_537], 0)));
    assert_eq!(step(&flux, 0), closes(4_295_032_831, 65_536));
}

#[test]
fn times_made_words_are_closed_by_their_last_words() {
    let flux = words(&[65_537, 1, 131_071, 196_609], 18).unwrap();
    assert_eq!(closed_intervals(&flux, 4, 4), Ok((vec![65_537, 1, 131_071, 196_609], vec![1, 2, 4, 8], 0)));
}

/// All intervals, their closing words and the open time, step by step.
fn stepped(flux: &[u8]) -> (Vec<u64>, Vec<u64>, u64) {
    let mut found = (Vec::new(), Vec::new(), 0);
    let mut word = 0;
    loop {
        let one = step(flux, word).unwrap();
        let (Some(ticks), Some(closing)) = (one.interval, one.closing) else {
            assert_eq!(Ok(one), stays(one.open, word));
            found.2 = one.open;
            return found;
        };
        assert_eq!(Ok(one), closes(ticks, closing));
        found.0.push(ticks);
        found.1.push(closing);
        word = one.next;
    }
}

#[test]
fn steps_and_both_calls_at_one_go_agree() {
    // All flux of up to 6 words that are 0, 1, 256 or 65,535.
    for count in 0..=6 {
        for number in 0..4_usize.pow(count) {
            let all: Vec<u16> = (0..count).map(|place| [0, 1, 256, 65_535][number / 4_usize.pow(place) % 4]).collect();
            let flux = flux_of(&all);
            let need = all.iter().filter(|&&word| word != 0).count();
            let (found, closings, open) = closed_intervals(&flux, need, need).unwrap();
            assert_eq!((closings.len(), Ok((found.clone(), open))), (need, intervals(&flux, need)));
            assert_eq!((found, closings, open), stepped(&flux));
        }
    }
}
