//! The words that close intervals, across the boundary: values by hand, lists that are too short, and flux at its edges.

use scp::{raw, Edition, Step};
use scp_compare::boundary::NUMBER;
use scp_compare::difference::after;
use scp_compare::guarded::Guarded;
use scp_compare::image::flux_bytes;
use scp_compare::question::{number, Question};

/// Image A's flux, of which words 0, 2 and 3 close 160, 65,537 and 240.
const A_FLUX: [u8; 8] = [0x00, 0xA0, 0x00, 0x00, 0x00, 0x01, 0x00, 0xF0];

/// The bytes of the longest flux, and its last word.
const LONGEST: usize = 268_435_456;
const LAST_WORD: u64 = 134_217_727;

/// Intervals, closing words and open time.
type Found = (Vec<u64>, Vec<u64>, u64);

/// What the wrapper finds, where the library across the boundary and the reader agree.
fn closed(flux: &[u8]) -> Found {
    let words = flux.len() / 2;
    assert_eq!(number(flux, &Question::ClosedIntervals { times: words, closings: words, places: 2 }), Ok(0));
    scp::all_closed_intervals(flux).expect("the flux is words")
}

/// What steps from word 0 on find.
fn stepped(flux: &[u8]) -> Found {
    let (mut times, mut closings, mut word) = (Vec::new(), Vec::new(), 0);
    loop {
        match scp::step(flux, word).expect("the flux is words") {
            Step::Interval { ticks, closing, next } => {
                assert_eq!(next, closing + 1);
                times.push(ticks);
                closings.push(closing);
                word = next;
            }
            Step::Open { ticks } => return (times, closings, ticks),
        }
    }
}

/// Lends two lists and a buffer for the values, of so many places: the code is as foreseen, and each starts with what was found, if
/// anything; behind it and around it all is as it was.
fn lend(flux: &[u8], sizes: [usize; 3], code: u64, found: [&[u64]; 3]) {
    let [mut times, mut closings, mut out] = sizes.map(|size| Guarded::new(&vec![NUMBER; size], NUMBER));
    assert_eq!(raw::closed_intervals(flux, times.lent(), closings.lent(), out.lent()), code, "{sizes:?}");
    for ((lent, size), values) in [times, closings, out].iter().zip(sizes).zip(found) {
        assert!(lent.holds(&after(NUMBER, size, values)), "{sizes:?}: {:?}", lent.contents());
    }
}

/// Lends too little, or flux of a wrong length: the code is as foreseen, and nothing is written.
fn untouched(flux: &[u8], sizes: [usize; 3], code: u64) {
    lend(flux, sizes, code, [&[]; 3]);
}

#[test]
fn image_a_is_closed_by_words_0_2_and_3() {
    for (edition, image) in [(Edition::V1_6, scp::example::image_a()), (Edition::V1_4, scp::example::image_a_1_4())] {
        let flux = scp::flux(&image, edition, 0, 0).unwrap();
        assert_eq!(flux, A_FLUX);
        assert_eq!(closed(flux), (vec![160, 65_537, 240], vec![0, 2, 3], 0));
        assert_eq!(stepped(flux), closed(flux));
    }
    for (word, row) in [(0, [160, 0, 1, 0]), (1, [65_537, 0, 3, 2]), (2, [1, 0, 3, 2]), (3, [240, 0, 4, 3]), (4, [0, 0, 4, 0])] {
        let mut out = Guarded::new(&[NUMBER; 5], NUMBER);
        assert_eq!(raw::step(&A_FLUX, word, out.lent()), 0);
        assert!(out.holds(&after(NUMBER, 5, &row)), "from word {word}: {:?}", out.contents());
    }
}

#[test]
fn zero_words_count_and_close_nothing() {
    for (words, times, closings, open) in [
        (&[][..], &[][..], &[][..], 0),
        (&[0], &[], &[], 65_536),
        (&[0, 0, 0], &[], &[], 196_608),
        (&[7, 9], &[7, 9], &[0, 1], 0),
        (&[0, 0, 0, 7], &[196_615], &[3], 0),
        (&[7, 0, 0, 9], &[7, 131_081], &[0, 3], 0),
        (&[7, 9, 0, 0], &[7, 9], &[0, 1], 131_072),
        (&[0, 7, 0, 0, 9, 0, 0, 0], &[65_543, 131_081], &[1, 4], 196_608),
        (&[0x0100, 0, 0x0001, 0x8000, 0xFFFF], &[256, 65_537, 32_768, 65_535], &[0, 2, 3, 4], 0),
    ] {
        let flux = flux_bytes(words);
        assert_eq!(closed(&flux), (times.to_vec(), closings.to_vec(), open), "{words:?}");
        assert_eq!(stepped(&flux), closed(&flux), "{words:?}");
        lend(&flux, [times.len(), closings.len(), 2], 0, [times, closings, &[times.len() as u64, open]]);
    }
}

#[test]
fn flux_may_stand_at_any_place() {
    for place in 0..16 {
        let buffer = [vec![0xFF; place], A_FLUX.to_vec(), vec![0xFF; 3]].concat();
        let flux = &buffer[place..place + 8];
        assert_eq!(scp::all_closed_intervals(flux), Ok((vec![160, 65_537, 240], vec![0, 2, 3], 0)), "at {place}");
        assert_eq!(stepped(flux), closed(flux), "at {place}");
    }
}

#[test]
fn numbers_of_closing_words_pass_16_bits() {
    // the longest time that can be made words, and a tick: words 65,535 and 65,536
    let mut words = [vec![0; 65_535], vec![65_535, 1]].concat();
    assert_eq!(closed(&flux_bytes(&words)), (vec![4_294_967_295, 1], vec![65_535, 65_536], 0));
    // a zero word more
    words.insert(0, 0);
    let flux = flux_bytes(&words);
    assert_eq!(closed(&flux), (vec![4_295_032_831, 1], vec![65_536, 65_537], 0));
    assert_eq!(stepped(&flux), closed(&flux));
    for from in [0, 1, 65_535, 65_536] {
        let ticks = 65_536 * (65_536 - from) + 65_535;
        assert_eq!(scp::step(&flux, from), Ok(Step::Interval { ticks, closing: 65_536, next: 65_537 }));
    }
    // no zero words at all
    assert_eq!(closed(&flux_bytes(&[3; 65_538])), (vec![3; 65_538], (0..65_538).collect(), 0));
}

#[test]
fn the_last_word_of_the_longest_flux_closes_it() {
    let mut flux = vec![0; LONGEST];
    flux[LONGEST - 1] = 1;
    let ticks = 65_536 * LAST_WORD + 1;
    lend(&flux, [1, 1, 2], 0, [&[ticks], &[LAST_WORD], &[1, 0]]);
    assert_eq!(scp::step(&flux, 0), Ok(Step::Interval { ticks, closing: LAST_WORD, next: LAST_WORD + 1 }));
    assert_eq!(scp::step(&flux, LAST_WORD), Ok(Step::Interval { ticks: 1, closing: LAST_WORD, next: LAST_WORD + 1 }));
    for sizes in [[0, 1, 2], [1, 0, 2], [1, 1, 1]] {
        untouched(&flux, sizes, 15);
    }
    untouched(&flux[1..], [1, 1, 2], 17);
    flux.extend([0, 0]);
    for sizes in [[1, 1, 2], [0, 0, 0], [0, 1, 2], [1, 0, 2]] {
        untouched(&flux, sizes, 17);
        untouched(&flux[1..], sizes, 17);
    }
    let [times, closings, places] = [1, 1, 2];
    assert_eq!(number(&flux[..LONGEST], &Question::ClosedIntervals { times, closings, places }), Ok(0));
    assert_eq!(number(&flux, &Question::ClosedIntervals { times, closings, places }), Ok(17));
}

#[test]
fn where_anything_lent_is_too_short_nothing_is_written() {
    let few = [[2, 3, 2], [3, 2, 2], [2, 9, 2], [9, 2, 2], [2, 2, 2], [0, 3, 2], [3, 0, 2], [0, 0, 2]];
    let no_values = [[3, 3, 1], [3, 3, 0], [9, 9, 1], [2, 3, 1], [3, 2, 1], [0, 0, 0]];
    for sizes in few.into_iter().chain(no_values) {
        untouched(&A_FLUX, sizes, 15);
        // an odd number of bytes comes first
        untouched(&A_FLUX[1..], sizes, 17);
        untouched(&A_FLUX[..1], sizes, 17);
    }
    untouched(&A_FLUX[1..], [3, 3, 2], 17);
    // without a closing word the lists may be empty, and the values still have to fit
    untouched(&[0; 4], [0, 0, 1], 15);
    untouched(&[], [0, 0, 0], 15);
    // a step has four values
    for size in 0..4 {
        let mut out = Guarded::new(&vec![NUMBER; size], NUMBER);
        assert!(raw::step(&A_FLUX, 0, out.lent()) == 15 && out.holds(&vec![NUMBER; size]), "{size} places");
        assert!(raw::step(&A_FLUX[1..], 0, out.lent()) == 17 && out.holds(&vec![NUMBER; size]), "{size} places");
    }
}

#[test]
fn as_many_places_as_closing_words_are_enough_and_more_are_left() {
    for sizes in [[3, 3, 2], [3, 4, 2], [4, 3, 2], [3, 3, 3], [9, 9, 9]] {
        lend(&A_FLUX, sizes, 0, [&[160, 65_537, 240], &[0, 2, 3], &[3, 0]]);
    }
    for sizes in [[0, 0, 2], [0, 1, 2], [1, 0, 2], [5, 5, 5]] {
        lend(&[0; 4], sizes, 0, [&[], &[], &[0, 131_072]]);
        lend(&[], sizes, 0, [&[], &[], &[0, 0]]);
    }
}

/// All lists of up to so many words that are 0, 1 or 65,535.
fn all_words(most: u32) -> impl Iterator<Item = Vec<u16>> {
    let words = |count: u32, number: usize| (0..count).map(|place| [0, 1, 0xFFFF][number / 3_usize.pow(place) % 3]).collect();
    (0..=most).flat_map(move |count| (0..3_usize.pow(count)).map(move |number| words(count, number)))
}

/// The closing word that a step from a word on names, if any.
fn closing_from(flux: &[u8], word: u64) -> Option<u64> {
    match scp::step(flux, word).expect("the flux is words") {
        Step::Interval { closing, .. } => Some(closing),
        Step::Open { .. } => None,
    }
}

#[test]
fn closing_words_are_those_that_are_not_zero_on_all_flux_of_up_to_7_words() {
    assert_eq!(all_words(7).count(), 3280);
    for words in all_words(7) {
        let flux = flux_bytes(&words);
        let closings: Vec<u64> = (0..).zip(&words).filter(|(_, &word)| word != 0).map(|(number, _)| number).collect();
        let (times, closed_by, open) = closed(&flux);
        assert_eq!(closed_by, closings, "{words:?}");
        assert_eq!(scp::all_intervals(&flux), Ok((times.clone(), open)), "{words:?}");
        assert_eq!(stepped(&flux), (times, closed_by, open), "{words:?}");
        for from in 0..=words.len() as u64 + 1 {
            let first = closings.iter().copied().find(|&closing| closing >= from);
            assert_eq!(closing_from(&flux, from), first, "{words:?} from word {from}");
        }
    }
}
