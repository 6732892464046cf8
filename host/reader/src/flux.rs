//! Intervals from flux words, and flux words from times.

use std::ops::Range;

use crate::answers::{refuse, refuse_at, Refusal, Step};
use crate::image::{array, GREATEST};

/// The rules, Flux and time: the ticks of a zero word.
const ZERO_WORD: u64 = 65_536;

/// The rules, refusal 17: flux given has an odd number of bytes or above 268,435,456.
pub(crate) fn check(flux: &[u8]) -> Result<(), Refusal> {
    if flux.len() % 2 == 1 || flux.len() as u64 > GREATEST {
        return Err(refuse(17));
    }
    Ok(())
}

/// The rules, Layout: flux words are 16 bits, big endian; none past the end.
fn word_at(flux: &[u8], word: u64) -> Option<u16> {
    array(flux, word.checked_mul(2)?).map(u16::from_be_bytes)
}

/// The rules, Flux and time: from a word number on, to the next closing word, or the open time.
/// the closing word stands as many words further on as there are zero words before it.
pub fn step(flux: &[u8], word: u64) -> Result<Step, Refusal> {
    check(flux)?;
    let mut zeros = 0;
    let mut at = word;
    while let Some(found) = word_at(flux, at) {
        at += 1;
        if found != 0 {
            let closing = Some(word + zeros);
            return Ok(Step { interval: Some(ZERO_WORD * zeros + u64::from(found)), open: 0, closing, next: at });
        }
        zeros += 1;
    }
    Ok(Step { interval: None, open: ZERO_WORD * zeros, closing: None, next: word })
}

/// The rules, Flux and time: all intervals and the open time; 17, then 15 if they do not fit.
pub fn intervals(flux: &[u8], places: usize) -> Result<(Vec<u64>, u64), Refusal> {
    check(flux)?;
    let mut found = Vec::new();
    let mut pending = 0;
    for pair in flux.chunks_exact(2) {
        let word = pair.iter().fold(0, |high, &low| high * 256 + u64::from(low));
        if word == 0 {
            pending += ZERO_WORD;
        } else {
            found.push(pending + word);
            pending = 0;
        }
    }
    if found.len() > places {
        return Err(refuse(15));
    }
    Ok((found, pending))
}

/// The rules, Q-3: all intervals, the words that closed them, and the open time; 17, then 15 if one list or the other is too short.
/// The closing words are found first; an interval is then the sum over the words behind the closing word before it, up to its own.
pub fn closed_intervals(flux: &[u8], places: usize, closing_places: usize) -> Result<(Vec<u64>, Vec<u64>, u64), Refusal> {
    check(flux)?;
    let closings = closing_words(flux);
    if closings.len() > places || closings.len() > closing_places {
        return Err(refuse(15));
    }
    let mut sums = Vec::new();
    let mut start = 0;
    for closing in &closings {
        let end = closing + 1;
        sums.push(ticks(flux, start..end));
        start = end;
    }
    let open = ticks(flux, start..word_count(flux));
    Ok((sums, closings, open))
}

/// How many words there are.
fn word_count(flux: &[u8]) -> u64 {
    flux.len() as u64 / 2
}

/// The rules, Flux and time and Q-3: the numbers of all closing words, those that are not zero, from 0 within the flux.
fn closing_words(flux: &[u8]) -> Vec<u64> {
    let numbers = 0..word_count(flux);
    numbers.filter(|&number| word_at(flux, number) != Some(0)).collect()
}

/// The rules, Flux and time: the sum over the words of these numbers, 65,536 for a zero and w for any other.
fn ticks(flux: &[u8], numbers: Range<u64>) -> u64 {
    let words = numbers.filter_map(|number| word_at(flux, number));
    words.map(|word| if word == 0 { ZERO_WORD } else { u64::from(word) }).sum()
}

/// The rules, Flux and time: the words of the times, as bytes; 16, then 15 if they do not fit.
pub fn words(times: &[u64], places: usize) -> Result<Vec<u8>, Refusal> {
    for (index, &time) in (0..).zip(times) {
        if !(1..=4_294_967_295).contains(&time) || time % ZERO_WORD == 0 {
            return Err(refuse_at(16, index));
        }
    }
    let need: u128 = times.iter().map(|&time| bytes_of(time)).sum();
    if need > places as u128 {
        return Err(refuse(15));
    }
    let mut bytes = Vec::new();
    for &time in times {
        for _ in 0..time / ZERO_WORD {
            bytes.extend([0, 0]);
        }
        let rest = time % ZERO_WORD;
        bytes.extend([(rest / 256) as u8, (rest % 256) as u8]);
    }
    Ok(bytes)
}

/// The rules, Flux and time: a time takes t / 65,536 zero words and then one more, 2 bytes each.
fn bytes_of(time: u64) -> u128 {
    2 * (u128::from(time / ZERO_WORD) + 1)
}
