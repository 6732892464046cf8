//! The numbers of flux without its intervals (F-21, C-27), and where the flux of a revolution stands (C-28, C-29), beside what the reader finds
//! by its intervals and its revolutions: answers, every number of the buffer lent, and the guards around it.

use scp::raw;
use scp_compare::boundary::{fill, NUMBER};
use scp_compare::cases::{places, some_flux, some_revolution, some_track};
use scp_compare::edition::{named, V1_4, V1_6};
use scp_compare::generate;
use scp_compare::random::Random;
use scp_reader as reader;

/// What the reader's list of intervals comes to: how many, the open time, and the ticks of both.
fn numbers(flux: &[u8]) -> Result<Vec<u64>, reader::Refusal> {
    let (intervals, open) = reader::intervals(flux, usize::MAX)?;
    Ok(vec![intervals.len() as u64, open, intervals.iter().sum::<u64>() + open])
}

/// Compares the numbers of flux; gives that of the refusal.
fn summary(flux: &[u8], places: usize) -> u32 {
    let number = fill(numbers(flux), places, NUMBER, |out| raw::summary(flux, out));
    number.unwrap_or_else(|difference| panic!("{} bytes, {places} places: {difference:?}", flux.len()))
}

/// The place of a revolution's flux, and its bytes.
fn part(revolution: reader::Revolution) -> Vec<u64> {
    vec![revolution.place, 2 * u64::from(revolution.words)]
}

/// Compares where the flux of a revolution stands, by the full call and by the direct one; gives the numbers of both refusals.
fn flux_part(image: &[u8], edition: u32, (track, revolution): (u32, u32), places: usize) -> [u32; 2] {
    let by = named(edition);
    let full = fill(reader::revolution(image, by, track, revolution).map(part), places, NUMBER, |out| {
        raw::flux_part(image, edition, track, revolution, out)
    });
    let direct = fill(reader::direct::revolution(image, by, track, revolution).map(part), places, NUMBER, |out| {
        raw::direct_flux_part(image, edition, track, revolution, out)
    });
    [full, direct].map(|number| {
        number.unwrap_or_else(|difference| panic!("revolution {revolution} of track {track} by {edition}, {places} places: {difference:?}"))
    })
}

#[test]
fn flux_of_few_words_has_the_numbers_of_its_intervals() {
    for words in 0..6 {
        for pattern in 0..3_u32.pow(words) {
            let word = |k| [0, 1, 0xFFFF][(pattern / 3_u32.pow(k) % 3) as usize] as u16;
            let flux: Vec<u8> = (0..words).flat_map(|k| word(k).to_be_bytes()).collect();
            assert_eq!([2, 3, 5].map(|places| summary(&flux, places)), [15, 0, 0]);
            if words > 0 {
                assert_eq!([0, 3].map(|places| summary(&flux[1..], places)), [17, 17]);
            }
        }
    }
}

#[test]
fn flux_by_chance_has_the_numbers_of_its_intervals() {
    let mut random = Random::new(1);
    for _ in 0..2000 {
        let words = random.below(300);
        summary(&some_flux(words, &mut random), places(&mut random, 3));
    }
}

#[test]
fn the_longest_flux_has_its_numbers_and_longer_is_refused() {
    let mut flux = vec![0; 268_435_456];
    assert_eq!(numbers(&flux), Ok(vec![0, 8_796_093_022_208, 8_796_093_022_208]));
    assert_eq!(summary(&flux, 3), 0);
    flux.extend([0; 2]);
    assert_eq!(summary(&flux, 3), 17);
}

#[test]
fn flux_stands_where_the_reader_finds_it() {
    let mut random = Random::new(1);
    let mut answered = [0; 2];
    for _ in 0..20_000 {
        let image = generate::image(&mut random);
        for edition in [V1_4, V1_6] {
            let asked = (some_track(&image, &mut random), some_revolution(&image, &mut random));
            for (count, number) in answered.iter_mut().zip(flux_part(&image, edition, asked, places(&mut random, 2))) {
                *count += u32::from(number == 0);
            }
        }
    }
    assert!(answered.iter().all(|&count| count > 1000), "{answered:?}");
}
