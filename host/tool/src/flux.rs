//! Walks over flux, an interval at a time.

use scp::{Refusal, Step};

use crate::failure::Failure;
use crate::image::Image;

/// An interval of flux.
pub struct Interval {
    /// Its length in ticks.
    pub ticks: u64,
    /// The number of the word that closed it, counted from 0 in the flux.
    pub closing: u64,
}

/// What the intervals of flux come to.
#[derive(Default)]
pub struct Counts {
    /// How many they are.
    pub intervals: u64,
    /// The open time after them, in ticks.
    pub open: u64,
    /// The number of the last closing word, if there is one.
    pub last: Option<u64>,
}

/// Hands each interval of flux of an image on in order, and gives the open time.
pub fn each_interval(image: &Image, flux: &[u8], take: impl FnMut(Interval) -> Result<(), Failure>) -> Result<u64, Failure> {
    walk(flux, |refusal| image.input.failure(refusal), take)
}

/// What the intervals of a revolution come to.
pub fn count_intervals_of(image: &Image, place: (u32, u32)) -> Result<Counts, Failure> {
    image.ask_of(place, |bytes, edition, track, revolution| count_intervals(scp::flux(bytes, edition, track, revolution)?))
}

/// What the intervals of flux come to, in one walk.
pub fn count_intervals(flux: &[u8]) -> Result<Counts, Refusal> {
    let mut counts = Counts::default();
    counts.open = walk(
        flux,
        |refusal| refusal,
        |interval| {
            counts.intervals += 1;
            counts.last = Some(interval.closing);
            Ok(())
        },
    )?;
    Ok(counts)
}

/// Steps over the intervals of flux to its open time.
fn walk<E>(flux: &[u8], refused: impl Fn(Refusal) -> E, mut take: impl FnMut(Interval) -> Result<(), E>) -> Result<u64, E> {
    let mut word = 0;
    loop {
        match scp::step(flux, word).map_err(&refused)? {
            Step::Interval { ticks, closing, next } => {
                take(Interval { ticks, closing })?;
                word = next;
            }
            Step::Open { ticks } => return Ok(ticks),
        }
    }
}
