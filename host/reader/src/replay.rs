//! A sequence of calls on one image, each given as a row of numbers and answered by one.

use crate::answers::{refuse, Footer, Header, Refusal, Revolution, Track};
use crate::call::{read_calls, Call, CALL};
use crate::edition::Edition;
use crate::questions;
use crate::rewrite::rewrite;

/// An answer: refusal number, position, the values, then zeros.
const ANSWER: usize = 16;

/// The rules, Rewriting: each call gets the image as the last one left it; 15 if rows do not fit.
pub fn replay(image: &mut [u8], calls: &[u64], words: &[u8], answers: &mut [u64]) -> Result<(), Refusal> {
    if answers.len() / ANSWER < calls.len() / CALL {
        return Err(refuse(15));
    }
    for (call, answer) in read_calls(calls, words).zip(answers.chunks_exact_mut(ANSWER)) {
        fill(answer, answer_to(image, &call));
    }
    Ok(())
}

/// The values that answer a call, or its refusal; a kind that is not known is a validation.
fn answer_to(image: &mut [u8], call: &Call) -> Result<Vec<u64>, Refusal> {
    let &Call { kind, edition, track, revolution, duration, words } = call;
    match kind {
        1 => questions::header(image, edition).map(header_values),
        2 => questions::footer(image, edition).map(footer_values),
        3 => questions::track(image, edition, track).map(track_values),
        4 => questions::revolution(image, edition, track, revolution).map(revolution_values),
        5 => flux_values(image, edition, track, revolution),
        6 => questions::speed(image, edition, track, revolution).map(speed_values),
        7 => questions::track_speed(image, edition, track).map(track_speed_values),
        8 => rewrite(image, edition, track, revolution, duration, words).map(|()| Vec::new()),
        _ => questions::validate(image, edition).map(|()| Vec::new()),
    }
}

/// Sets a row: 0, 0 and the values, or the refusal's number and position; then zeros.
fn fill(answer: &mut [u64], found: Result<Vec<u64>, Refusal>) {
    let row = match found {
        Ok(values) => [vec![0, 0], values].concat(),
        Err(refusal) => vec![u64::from(refusal.number), refusal.position],
    };
    let padded = row.into_iter().chain(std::iter::repeat(0));
    for (place, value) in answer.iter_mut().zip(padded) {
        *place = value;
    }
}

/// Version, disk type, revolutions, start, end, flags, width, heads, checksum.
fn header_values(header: Header) -> Vec<u64> {
    vec![
        u64::from(header.version),
        u64::from(header.disk),
        u64::from(header.revolutions),
        u64::from(header.start),
        u64::from(header.end),
        u64::from(header.flags),
        u64::from(header.width),
        u64::from(header.heads),
        u64::from(header.checksum),
    ]
}

/// 1, six offsets, created and modified in two's complement, four version bytes; or nothing.
fn footer_values(footer: Option<Footer>) -> Vec<u64> {
    let Some(footer) = footer else {
        return Vec::new();
    };
    let mut values = vec![1];
    values.extend(footer.offsets.map(u64::from));
    values.extend([footer.created as u64, footer.modified as u64]);
    values.extend(footer.versions.map(u64::from));
    values
}

/// Cylinder, head, file offset of the track data header, revolutions.
fn track_values(track: Track) -> Vec<u64> {
    vec![u64::from(track.cylinder), u64::from(track.head), track.place, u64::from(track.revolutions)]
}

/// Duration, words, file offset of the flux.
fn revolution_values(revolution: Revolution) -> Vec<u64> {
    vec![u64::from(revolution.duration), u64::from(revolution.words), revolution.place]
}

/// File offset of the flux, how many bytes it has, and their sum modulo 2^32.
fn flux_values(image: &[u8], edition: Edition, track: u32, revolution: u32) -> Result<Vec<u64>, Refusal> {
    let found = questions::revolution(image, edition, track, revolution)?;
    let flux = questions::flux(image, edition, track, revolution)?;
    let sum: u64 = flux.iter().map(|&byte| u64::from(byte)).sum();
    Ok(vec![found.place, flux.len() as u64, sum % (1 << 32)])
}

/// 1 and the bit pattern of the speed; or nothing.
fn speed_values(speed: Option<f64>) -> Vec<u64> {
    match speed {
        Some(speed) => vec![1, speed.to_bits()],
        None => Vec::new(),
    }
}

/// 1 and the bit patterns of the slowest and the fastest speed; or nothing.
fn track_speed_values(speeds: Option<(f64, f64)>) -> Vec<u64> {
    match speeds {
        Some((slowest, fastest)) => vec![1, slowest.to_bits(), fastest.to_bits()],
        None => Vec::new(),
    }
}
