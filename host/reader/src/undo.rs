//! The calls that take a sequence of rewrites back.

use crate::call::{number_of, read_calls, Call};
use crate::questions::{flux, revolution};
use crate::rewrite::rewrite;

/// The kind of a rewrite.
const REWRITE: u64 = 8;

/// An accepted rewrite, with the duration and the words that its revolution had just before.
struct Accepted<'a> {
    call: Call<'a>,
    duration: u32,
    words: Vec<u8>,
}

/// The rules, Q-5: rewrites that put back the former words and durations in reverse order, as rows and the words of these.
pub fn undo(image: &[u8], calls: &[u64], words: &[u8]) -> (Vec<u64>, Vec<u8>) {
    let mut left = image.to_vec();
    let accepted: Vec<Accepted> = read_calls(calls, words).filter_map(|call| accept(&mut left, call)).collect();
    let mut rows = Vec::new();
    let mut former = Vec::new();
    for one in accepted.iter().rev() {
        rows.extend(put_back(one, former.len()));
        former.extend(&one.words);
    }
    (rows, former)
}

/// The rules, Q-5: runs a rewrite on the image as the last call left it; a refused one, and any other call, changes nothing.
fn accept<'a>(image: &mut [u8], call: Call<'a>) -> Option<Accepted<'a>> {
    if call.kind != REWRITE {
        return None;
    }
    let present = revolution(image, call.edition, call.track, call.revolution).ok()?;
    let words = flux(image, call.edition, call.track, call.revolution).ok()?;
    rewrite(image, call.edition, call.track, call.revolution, call.duration, call.words).ok()?;
    Some(Accepted { call, duration: present.duration, words })
}

/// The rules, Q-5: the row that puts the former duration and words back, by the same edition; its words start at this place.
fn put_back(one: &Accepted, start: usize) -> Vec<u64> {
    let (track, revolution) = (u64::from(one.call.track), u64::from(one.call.revolution));
    let length = one.words.len() as u64;
    vec![REWRITE, track, revolution, u64::from(one.duration), start as u64, length, number_of(one.call.edition)]
}
