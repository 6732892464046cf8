//! A call of a sequence, as its row of numbers names it.

use crate::edition::Edition;

/// A call: kind, track, revolution, duration, start and length of its words, and edition.
pub(crate) const CALL: usize = 7;

/// A call read from its row.
pub(crate) struct Call<'a> {
    pub(crate) kind: u64,
    pub(crate) edition: Edition,
    pub(crate) track: u32,
    pub(crate) revolution: u32,
    pub(crate) duration: u32,
    pub(crate) words: &'a [u8],
}

/// The calls of a sequence, in their order; numbers after the last whole row are ignored.
pub(crate) fn read_calls<'a>(calls: &'a [u64], words: &'a [u8]) -> impl Iterator<Item = Call<'a>> {
    calls.chunks_exact(CALL).filter_map(move |row| read_call(row, words))
}

/// The call of a whole row; only the lowest 32 bits of a duration count.
fn read_call<'a>(row: &[u64], words: &'a [u8]) -> Option<Call<'a>> {
    let &[kind, track, revolution, duration, start, length, edition] = row else {
        return None;
    };
    let (track, revolution) = (limit(track), limit(revolution));
    let words = cut(words, start, length);
    Some(Call { kind, edition: edition_of(edition), track, revolution, duration: duration as u32, words })
}

/// The rules, Q-6: 14 names revision 1.4, every other number 1.6.
fn edition_of(number: u64) -> Edition {
    match number {
        14 => Edition::V1_4,
        _ => Edition::V1_6,
    }
}

/// The rules, Q-6: the number that names an edition in a row, 14 or 16.
pub(crate) fn number_of(edition: Edition) -> u64 {
    match edition {
        Edition::V1_4 => 14,
        Edition::V1_6 => 16,
    }
}

/// A track or revolution above 4,294,967,295 counts as that.
fn limit(number: u64) -> u32 {
    u32::try_from(number).unwrap_or(u32::MAX)
}

/// The part of the words that a call names; what runs past their end is cut.
fn cut(words: &[u8], start: u64, length: u64) -> &[u8] {
    let whole = words.len() as u128;
    let end = (u128::from(start) + u128::from(length)).min(whole);
    let start = u128::from(start).min(whole);
    words.get(start as usize..end as usize).unwrap_or_default()
}
