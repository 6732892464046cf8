//! What the boundary makes of an answer: a code, and values at the start of a lent buffer.

use crate::difference::{after, over, same, same_code, Difference, Refusal};
use crate::guarded::{Guarded, Same};
use std::fmt::Debug;

/// What the lent buffers hold before a call, and the guards.
pub const NUMBER: u64 = 0xD1D2_D3D4_D5D6_D7D8;
pub const FLOAT: f64 = -12345.678;
pub const BYTE: u8 = 0xE9;

/// 15 where the values need more than the places.
pub fn within<T>(expected: Result<Vec<T>, impl Into<Refusal>>, places: usize) -> Result<Vec<T>, Refusal> {
    match expected {
        Ok(values) if values.len() > places => Err(Refusal { number: 15, position: 0 }),
        other => other.map_err(Into::into),
    }
}

/// Lends the library a buffer of old elements and compares the code and the buffer with what the reader expects.
pub fn fill<T: Copy + Same + Debug>(
    expected: Result<Vec<T>, impl Into<Refusal>>,
    places: usize,
    old: T,
    call: impl FnOnce(&mut [T]) -> u64,
) -> Result<u32, Difference> {
    let expected = within(expected, places);
    let mut out = Guarded::new(&vec![old; places], old);
    let got = call(out.lent());
    let number = same_code(&expected, got)?;
    same("the buffer lent", &out, &after(old, places, expected.as_deref().unwrap_or(&[])))?;
    Ok(number)
}

/// Lends the library two buffers, one of these old elements between guards for what is made, and one for the values, and compares the code
/// and both: 15 where either is too short, and then neither is changed.
pub fn fill_two<T: Copy + Same + Debug>(
    expected: Result<(Vec<u64>, Vec<T>), impl Into<Refusal>>,
    (old, guard): (&[T], T),
    places: usize,
    call: impl FnOnce(&mut [T], &mut [u64]) -> u64,
) -> Result<u32, Difference> {
    let expected = expected.map(|(values, made)| (values, [made]));
    fill_lists(expected, ([("the buffer filled", old)], guard), places, |[lent], out| call(lent, out))
}

/// The same with several buffers for what is made, each with its name.
pub fn fill_lists<T: Copy + Same + Debug, const N: usize>(
    expected: Result<(Vec<u64>, [Vec<T>; N]), impl Into<Refusal>>,
    (old, guard): ([(&str, &[T]); N], T),
    places: usize,
    call: impl FnOnce([&mut [T]; N], &mut [u64]) -> u64,
) -> Result<u32, Difference> {
    let expected = expected.map_err(Into::into);
    let expected = expected.and_then(|(values, made)| within(Ok::<_, Refusal>(values), places).map(|values| (values, made)));
    let mut lent = old.map(|(_, old)| Guarded::new(old, guard));
    let mut out = Guarded::new(&vec![NUMBER; places], NUMBER);
    let got = call(lent.each_mut().map(Guarded::lent), out.lent());
    let number = same_code(&expected, got)?;
    let (values, made) = expected.unwrap_or_else(|_| (Vec::new(), old.map(|_| Vec::new())));
    for ((lent, (what, old)), made) in lent.iter().zip(old).zip(&made) {
        same_filled(what, lent, old, made)?;
    }
    same("the buffer lent", &out, &after(NUMBER, places, &values))?;
    Ok(number)
}

/// Whether a buffer of these old elements starts with what is made, for which it has room.
fn same_filled<T: Copy + Same + Debug>(what: &str, lent: &Guarded<T>, old: &[T], made: &[T]) -> Result<(), Difference> {
    if made.len() > old.len() {
        let what = format!("how much is made for {what}");
        return Err(Difference { what, wanted: made.len().to_string(), library: format!("at most {}", old.len()) });
    }
    same(what, lent, &over(old, made))
}

#[cfg(test)]
mod tests {
    use super::*;

    /// Where the library, which puts 1 and 2 to the first list of three places, 5 and 6 to the second and 2 to the values, differs from a
    /// reader that makes these lists.
    fn differs(first: &[u64], second: &[u64]) -> Option<String> {
        let old = [NUMBER; 3];
        let expected = Ok::<_, Refusal>((vec![2], [first.to_vec(), second.to_vec()]));
        let call = |[first, second]: [&mut [u64]; 2], out: &mut [u64]| {
            first[..2].copy_from_slice(&[1, 2]);
            second[..2].copy_from_slice(&[5, 6]);
            out[0] = 2;
            0
        };
        fill_lists(expected, ([("the first", &old), ("the second", &old)], NUMBER), 1, call).err().map(|difference| difference.what)
    }

    #[test]
    fn each_list_is_compared_by_itself_whatever_its_length() {
        assert_eq!(differs(&[1, 2], &[5, 6]), None);
        for list in [&[][..], &[1], &[5], &[2, 1], &[6, 5], &[1, 2, 3], &[5, 6, 7]] {
            assert_eq!(differs(list, &[5, 6]).as_deref(), Some("the first"));
            assert_eq!(differs(&[1, 2], list).as_deref(), Some("the second"));
        }
        assert_eq!(differs(&[1, 2, 3, 4], &[5, 6]).as_deref(), Some("how much is made for the first"));
        assert_eq!(differs(&[1, 2], &[5, 6, 7, 8]).as_deref(), Some("how much is made for the second"));
    }
}
