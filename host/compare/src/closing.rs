//! The library's call for intervals with their closing words, beside its plain call and beside its steps.

use crate::boundary::NUMBER;
use crate::difference::{after, same, same_codes, Difference};
use crate::guarded::Guarded;
use scp::raw;

/// What the call returned, and the buffers that it was lent.
struct Closed {
    code: u64,
    times: Guarded<u64>,
    closings: Guarded<u64>,
    out: Guarded<u64>,
}

/// The intervals, their closing words and the open time.
type Found = (Vec<u64>, Vec<u64>, u64);

/// Lends the call two lists and a buffer for the values, of so many places: it does as the plain call and, where it is answered, as steps.
pub fn as_other_calls(flux: &[u8], lists: (usize, usize), places: usize) -> Result<(), Difference> {
    let closed = Closed::of(lists, places, |times, closings, out| raw::closed_intervals(flux, times, closings, out));
    closed.as_plain(|times, out| raw::intervals(flux, times, out))?;
    if closed.code != 0 {
        return Ok(());
    }
    closed.as_steps(&stepped(flux.len() / 2, |word, out| raw::step(flux, word, out)))
}

impl Closed {
    /// Lends a call buffers of so many places.
    fn of((times, closings): (usize, usize), places: usize, call: impl FnOnce(&mut [u64], &mut [u64], &mut [u64]) -> u64) -> Closed {
        let [times, closings, out] = [times, closings, places].map(|size| Guarded::new(&vec![NUMBER; size], NUMBER));
        let mut closed = Closed { code: 0, times, closings, out };
        closed.code = call(closed.times.lent(), closed.closings.lent(), closed.out.lent());
        closed
    }

    /// Whether the plain call, lent as many places as the shorter list has, returns the same code and leaves the same times and values.
    fn as_plain(&self, plain: impl FnOnce(&mut [u64], &mut [u64]) -> u64) -> Result<(), Difference> {
        let both = self.times.contents().len().min(self.closings.contents().len());
        let (mut times, mut out) = (vec![NUMBER; both], vec![NUMBER; self.out.contents().len()]);
        same_codes("the code beside the plain call", plain(&mut times, &mut out), self.code)?;
        starts_with("the times beside the plain call", &self.times, &times)?;
        starts_with("the values beside the plain call", &self.out, &out)
    }

    /// Whether steps find the same intervals, closing words and open time.
    fn as_steps(&self, (times, closings, open): &Found) -> Result<(), Difference> {
        starts_with("the values beside steps", &self.out, &[times.len() as u64, *open])?;
        starts_with("the times beside steps", &self.times, times)?;
        starts_with("the closing words beside steps", &self.closings, closings)
    }
}

/// Whether a buffer starts with these values, and is as it was behind them.
fn starts_with(what: &str, lent: &Guarded<u64>, values: &[u64]) -> Result<(), Difference> {
    same(what, lent, &after(NUMBER, lent.contents().len(), values))
}

/// What steps from word 0 on find in flux of so many words. They end where one finds no interval or is refused, with an open time that no
/// flux has, or after one more than there are words.
fn stepped(words: usize, step: impl Fn(u64, &mut [u64]) -> u64) -> Found {
    let (mut times, mut closings, mut word) = (Vec::new(), Vec::new(), 0);
    for _ in 0..=words {
        let mut out = [NUMBER; 4];
        let code = step(word, &mut out);
        let [interval, open, next, closing] = out;
        if code != 0 || interval == 0 {
            return (times, closings, open);
        }
        times.push(interval);
        closings.push(closing);
        word = next;
    }
    (times, closings, 0)
}

#[cfg(test)]
mod tests {
    use super::*;

    /// Puts values to the start of a buffer.
    fn put(lent: &mut [u64], values: &[u64]) {
        lent[..values.len()].copy_from_slice(values);
    }

    /// A call that is lent three places for times, four for closing words and two for values, puts some to each, and returns a code.
    fn closed(code: u64, [times, closings, values]: [&[u64]; 3]) -> Closed {
        Closed::of((3, 4), 2, |lent_times, lent_closings, out| {
            put(lent_times, times);
            put(lent_closings, closings);
            put(out, values);
            code
        })
    }

    /// Whether a plain call with this code, these times and these values goes together with the call.
    fn fits_plain(closed: &Closed, code: u64, times: &[u64], values: &[u64]) -> bool {
        let plain = |lent: &mut [u64], out: &mut [u64]| {
            put(lent, times);
            put(out, values);
            code
        };
        closed.as_plain(plain).is_ok()
    }

    #[test]
    fn the_call_does_as_the_plain_one() {
        let answered = closed(0, [&[7, 9], &[0, 3], &[2, 5]]);
        assert!(fits_plain(&answered, 0, &[7, 9], &[2, 5]));
        for times in [&[7, 8][..], &[9, 7], &[7], &[], &[7, 9, 1]] {
            assert!(!fits_plain(&answered, 0, times, &[2, 5]), "{times:?}");
        }
        for values in [&[2, 6][..], &[3, 5], &[2], &[]] {
            assert!(!fits_plain(&answered, 0, &[7, 9], values), "{values:?}");
        }
        for code in [15, 17, 15 + 256] {
            assert!(!fits_plain(&answered, code, &[7, 9], &[2, 5]) && !fits_plain(&answered, code, &[], &[]));
            let refused = closed(code, [&[]; 3]);
            assert!(fits_plain(&refused, code, &[], &[]) && !fits_plain(&refused, 0, &[], &[]) && !fits_plain(&refused, code, &[7], &[]));
        }
    }

    #[test]
    fn the_plain_call_has_as_many_places_as_the_shorter_list() {
        for (lists, shorter) in [((3, 4), 3), ((4, 3), 3), ((0, 9), 0), ((2, 2), 2)] {
            let closed = Closed::of(lists, 2, |_, _, _| 15);
            let plain = |times: &mut [u64], out: &mut [u64]| u64::from(times.len() == shorter && out.len() == 2) * 15;
            assert!(closed.as_plain(plain).is_ok(), "{lists:?}");
        }
    }

    #[test]
    fn the_call_does_as_steps() {
        let found = (vec![7, 9], vec![0, 3], 5);
        let fits = |lent: [&[u64]; 3]| closed(0, lent).as_steps(&found).is_ok();
        assert!(fits([&[7, 9], &[0, 3], &[2, 5]]));
        for closings in [&[0, 2][..], &[3, 0], &[0], &[], &[0, 3, 4], &[1, 4]] {
            assert!(!fits([&[7, 9], closings, &[2, 5]]), "{closings:?}");
        }
        for times in [&[7, 8][..], &[7], &[7, 9, 1]] {
            assert!(!fits([times, &[0, 3], &[2, 5]]), "{times:?}");
        }
        for values in [&[2, 6][..], &[1, 5], &[3, 5], &[2]] {
            assert!(!fits([&[7, 9], &[0, 3], values]), "{values:?}");
        }
    }

    #[test]
    fn steps_end_with_the_open_time_or_past_the_last_word() {
        let step = |word: u64, out: &mut [u64]| {
            put(
                out,
                if word == 0 {
                    &[7, 0, 1, 0]
                } else if word == 1 {
                    &[9, 0, 4, 3]
                } else {
                    &[0, 5, 4, 0]
                },
            );
            0
        };
        assert_eq!(stepped(5, step), (vec![7, 9], vec![0, 3], 5));
        let endless = |_, out: &mut [u64]| {
            put(out, &[7, 0, 0, 0]);
            0
        };
        assert_eq!(stepped(2, endless), (vec![7; 3], vec![0; 3], 0));
        assert_eq!(stepped(2, |_, _| 17), (vec![], vec![], NUMBER));
    }
}
