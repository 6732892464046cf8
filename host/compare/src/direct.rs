//! A direct call of the library beside its full one (DI-6, DI-7).

use crate::difference::{same, same_codes, Difference};
use crate::guarded::{Guarded, Same};
use std::fmt::Debug;

/// What refuses an image that does not open.
const OPENING: [u64; 12] = [1, 2, 3, 4, 5, 6, 7, 8, 9, 10, 11, 19];

/// Lends both calls a buffer of old elements: unless the full one is refused with one of 1 to 11 or 19, they return the same code and leave
/// the same buffer. So where the direct one is refused with one of 1 to 11, the full one is refused with one of these or 19.
pub fn as_full<T: Copy + Same + Debug>(
    places: usize,
    old: T,
    full: impl FnOnce(&mut [T]) -> u64,
    direct: impl FnOnce(&mut [T]) -> u64,
) -> Result<(), Difference> {
    let mut wanted = vec![old; places];
    let code = full(&mut wanted);
    if OPENING.contains(&(code % 256)) {
        return Ok(());
    }
    let mut out = Guarded::new(&vec![old; places], old);
    same_codes("the code of the direct call beside the full one", code, direct(out.lent()))?;
    same("the buffer of the direct call beside the full one", &out, &wanted)
}

#[cfg(test)]
mod tests {
    use super::*;

    /// A call that returns a code and puts values to its buffer of three places.
    fn call(code: u64, values: &'static [u64]) -> impl FnOnce(&mut [u64]) -> u64 {
        move |out| {
            out[..values.len()].copy_from_slice(values);
            code
        }
    }

    /// Whether the codes and values of the full and of the direct call go together.
    fn fits(full: (u64, &'static [u64]), direct: (u64, &'static [u64])) -> bool {
        as_full(3, 9, call(full.0, full.1), call(direct.0, direct.1)).is_ok()
    }

    #[test]
    fn a_direct_call_does_as_the_full_one_where_the_image_opens() {
        for code in [0, 13, 14, 15, 13 + 256] {
            assert!(fits((code, &[1, 2]), (code, &[1, 2])));
            assert!(!fits((code, &[1, 2]), (code, &[1, 3])));
            assert!(!fits((code, &[1, 2]), (code, &[1, 2, 3])));
            assert!(!fits((code, &[]), (code + 256, &[])));
            OPENING.into_iter().for_each(|refused| assert!(!fits((code, &[]), (refused, &[]))));
        }
        assert!(!fits((0, &[]), (14, &[])) && !fits((14, &[]), (0, &[])));
    }

    #[test]
    fn a_direct_call_is_free_where_the_image_does_not_open() {
        for code in OPENING.into_iter().flat_map(|number| [number, number + 256 * 3]) {
            assert!([0, 1, 9, 11, 13, 14, 15].into_iter().all(|direct| fits((code, &[]), (direct, &[1, 2]))));
        }
    }
}
