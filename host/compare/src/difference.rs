//! Where library and reader agree, and where they differ: in the code that a call returns, or in a buffer that it was lent.

use crate::guarded::{Guarded, Same};
use std::fmt::Debug;

/// A refusal of either reader.
#[derive(Clone, Copy, Debug, PartialEq, Eq)]
pub struct Refusal {
    pub number: u32,
    pub position: u64,
}

impl From<scp_reader::Refusal> for Refusal {
    fn from(refusal: scp_reader::Refusal) -> Refusal {
        Refusal { number: refusal.number, position: refusal.position }
    }
}

impl From<dsk_reader::Refusal> for Refusal {
    fn from(refusal: dsk_reader::Refusal) -> Refusal {
        Refusal { number: refusal.number, position: refusal.position }
    }
}

/// Where the two differ: what the library is to have, by the reader or by another call of its own, and what it has.
#[derive(Clone, Debug, PartialEq, Eq)]
pub struct Difference {
    pub what: String,
    pub wanted: String,
    pub library: String,
}

/// A refusal as the boundary returns it.
fn code(refusal: Refusal) -> u64 {
    u64::from(refusal.number) + 256 * refusal.position
}

/// What a buffer of so many old elements holds after an answer: the values at its start, or all as it was.
pub fn after<T: Copy>(old: T, places: usize, values: &[T]) -> Vec<T> {
    over(&vec![old; places], values)
}

/// What a buffer of these old elements holds after an answer.
pub fn over<T: Copy>(old: &[T], values: &[T]) -> Vec<T> {
    let mut contents = old.to_vec();
    contents[..values.len()].copy_from_slice(values);
    contents
}

/// The reader's refusal number, where the library returned the same code.
pub fn same_code<T>(expected: &Result<T, impl Copy + Into<Refusal>>, got: u64) -> Result<u32, Difference> {
    let refusal: Option<Refusal> = expected.as_ref().err().map(|&refusal| refusal.into());
    same_codes("the code returned", refusal.map_or(0, code), got)?;
    Ok(refusal.map_or(0, |refusal| refusal.number))
}

/// Whether a code is the one that it is to be.
pub fn same_codes(what: &str, wanted: u64, got: u64) -> Result<(), Difference> {
    if wanted == got {
        return Ok(());
    }
    let tell = |code: u64| format!("{code} (refusal {} at {})", code % 256, code / 256);
    Err(Difference { what: what.to_string(), wanted: tell(wanted), library: tell(got) })
}

/// Whether a lent buffer and its guards hold what they are to hold.
pub fn same<T: Copy + Same + Debug>(what: &str, lent: &Guarded<T>, wanted: &[T]) -> Result<(), Difference> {
    if lent.holds(wanted) {
        return Ok(());
    }
    same_list(what, lent.contents(), wanted)?;
    Err(Difference { what: format!("the guards of {what}"), wanted: "as they were".to_string(), library: "others".to_string() })
}

/// Whether two lists are equal to the bit.
pub fn same_list<T: Copy + Same + Debug>(what: &str, library: &[T], wanted: &[T]) -> Result<(), Difference> {
    if T::all_same(library, wanted) {
        return Ok(());
    }
    let at = library.iter().zip(wanted).position(|(a, b)| !a.same(b));
    let tell = |values: &[T]| match at {
        Some(at) => format!("{:?} at {at}", values[at]),
        None => format!("{} in all", values.len()),
    };
    Err(Difference { what: what.to_string(), wanted: tell(wanted), library: tell(library) })
}
