//! What the questions of both formats have in common.

use crate::count::Kind;
use crate::difference::Difference;
use std::fmt::Debug;

/// A call with its arguments, for the library and the reader of a format.
pub trait Ask: Clone + Debug {
    /// What both answer.
    type Agreed;

    /// The kinds that answers are counted by.
    const KINDS: &'static [Kind];

    /// Puts the question about these bytes to both.
    fn compare(&self, bytes: &[u8]) -> Result<Self::Agreed, Difference>;

    /// The numbers of refusal that were agreed on of these bytes, 0 for none, each with the kind that it counts for.
    fn counted(&self, bytes: &[u8], agreed: &Self::Agreed) -> Vec<(usize, u32)>;

    /// The question without one of its parts; nothing where it has no such part.
    fn without(&self, _part: usize) -> Option<Self> {
        None
    }
}

/// An input and questions about it.
pub struct Case<Q> {
    pub bytes: Vec<u8>,
    pub questions: Vec<Q>,
}

/// Puts the questions about these bytes to both; panics where they differ.
pub fn agree_on<Q: Ask>(name: &str, bytes: &[u8], questions: Vec<Q>) {
    for question in questions {
        if let Err(difference) = question.compare(bytes) {
            panic!("{name}: {question:?}: {difference:?}");
        }
    }
}
