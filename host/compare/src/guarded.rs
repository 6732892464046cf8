//! Lent buffers with guards around them, so that a store outside shows.

/// How many elements stand guard on each side.
const GUARDS: usize = 8;

/// A buffer between guards.
pub struct Guarded<T> {
    all: Vec<T>,
    guard: T,
}

impl<T: Copy + Same> Guarded<T> {
    /// A buffer with these contents.
    pub fn new(contents: &[T], guard: T) -> Guarded<T> {
        let guards = [guard; GUARDS];
        Guarded { all: [&guards, contents, &guards].concat(), guard }
    }

    /// The buffer itself.
    pub fn lent(&mut self) -> &mut [T] {
        let end = self.all.len() - GUARDS;
        &mut self.all[GUARDS..end]
    }

    /// Its contents.
    pub fn contents(&self) -> &[T] {
        &self.all[GUARDS..self.all.len() - GUARDS]
    }

    /// Whether it holds these contents, and all guards are as they were.
    pub fn holds(&self, contents: &[T]) -> bool {
        let (before, rest) = self.all.split_at(GUARDS);
        let (inside, after) = rest.split_at(rest.len() - GUARDS);
        let whole = before.iter().chain(after).all(|guard| guard.same(&self.guard));
        whole && T::all_same(inside, contents)
    }
}

/// Equality to the bit.
pub trait Same: Sized {
    /// Whether the two are equal to the bit.
    fn same(&self, other: &Self) -> bool;

    /// Whether two lists are equal to the bit.
    fn all_same(some: &[Self], others: &[Self]) -> bool {
        some.len() == others.len() && some.iter().zip(others).all(|(a, b)| a.same(b))
    }
}

impl Same for u8 {
    fn same(&self, other: &u8) -> bool {
        self == other
    }

    // images are long: one comparison of memory
    fn all_same(some: &[u8], others: &[u8]) -> bool {
        some == others
    }
}

impl Same for u64 {
    fn same(&self, other: &u64) -> bool {
        self == other
    }
}

impl Same for f64 {
    fn same(&self, other: &f64) -> bool {
        self.to_bits() == other.to_bits()
    }
}

#[cfg(test)]
mod tests {
    use super::*;

    #[test]
    fn every_element_and_every_guard_counts() {
        for place in 0..3 + 2 * GUARDS {
            let mut bytes = Guarded::new(&[1, 2, 3], 9);
            assert!(bytes.holds(&[1, 2, 3]) && !bytes.holds(&[1, 2]) && !bytes.holds(&[1, 2, 3, 9]));
            bytes.all[place] ^= 0x80u8;
            assert!(!bytes.holds(&[1, 2, 3]), "another byte at {place}");
            let mut numbers = Guarded::new(&[1, 2, 3], 9);
            numbers.all[place] ^= 1u64 << 63;
            assert!(!numbers.holds(&[1, 2, 3]), "another number at {place}");
        }
    }

    #[test]
    fn floats_are_equal_to_the_bit() {
        let floats = Guarded::new(&[0.0, f64::NAN], 1.5);
        assert!(floats.holds(&[0.0, f64::NAN]) && !floats.holds(&[-0.0, f64::NAN]) && !floats.holds(&[0.0, -f64::NAN]));
    }
}
