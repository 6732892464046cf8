//! Signals where the system is not Unix: they are left to it.

use std::path::Path;

/// Does a step.
pub fn step<T>(work: impl FnOnce() -> T) -> T {
    work()
}

/// A file that is removed if a signal ends the process; here it is not.
pub struct Registered;

impl Registered {
    /// Registers nothing.
    pub fn new(_path: &Path) -> Registered {
        Registered
    }
}
