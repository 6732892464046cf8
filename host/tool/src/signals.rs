//! Signals that end the process: the temporary files are removed first.

use std::ffi::{c_char, c_int, CString};
use std::os::unix::ffi::OsStrExt;
use std::path::Path;
use std::ptr::null_mut;
use std::sync::atomic::{AtomicPtr, AtomicU32, Ordering::SeqCst};
use std::sync::Once;

/// The signals by their numbers: hang-up, interrupt (Ctrl-C), quit, termination and the end of the processor's time.
const SIGNALS: [c_int; 5] = [1, 2, 3, 15, 24];

/// The signal of a file that grows too long; ignored, so that writing fails instead.
const TOO_LONG: c_int = 25;

/// The action of a signal that ends the process.
const DEFAULT: usize = 0;

/// The action of a signal that is ignored.
const IGNORED: usize = 1;

/// How many files can be registered at a time.
const PLACES: usize = 4;

/// The paths of the files to remove; null where a place is free.
static PATHS: [AtomicPtr<c_char>; PLACES] = [const { AtomicPtr::new(null_mut()) }; PLACES];

/// How many steps are going on, one within the other.
static STEPS: AtomicU32 = AtomicU32::new(0);

/// The signals that came in a step, a bit for each number.
static WAITING: AtomicU32 = AtomicU32::new(0);

/// Whether the signals are caught.
static CAUGHT: Once = Once::new();

extern "C" {
    /// Sets the action of a signal, and gives the former one.
    fn signal(number: c_int, action: usize) -> usize;
    /// Sends a signal to the caller.
    fn raise(number: c_int) -> c_int;
    /// Removes a name of a file.
    fn unlink(path: *const c_char) -> c_int;
}

/// Does a step; a signal that comes meanwhile acts at its end.
pub fn step<T>(work: impl FnOnce() -> T) -> T {
    STEPS.fetch_add(1, SeqCst);
    CAUGHT.call_once(catch);
    let done = work();
    if STEPS.fetch_sub(1, SeqCst) == 1 {
        let waiting = WAITING.load(SeqCst);
        if let Some(&number) = SIGNALS.iter().find(|&&number| waiting & bit(number) != 0) {
            end_by(number);
        }
    }
    done
}

/// A file that is removed if a signal ends the process; no longer once this is dropped.
pub struct Registered(Option<&'static AtomicPtr<c_char>>);

impl Registered {
    /// Registers the path of a file that is there; the C string is never freed, since a signal may come at any time.
    pub fn new(path: &Path) -> Registered {
        let path = CString::new(path.as_os_str().as_bytes()).map_or(null_mut(), CString::into_raw);
        Registered(PATHS.iter().find(|place| place.compare_exchange(null_mut(), path, SeqCst, SeqCst).is_ok()))
    }
}

impl Drop for Registered {
    /// Frees the place.
    fn drop(&mut self) {
        if let Some(place) = self.0 {
            place.store(null_mut(), SeqCst);
        }
    }
}

/// The bit of a signal.
fn bit(number: c_int) -> u32 {
    1 << number
}

/// Has the signals handled, in a step; one that is ignored stays so.
fn catch() {
    for number in SIGNALS {
        // SAFETY: the handler does only what a handler may do.
        let former = unsafe { signal(number, on_signal as *const () as usize) };
        if former == IGNORED {
            // SAFETY: this is no handler.
            unsafe { signal(number, IGNORED) };
            WAITING.fetch_and(!bit(number), SeqCst);
        }
    }
    // SAFETY: this is no handler.
    unsafe { signal(TOO_LONG, IGNORED) };
}

/// The handler: a signal in a step is noted, another one acts at once.
extern "C" fn on_signal(number: c_int) {
    match STEPS.load(SeqCst) {
        0 => end_by(number),
        _ => {
            WAITING.fetch_or(bit(number), SeqCst);
        }
    }
}

/// Removes the registered files, and lets the signal end the process.
fn end_by(number: c_int) {
    for place in &PATHS {
        let path = place.load(SeqCst);
        if !path.is_null() {
            // SAFETY: a registered path is a C string that is never freed.
            unsafe { unlink(path) };
        }
    }
    // SAFETY: both calls take numbers alone; in the handler the signal comes once that returns.
    unsafe {
        signal(number, DEFAULT);
        raise(number);
    }
}

#[cfg(test)]
mod tests {
    use std::fs;
    use std::os::unix::process::ExitStatusExt;
    use std::path::PathBuf;
    use std::process::Command;

    use super::*;

    /// The signal of termination.
    const TERMINATION: c_int = 15;

    /// The variable that names a file, and makes the test the process that the signal ends.
    const FILE: &str = "FLUXPROOF_TEST_FILE";

    /// The path of a file beside the test's own.
    fn beside(file: &Path, end: &str) -> PathBuf {
        file.with_extension(end)
    }

    /// A step in which a signal comes before the file is made and registered.
    fn end_in_a_step(file: &Path) {
        let registered = step(|| {
            // SAFETY: it takes a number alone.
            step(|| unsafe { raise(TERMINATION) });
            fs::write(beside(file, "noted"), "").and_then(|()| fs::write(file, "")).expect("files written");
            Registered::new(file)
        });
        fs::write(beside(file, "after"), "").expect("a file written");
        drop(registered);
    }

    #[test]
    fn a_signal_in_a_step_acts_at_its_end() {
        if let Some(file) = std::env::var_os(FILE) {
            return end_in_a_step(Path::new(&file));
        }
        let file = std::env::temp_dir().join(format!("fluxproof-signal-{}.tmp", std::process::id()));
        let mut command = Command::new(std::env::current_exe().expect("the test's path"));
        command.args(["--exact", "signals::tests::a_signal_in_a_step_acts_at_its_end"]).env(FILE, &file);
        let done = command.output().expect("the test runs");
        assert_eq!(done.status.signal(), Some(TERMINATION), "{done:?}");
        fs::remove_file(beside(&file, "noted")).expect("the step goes on after the signal");
        assert!(!beside(&file, "after").exists() && !file.exists());
    }
}
