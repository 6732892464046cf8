//! The command `fluxproof`: SuperCard Pro flux images and standard DSK disk images on a test bench, by the proved library.
#![deny(unsafe_code)]

mod arguments;
mod checksum;
mod dates;
mod destination;
mod disk;
mod editions;
mod escapes;
mod failure;
mod faults;
mod files;
mod flux;
mod groups;
mod image;
mod layout;
mod list;
mod numbers;
mod parts;
mod patch;
mod plot;
mod read;
mod reasons;
mod replay;
mod results;
mod show;
#[allow(unsafe_code)]
#[cfg_attr(not(unix), path = "signals_elsewhere.rs")]
mod signals;
mod stamp;
mod streams;
mod times;
mod undo;
mod validate;
mod way;

use std::ffi::OsString;
use std::io::Write;
use std::process::ExitCode;

use failure::{Failure, Status};

/// Who judges: the tool, its commit, the toolchain that proved the library, and the sum of that toolchain's logic.
const VERSION: &str = concat!(
    "fluxproof ",
    env!("CARGO_PKG_VERSION"),
    "\ncommit ",
    env!("FLUXPROOF_COMMIT"),
    "\ntoolchain ",
    env!("FLUXPROOF_TOOLCHAIN"),
    "\nlogic ",
    env!("FLUXPROOF_LOGIC"),
    "\n"
);

/// Runs the command line; the exit status is 0 for success, else that of the failure.
fn main() -> ExitCode {
    let words: Vec<OsString> = std::env::args_os().skip(1).collect();
    match run(words) {
        Ok(()) => ExitCode::SUCCESS,
        Err(Failure::Said(status)) => ExitCode::from(status as u8),
        Err(Failure::Told(status, message)) => complain(&message, status),
    }
}

/// Says on standard error why the status is not 0.
fn complain(message: &str, status: Status) -> ExitCode {
    // Where standard error is closed nothing is left to tell it to.
    let _ = writeln!(std::io::stderr(), "fluxproof: {message}");
    ExitCode::from(status as u8)
}

/// Does what the words ask for; what standard output says of a failure is not said where it cannot be written.
fn run(words: Vec<OsString>) -> Result<(), Failure> {
    let mut out = streams::standard_output()?;
    let ended = match words.first() {
        Some(word) if word == "--version" || word == "-V" => out.write_all(VERSION.as_bytes()).map_err(Failure::from),
        _ => groups::obey(words, &mut out),
    };
    let flushed = out.flush().map_err(Failure::from);
    match ended {
        Err(told @ Failure::Told(..)) => Err(told),
        said => flushed.and(said),
    }
}
