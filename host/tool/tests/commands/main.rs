//! Runs the command `fluxproof` in temporary folders, as a user does.

mod bench;
mod destinations;
mod direct;
mod disk;
mod editions;
mod list;
mod patch;
mod plot;
mod read;
mod reasons;
mod replay;
mod replay_undo;
mod revolutions;
mod show;
#[cfg(target_os = "linux")]
mod signals;
mod streams;
mod text;
mod undo;
mod usage;
mod validate;
