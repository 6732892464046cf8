//! A plain reader for SuperCard Pro (SCP) flux images.
//!
//! An image is first parsed into owned structures; every question is then answered from these. A direct question parses the
//! header and one track alone.
//! "The rules" in the comments are the paper of exact rules for this format, with six requests: Q-1, one track without the whole
//! walk, Q-2, 1 to 255 revolutions, Q-3, the word that closed an interval, Q-5, taking a sequence of rewrites back, Q-6, images of
//! revision 1.4 beside those of 1.6, and Q-7, strings that are well-formed UTF-8.

#![forbid(unsafe_code)]

mod answers;
mod call;
pub mod direct;
mod edition;
mod flux;
mod image;
mod questions;
mod replay;
mod rewrite;
mod text;
mod undo;

pub use answers::{Footer, Header, Refusal, Revolution, Step, Track};
pub use edition::Edition;
pub use flux::{closed_intervals, intervals, step, words};
pub use questions::{flux, footer, header, revolution, speed, track, track_speed, validate};
pub use replay::replay;
pub use rewrite::rewrite;
pub use text::valid_up_to;
pub use undo::undo;
