//! The proved libraries beside the independent readers, for SCP and for DSK images.
//!
//! A case is an input by chance (an image, flux, times, a text, an image with a sequence of calls, or bytes that an image is written over)
//! with the questions that are put to both.
//! SCP images are laid out for either edition, and every question about one is put by both. Beside a direct call stands the library's full
//! one, and beside a call for closing words its plain one and its steps. Some sequences are taken back to the first image.
//! Cases are numbered; a seed and a number give the same case again. The modules of DSK images are those with `dsk` in their name.

#![forbid(unsafe_code)]

pub mod ask;
pub mod boundary;
pub mod cases;
pub mod closing;
pub mod count;
pub mod difference;
pub mod direct;
pub mod dsk_cases;
pub mod dsk_generate;
pub mod dsk_image;
pub mod dsk_layouts;
pub mod dsk_question;
pub mod dsk_writing;
pub mod edition;
pub mod generate;
pub mod guarded;
pub mod image;
pub mod outside;
pub mod patches;
pub mod question;
pub mod random;
pub mod sequence;
pub mod shrink;
pub mod text;
pub mod undo;
