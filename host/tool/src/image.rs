//! SCP images: a file, and the edition that it is read by.

use std::ffi::OsStr;

use scp::{Edition, Refusal};

use crate::failure::Failure;
use crate::faults::of_image;
use crate::files::Input;
use crate::layout::Layout;
use crate::reasons::{self, Asked};

/// A file as an image.
pub struct Image {
    /// The file.
    pub input: Input,
    /// The edition that it is read by.
    pub edition: Edition,
}

impl Image {
    /// Reads an image, or standard input where it is named "-".
    pub fn read(file: &OsStr, edition: Edition) -> Result<Image, Failure> {
        Ok(Image { input: Input::read(file)?, edition })
    }

    /// What its bytes say, accepted or not.
    pub fn layout(&self) -> Layout<'_> {
        Layout { bytes: &self.input.bytes, edition: self.edition }
    }

    /// What is said of a refusal of the image as it is.
    pub fn reason(&self, refusal: Refusal) -> String {
        of_image(self.edition, &self.input.bytes, refusal)
    }

    /// The library's answer to a question about the image, or its refusal as a failure.
    pub fn ask<'a, T>(&'a self, question: impl FnOnce(&'a [u8], Edition) -> Result<T, Refusal>) -> Result<T, Failure> {
        question(&self.input.bytes, self.edition).map_err(|refusal| self.input.failure(self.reason(refusal)))
    }

    /// The library's answer to a question about a revolution, or about its track.
    pub fn ask_of<'a, T>(
        &'a self,
        (track, revolution): (u32, u32),
        question: impl FnOnce(&'a [u8], Edition, u32, u32) -> Result<T, Refusal>,
    ) -> Result<T, Failure> {
        let asked = Asked { track, revolution, size: 0 };
        question(&self.input.bytes, self.edition, track, revolution).map_err(|refusal| self.refused(asked, refusal))
    }

    /// The same by a direct call, which tests the header and the track alone.
    pub fn ask_directly<'a, T>(
        &'a self,
        (track, revolution): (u32, u32),
        question: impl FnOnce(&'a [u8], Edition, u32, u32) -> Result<T, Refusal>,
    ) -> Result<T, Failure> {
        let asked = Asked { track, revolution, size: 0 };
        let told = |refusal| self.input.failure(reasons::of_direct(self.layout(), asked, refusal));
        question(&self.input.bytes, self.edition, track, revolution).map_err(told)
    }

    /// The failure that a refusal of what was asked of the image is.
    pub fn refused(&self, asked: Asked, refusal: Refusal) -> Failure {
        self.input.failure(reasons::of_asked(self.layout(), asked, refusal))
    }
}
