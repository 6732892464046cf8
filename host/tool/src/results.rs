//! What the commands that rewrite an image write: the image, and the calls that take the rewrites back.

use std::ffi::OsStr;

use crate::arguments::Arguments;
use crate::destination::{Destination, Kind};
use crate::failure::Failure;
use crate::files::Input;
use crate::undo::Text;

/// Where they are to be written, each if it is asked for.
pub struct Results {
    /// The image.
    image: Option<Destination>,
    /// The calls.
    undo: Option<Destination>,
}

impl Results {
    /// The image goes to the file that is given, the calls to that of `--undo`; the other input is not replaced either.
    pub fn new(out: Option<&OsStr>, image: &Input, other: &Input, arguments: &Arguments) -> Result<Results, Failure> {
        let written = out.map(|out| Destination::new(out, &[image, other], arguments, Kind::Image)).transpose()?;
        let undo = arguments.value("--undo").map(|undo| Destination::fresh(undo, image, written.as_ref())).transpose()?;
        Ok(Results { image: written, undo })
    }

    /// The names of the files to write, to be shown; nothing where there are none.
    pub fn names(&self) -> Option<String> {
        let names: Vec<&str> = [&self.image, &self.undo].into_iter().flatten().map(|file| file.name.as_str()).collect();
        (!names.is_empty()).then(|| names.join(" and "))
    }

    /// Writes all or nothing; the text of the calls is made where it is asked for, before anything is written.
    pub fn write(self, image: &[u8], undo: impl FnOnce(&mut Text) -> Result<(), Failure>) -> Result<(), Failure> {
        let stage_text = |file: Destination| {
            let mut text = Text::new(file.name.clone());
            undo(&mut text)?;
            file.stage(&text.bytes)
        };
        let undo = self.undo.map(stage_text).transpose()?;
        let image = self.image.map(|file| file.stage(image)).transpose()?;
        match (image, undo) {
            (Some(image), Some(undo)) => image.commit_after(undo),
            (Some(alone), None) | (None, Some(alone)) => alone.commit(),
            (None, None) => Ok(()),
        }
    }
}
