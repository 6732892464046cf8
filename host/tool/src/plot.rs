//! `fluxproof plot`: the intervals of a revolution as a drawing.

mod canvas;
mod drawing;
mod scale;
mod subject;

use std::io::Write;

use crate::arguments::{place_of, Arguments, Command};
use crate::destination::{Destination, Kind};
use crate::failure::Failure;
use crate::files::shown;
use crate::image::Image;
use crate::numbers::counted;
use crate::way::Way;
use subject::Subject;

/// The command.
pub const COMMAND: Command =
    Command { name: "plot", flags: &["--direct", "--force"], values: &["--edition"], help: include_str!("help/plot.txt"), run };

/// Draws the revolution and writes the drawing.
fn run(arguments: &Arguments, out: &mut dyn Write) -> Result<(), Failure> {
    let [file, track, revolution, target] = arguments.operands(["FILE", "TRACK", "REV", "OUT.svg"])?;
    let place = place_of(track, revolution)?;
    let image = Image::read(file, arguments.edition()?)?;
    let subject = Subject::of(&image, Way::of(arguments), place)?;
    let destination = Destination::new(target, &[&image.input], arguments, Kind::Drawing)?;
    destination.stage(drawing::svg(&subject).as_bytes())?.commit()?;
    Ok(writeln!(out, "{} drawn in {}", counted(subject.intervals.len() as u64, "interval"), shown(target))?)
}
