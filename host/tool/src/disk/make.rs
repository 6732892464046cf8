//! `fluxproof dsk make`: an image of raw sector data.

mod faults;
mod options;

use std::io::Write;

use dsk::{Layout, Reason};

use crate::arguments::{Arguments, Command};
use crate::destination::{Destination, Kind};
use crate::failure::Failure;
use crate::files::{shown, Input};
use crate::numbers::counted;

/// The command.
pub const COMMAND: Command = Command {
    name: "dsk make",
    flags: &["--force"],
    values: &["--code", "--creator", "--filler", "--gap", "--sectors", "--sides", "--size", "--tracks"],
    help: include_str!("../help/dsk/make.txt"),
    run,
};

/// Makes the image in memory, writes it, and says what it has.
fn run(arguments: &Arguments, out: &mut dyn Write) -> Result<(), Failure> {
    let [data, target] = arguments.operands(["DATA", "OUT"])?;
    let (layout, creator) = (options::layout(arguments)?, options::creator(arguments)?);
    let data = Input::read(data)?;
    let image = image(&creator, layout, &data)?;
    Destination::new(target, &[&data], arguments, Kind::Made)?.stage(&image)?.commit()?;
    let (size, [tracks, sides, sectors, bytes]) = (counted(image.len() as u64, "byte"), options::in_words(layout));
    Ok(writeln!(out, "{size} written to {}: {tracks}, {sides}, {sectors} of {bytes}", shown(target))?)
}

/// The image, or the library's refusal as a failure. It is first asked with no room at all, so that none is made for what it refuses.
fn image(creator: &[u8], layout: Layout, data: &Input) -> Result<Vec<u8>, Failure> {
    let refused = |refusal| data.failure(faults::of_making(layout, &data.bytes, refusal));
    match dsk::write(creator, layout, &data.bytes, &mut []) {
        Err(refusal) if refusal.reason != Reason::Places => return Err(refused(refusal)),
        _ => {}
    }
    let size = layout.image_size().unwrap_or(0);
    let mut image = data.room(size)?;
    image.resize(size, 0);
    let written = dsk::write(creator, layout, &data.bytes, &mut image).map_err(refused)?;
    image.truncate(written);
    Ok(image)
}
