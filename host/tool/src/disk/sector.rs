//! `fluxproof dsk sector`: the data of a sector, as a dump or as they are.

use std::ffi::OsStr;
use std::io::Write;

use super::list::line;
use super::reasons::{ask, Asked};
use super::{dump, notes};
use crate::arguments::{number_of, Arguments, Command};
use crate::destination::{Destination, Kind};
use crate::failure::Failure;
use crate::files::{shown, Input};
use crate::numbers::counted;

/// The command.
pub const COMMAND: Command =
    Command { name: "dsk sector", flags: &["--force", "--raw"], values: &["--data"], help: include_str!("../help/dsk/sector.txt"), run };

/// Writes the data where they are asked for, or prints them.
fn run(arguments: &Arguments, out: &mut dyn Write) -> Result<(), Failure> {
    let [file, track, side, index] = arguments.operands(["FILE", "TRACK", "SIDE", "INDEX"])?;
    let (track, side, index) = (number_of("TRACK", track)?, number_of("SIDE", side)?, number_of("INDEX", index)?);
    let (target, asked) = (target(arguments)?, Asked { track, side, index });
    let input = Input::read(file)?;
    let data = ask(&input, asked, dsk::data)?;
    if let Some(target) = target {
        Destination::new(target, &[&input], arguments, Kind::Part)?.stage(data)?.commit()?;
        let size = counted(data.len() as u64, "byte");
        return Ok(writeln!(out, "{size} of track {track} side {side} index {index} written to {}", shown(target))?);
    }
    if arguments.has("--raw") {
        return Ok(out.write_all(data)?);
    }
    writeln!(out, "# {}", title(&input, asked)?)?;
    Ok(dump::say(data, out)?)
}

/// The file to write, if one is named.
fn target(arguments: &Arguments) -> Result<Option<&OsStr>, Failure> {
    match (arguments.value("--data"), arguments.has("--raw"), arguments.has("--force")) {
        (Some(_), true, _) => Err(Failure::usage("--data and --raw exclude each other")),
        (None, _, true) => Err(Failure::usage("--force is for --data, which is missing")),
        (target, ..) => Ok(target),
    }
}

/// The sector's line in the listing, with its notes.
fn title(input: &Input, asked: Asked) -> Result<String, Failure> {
    let sector = ask(input, asked, dsk::sector)?;
    let block = ask(input, asked, |image, track, side, _| dsk::block(image, track, side))?;
    let Asked { track, side, index } = asked;
    let notes = notes::of_sector((track, side), &block, &sector);
    let line = line((track, side, index), &sector);
    Ok(if notes.is_empty() { line } else { format!("{line} ({})", notes.join(", ")) })
}
