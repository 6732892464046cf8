//! `fluxproof dsk list`: a line for the image and one for each sector, for programs.

use std::io::Write;

use dsk::{Geometry, Sector};

use super::contents;
use crate::arguments::{Arguments, Command};
use crate::failure::{Failure, Status};
use crate::files::Input;

/// The command.
pub const COMMAND: Command = Command { name: "dsk list", flags: &[], values: &[], help: include_str!("../help/dsk/list.txt"), run };

/// Lists an image, or says its refusal.
fn run(arguments: &Arguments, out: &mut dyn Write) -> Result<(), Failure> {
    let [file] = arguments.operands(["FILE"])?;
    let input = Input::read(file)?;
    let (geometry, blocks) = match contents::accepted(&input.bytes) {
        Ok(found) => found,
        Err(refusal) => {
            writeln!(out, "refused {} at {}", refusal.reason.number(), refusal.position)?;
            return Err(Failure::Said(Status::Refused));
        }
    };
    let (size, Geometry { tracks, sides, track_size }) = (input.bytes.len(), geometry);
    writeln!(out, "ok {size} tracks {tracks} sides {sides} size {track_size}")?;
    for found in blocks {
        let (track, side) = (found.place.track.into(), found.place.side.into());
        for (index, sector) in (0..).zip(&found.sectors) {
            writeln!(out, "{}", line((track, side, index), sector))?;
        }
    }
    Ok(())
}

/// The line of a sector, by its track, its side and its index.
pub fn line((track, side, index): (u32, u32, u32), sector: &Sector) -> String {
    let Sector { cylinder, head, id, size_code, status1, status2, offset, length } = sector;
    let identity = format!("c {cylinder} h {head} r {id} n {size_code} st1 {status1} st2 {status2}");
    format!("track {track} side {side} index {index} {identity} offset {offset} length {length}")
}
