//! `fluxproof list`: the listing of the rules, byte for byte.

use std::io::Write;

use crate::arguments::{Arguments, Command};
use crate::failure::{Failure, Status};
use crate::flux::{count_intervals_of, Counts};
use crate::image::Image;

/// The command.
pub const COMMAND: Command = Command { name: "list", flags: &[], values: &["--edition"], help: include_str!("help/list.txt"), run };

/// Lists an image, or says its refusal.
fn run(arguments: &Arguments, out: &mut dyn Write) -> Result<(), Failure> {
    let [file] = arguments.operands(["FILE"])?;
    let image = Image::read(file, arguments.edition()?)?;
    if let Err(refusal) = scp::validate(&image.input.bytes, image.edition) {
        writeln!(out, "refused {} at {}", refusal.reason.number(), refusal.position)?;
        return Err(Failure::Said(Status::Refused));
    }
    let header = image.ask(scp::header)?;
    let tracks = image.ask(scp::tracks)?;
    let (size, count) = (image.input.bytes.len(), tracks.len());
    writeln!(out, "ok {size} tracks {count} turns {} sum {}", header.revolutions, header.checksum)?;
    for track in tracks {
        for revolution in 0..u32::from(header.revolutions) {
            say_revolution(&image, (track, revolution), out)?;
        }
    }
    Ok(())
}

/// The line of a revolution; the rules call it a turn.
fn say_revolution(image: &Image, place: (u32, u32), out: &mut dyn Write) -> Result<(), Failure> {
    let (track, revolution) = place;
    let found = image.ask_of(place, scp::revolution)?;
    let Counts { intervals, open, last } = count_intervals_of(image, place)?;
    let (ticks, words, last) = (found.duration, found.words, last.map_or("-".to_string(), |word| word.to_string()));
    Ok(writeln!(out, "track {track} turn {revolution} ticks {ticks} words {words} intervals {intervals} open {open} last {last}")?)
}
