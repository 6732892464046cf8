//! `fluxproof patch`: an image with one revolution rewritten.

use std::ffi::OsStr;
use std::io::{self, Write};

use scp::Reason;

use crate::arguments::{number_of, place_of, Arguments, Command};
use crate::checksum::{say_change, Checksum};
use crate::failure::Failure;
use crate::files::{shown, Input};
use crate::image::Image;
use crate::reasons::{self, Asked};
use crate::results::Results;
use crate::times::{words_of_times, Unit};
use crate::undo::{kept, Change};

/// The command.
pub const COMMAND: Command = Command {
    name: "patch",
    flags: &["--empty", "--force", "--in-place", "--us"],
    values: &["--duration", "--edition", "--times", "--undo", "--words"],
    help: include_str!("help/patch.txt"),
    run,
};

/// What the file of the new words holds.
enum Form {
    /// Times as text.
    Times(Unit),
    /// Words as bytes.
    Words,
}

/// Rewrites the revolution in memory, writes the image, and says what changed.
fn run(arguments: &Arguments, out: &mut dyn Write) -> Result<(), Failure> {
    let [file, target, track, revolution] = arguments.operands(["FILE", "OUT", "TRACK", "REV"])?;
    let (track, revolution) = place_of(track, revolution)?;
    let (duration, (form, source)) = (duration(arguments)?, Form::of(arguments)?);
    let (edition, source) = (arguments.edition()?, Input::read_all(source)?);
    let mut image = Image { input: Input::read_image(file, arguments.has("--in-place"))?, edition };
    let results = Results::new(Some(target), &image.input, &source, arguments)?;
    let old = image.ask_of((track, revolution), scp::revolution)?;
    let words = form.words(&source, old.words, arguments.has("--empty"))?;
    let duration = (old.duration, duration.unwrap_or(old.duration));
    let change = Change { edition, track, revolution, duration, words: (old.words as usize, words.len() / 2) };
    let former = image.ask_of((track, revolution), scp::flux)?.to_vec();
    let before = image.ask(Checksum::of)?;
    rewrite(&mut image, &source, &change, &words)?;
    let (after, input) = (image.ask(Checksum::of)?, &image.input);
    results.write(&input.bytes, |text| change.undo(&former, &input.name, &shown(target), text))?;
    writeln!(out, "track {track} revolution {revolution} of {} rewritten in {}", input.name, shown(target))?;
    say(out, &change, &kept(arguments, input))?;
    Ok(say_change(out, &before, &after)?)
}

/// Rewrites the revolution in memory; words that are refused are a fault of the file that they come from.
fn rewrite(image: &mut Image, source: &Input, change: &Change, words: &[u8]) -> Result<(), Failure> {
    let asked = Asked { track: change.track, revolution: change.revolution, size: words.len() };
    let done = scp::rewrite(&mut image.input.bytes, image.edition, asked.track, asked.revolution, change.duration.1, words);
    done.map_err(|refusal| match refusal.reason {
        Reason::Words => source.failure(reasons::of_asked(image.layout(), asked, refusal)),
        _ => image.refused(asked, refusal),
    })
}

/// Says what changed, and what cannot be taken back.
fn say(out: &mut dyn Write, change: &Change, kept: &str) -> io::Result<()> {
    writeln!(out, "duration {} -> {}", change.duration.0, change.duration.1)?;
    writeln!(out, "words {} -> {}", change.words.0, change.words.1)?;
    if change.is_shorter() {
        writeln!(out, "{}; its former words {kept}", Change::SHORTER)?;
    }
    Ok(())
}

/// The new duration, or nothing to keep the old one.
fn duration(arguments: &Arguments) -> Result<Option<u32>, Failure> {
    match arguments.value("--duration") {
        None => Err(Failure::usage("--duration is missing (a number of ticks, or keep)")),
        Some(text) if text == "keep" => Ok(None),
        Some(text) => number_of("--duration", text).map(Some),
    }
}

impl Form {
    /// The one form that is named, and its file.
    fn of(arguments: &Arguments) -> Result<(Form, &OsStr), Failure> {
        let us = arguments.has("--us");
        match (arguments.value("--times"), arguments.value("--words")) {
            (Some(file), None) => Ok((Form::Times(if us { Unit::Microseconds } else { Unit::Ticks }), file)),
            (None, Some(_)) if us => Err(Failure::usage("--us is for --times, which is missing")),
            (None, Some(file)) => Ok((Form::Words, file)),
            (None, None) => Err(Failure::usage("--times or --words is missing")),
            (Some(_), Some(_)) => Err(Failure::usage("--times and --words exclude each other")),
        }
    }

    /// The new words as bytes, for a revolution of so many; none only where that is allowed.
    fn words(&self, source: &Input, most: u32, empty: bool) -> Result<Vec<u8>, Failure> {
        let words = match self {
            Form::Times(unit) => words_of_times(source, *unit, most)?,
            Form::Words => source.copy()?,
        };
        if words.is_empty() && !empty {
            return Err(Failure::usage(format!("{}: there is nothing in it (--empty is for a revolution without words)", source.name)));
        }
        Ok(words)
    }
}
