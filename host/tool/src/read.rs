//! `fluxproof read`: the intervals of a revolution, one on a line.

use std::io::{self, Write};

use crate::arguments::{place_of, Arguments, Command};
use crate::failure::Failure;
use crate::flux::{each_interval, Interval};
use crate::image::Image;
use crate::numbers::microseconds;
use crate::way::Way;

/// The command.
pub const COMMAND: Command = Command {
    name: "read",
    flags: &["--us", "--csv", "--closing", "--direct"],
    values: &["--edition"],
    help: include_str!("help/read.txt"),
    run,
};

/// How times are printed.
struct Form {
    /// As rows of columns with names.
    csv: bool,
    /// In microseconds, not ticks.
    us: bool,
    /// With the word that closed each interval.
    closing: bool,
}

/// Prints the intervals, and the open time where there is some.
fn run(arguments: &Arguments, out: &mut dyn Write) -> Result<(), Failure> {
    let [file, track, revolution] = arguments.operands(["FILE", "TRACK", "REV"])?;
    let place = place_of(track, revolution)?;
    let form = Form { csv: arguments.has("--csv"), us: arguments.has("--us"), closing: arguments.has("--closing") };
    let image = Image::read(file, arguments.edition()?)?;
    let flux = Way::of(arguments).flux(&image, place)?;
    form.say_columns(out)?;
    let mut index = 0_u64;
    let open = each_interval(&image, flux, |interval| {
        form.say_interval(index, interval, out)?;
        index += 1;
        Ok(())
    })?;
    Ok(form.say_open(open, out)?)
}

impl Form {
    /// The line that names the columns of rows.
    fn say_columns(&self, out: &mut dyn Write) -> io::Result<()> {
        let unit = if self.us { "microseconds" } else { "ticks" };
        match (self.csv, self.closing) {
            (false, _) => Ok(()),
            (true, false) => writeln!(out, "index,{unit}"),
            (true, true) => writeln!(out, "index,{unit},word"),
        }
    }

    /// The line of an interval.
    fn say_interval(&self, index: u64, Interval { ticks, closing }: Interval, out: &mut dyn Write) -> io::Result<()> {
        let time = self.time(ticks);
        match (self.csv, self.closing) {
            (false, false) => writeln!(out, "{time}"),
            (false, true) => writeln!(out, "{time} word {closing}"),
            (true, false) => writeln!(out, "{index},{time}"),
            (true, true) => writeln!(out, "{index},{time},{closing}"),
        }
    }

    /// The line of the open time, where there is some; no word closes it.
    fn say_open(&self, ticks: u64, out: &mut dyn Write) -> io::Result<()> {
        let time = self.time(ticks);
        match (self.csv, self.closing) {
            _ if ticks == 0 => Ok(()),
            (false, _) => writeln!(out, "open {time}"),
            (true, false) => writeln!(out, "open,{time}"),
            (true, true) => writeln!(out, "open,{time},"),
        }
    }

    /// A time in the unit that is asked for.
    fn time(&self, ticks: u64) -> String {
        if self.us {
            microseconds(ticks)
        } else {
            ticks.to_string()
        }
    }
}
