//! `fluxproof show`: all that an image says of itself, for people.

mod refused;

use std::fmt::Display;
use std::io::{self, Write};

use scp::{Edition, Footer, Header, Reason, Refusal, STRING_NAMES};

use crate::arguments::{Arguments, Command};
use crate::checksum::Checksum;
use crate::dates::utc;
use crate::escapes::quoted;
use crate::failure::{Failure, Status};
use crate::files::at_least;
use crate::flux::{count_intervals_of, Counts};
use crate::image::Image;
use crate::numbers::{grouped, milliseconds};
use crate::reasons::Fault;

/// The command.
pub const COMMAND: Command = Command { name: "show", flags: &[], values: &["--edition"], help: include_str!("help/show.txt"), run };

/// The versions of the footer, in order.
const VERSIONS: [&str; 4] = ["software version", "hardware version", "firmware version", "format version"];

/// The disk types that the text of the format names.
const DISKS: [(u8, &str); 22] = [
    (0x00, "Commodore 64"),
    (0x04, "Amiga"),
    (0x10, "Atari FM, single-sided"),
    (0x11, "Atari FM, double-sided"),
    (0x12, "Atari FM, extended"),
    (0x14, "Atari ST, single-sided"),
    (0x15, "Atari ST, double-sided"),
    (0x20, "Apple II"),
    (0x21, "Apple II Pro"),
    (0x24, "Apple 400K"),
    (0x25, "Apple 800K"),
    (0x26, "Apple 1.44M"),
    (0x30, "PC 360K"),
    (0x31, "PC 720K"),
    (0x32, "PC 1.2M"),
    (0x33, "PC 1.44M"),
    (0x40, "TRS-80, single-sided, single density"),
    (0x41, "TRS-80, single-sided, double density"),
    (0x42, "TRS-80, double-sided, single density"),
    (0x43, "TRS-80, double-sided, double density"),
    (0x50, "TI-99/4A"),
    (0x60, "Roland D-20"),
];

/// Shows an image: where it is refused the refusal first, and then what can still be read.
fn run(arguments: &Arguments, out: &mut dyn Write) -> Result<(), Failure> {
    let [file] = arguments.operands(["FILE"])?;
    let image = Image::read(file, arguments.edition()?)?;
    let Err(refusal) = scp::validate(&image.input.bytes, image.edition) else { return show(&image, out) };
    writeln!(out, "{}: {}", image.input.name, image.reason(refusal))?;
    match scp::header(&image.input.bytes, image.edition) {
        Ok(_) => {
            writeln!(out, "The image opens, so that all of it can be read:\n")?;
            show(&image, out)?;
        }
        Err(_) => {
            writeln!(out, "UNCHECKED: the image does not open; what follows is what its bytes say:\n")?;
            refused::show(&image, out)?;
        }
    }
    Err(Failure::Said(Status::Refused))
}

/// Shows an image that opens.
fn show(image: &Image, out: &mut dyn Write) -> Result<(), Failure> {
    let header = image.ask(scp::header)?;
    let footer = image.ask(scp::footer)?;
    let checksum = image.ask(Checksum::of)?;
    let tracks = image.ask(scp::tracks)?;
    say_file(image, out)?;
    say_header(&header, image.edition, &format!("{} present", tracks.len()), out)?;
    field(out, "checksum", &checksum)?;
    match footer {
        Some(footer) => say_footer(&image.input.bytes, &footer, &[], out)?,
        None => field(out, "footer", "none")?,
    }
    say_tracks(image, &tracks, out)?;
    say_revolutions(image, &tracks, out)
}

/// A line with a name and a value.
pub fn field(out: &mut dyn Write, name: &str, value: impl Display) -> io::Result<()> {
    writeln!(out, "{name:<20}{value}")
}

/// Which file it is, by which edition it is read, and how long it is.
fn say_file(image: &Image, out: &mut dyn Write) -> io::Result<()> {
    let bytes = &image.input.bytes;
    field(out, "image", &image.input.name)?;
    field(out, "read as", format!("revision {}", image.edition))?;
    field(out, "size", format!("{}{} bytes", at_least(bytes), grouped(bytes.len() as u64)))
}

/// The fields of the header, decoded, with what is said of the tracks.
fn say_header(header: &Header, edition: Edition, tracks: &str, out: &mut dyn Write) -> io::Result<()> {
    let disk = DISKS.iter().find(|(disk, _)| *disk == header.disk).map_or("not named by the format", |(_, name)| name);
    let heads = match header.heads {
        0 => "both",
        1 => "side 0 only (even tracks)",
        2 => "side 1 only (odd tracks)",
        _ => "not 0, 1 or 2",
    };
    field(out, "version", version(header.version))?;
    field(out, "disk type", format!("0x{:02X} ({disk})", header.disk))?;
    field(out, "revolutions", format!("{} for each track", header.revolutions))?;
    field(out, "tracks", format!("{} to {}, {tracks}", header.start, header.end))?;
    field(out, "flags", format!("0x{:02X}", header.flags))?;
    for (bit, (name, clear, set)) in flags(edition).into_iter().enumerate() {
        field(out, &format!("  {name}"), if header.flags & (1 << bit) == 0 { clear } else { set })?;
    }
    let width = if matches!(header.width, 0 | 16) { "16 bits" } else { "neither 0 nor 16" };
    field(out, "word width", format!("{} ({width})", header.width))?;
    field(out, "heads", format!("{} ({heads})", header.heads))
}

/// The known bits of FLAGS with what they mean when clear and when set.
fn flags(edition: Edition) -> [(&'static str, &'static str, &'static str); 6] {
    let footer = if edition.has_footer() { "footer" } else { "set, but revision 1.4 has no footer" };
    [
        ("index", "flux starts anywhere on the track", "flux starts at the index"),
        ("TPI", "48 TPI drive", "96 TPI drive"),
        ("RPM", "300 rpm drive", "360 rpm drive"),
        ("type", "flux as read", "flux normalized"),
        ("read/write", "read-only", "read/write"),
        ("footer", "no footer", footer),
    ]
}

/// A version byte, a nibble each side of the point.
fn version(byte: u8) -> String {
    format!("{}.{} (0x{byte:02X})", byte >> 4, byte & 15)
}

/// The strings, times and versions of the footer, or the faults that they have.
fn say_footer(image: &[u8], footer: &Footer, faults: &[Fault], out: &mut dyn Write) -> io::Result<()> {
    match fault(faults, Reason::Footer, 0) {
        None => field(out, "footer", "present")?,
        Some(fault) => field(out, "footer", format!("present, but {fault}"))?,
    }
    for (number, (name, offset)) in (0..).zip(STRING_NAMES.into_iter().zip(footer.strings)) {
        let but = fault(faults, Reason::Text, number).map_or(String::new(), |fault| format!(", but {fault}"));
        let value = match (fault(faults, Reason::String, number), scp::string(image, offset)) {
            (Some(fault), _) => fault.to_string(),
            (None, Some(string)) => format!("{} (at 0x{offset:08X}){but}", quoted(string)),
            (None, None) => "-".to_string(),
        };
        field(out, &format!("  {name}"), value)?;
    }
    for (name, seconds) in [("  created", footer.created), ("  modified", footer.modified)] {
        field(out, name, format!("{} ({seconds} s)", utc(seconds)))?;
    }
    for (name, byte) in VERSIONS.into_iter().zip(footer.versions) {
        field(out, &format!("  {name}"), version(byte))?;
    }
    Ok(())
}

/// The first fault of a reason at a position.
fn fault(faults: &[Fault], reason: Reason, position: u32) -> Option<&Fault> {
    faults.iter().find(|fault| fault.refusal == Refusal { reason, position: position.into() })
}

/// A speed, or a dash for none.
fn rpm(speed: Option<f64>) -> String {
    speed.map_or("-".to_string(), |speed| format!("{speed:.3}"))
}

/// The table of tracks.
fn say_tracks(image: &Image, tracks: &[u32], out: &mut dyn Write) -> Result<(), Failure> {
    writeln!(out, "\ntrack cylinder head     offset revolutions    slowest rpm    fastest rpm")?;
    for &track in tracks {
        let found = image.ask_of((track, 0), |bytes, edition, track, _| scp::track(bytes, edition, track))?;
        let speeds = image.ask_of((track, 0), |bytes, edition, track, _| scp::track_speed(bytes, edition, track))?;
        let (slowest, fastest) = speeds.map(|speeds| (speeds.slowest, speeds.fastest)).unzip();
        let (cylinder, head, offset, revolutions) = (found.cylinder, found.head, found.offset, found.revolutions);
        let (slowest, fastest) = (rpm(slowest), rpm(fastest));
        writeln!(out, "{track:>5} {cylinder:>8} {head:>4} 0x{offset:08X} {revolutions:>11} {slowest:>14} {fastest:>14}")?;
    }
    Ok(())
}

/// The table of revolutions.
fn say_revolutions(image: &Image, tracks: &[u32], out: &mut dyn Write) -> Result<(), Failure> {
    let revolutions = image.ask(scp::header)?.revolutions;
    writeln!(out, "\ntrack rev      ticks            ms      words  intervals    open ticks            rpm")?;
    for &track in tracks {
        for revolution in 0..u32::from(revolutions) {
            let place = (track, revolution);
            let found = image.ask_of(place, scp::revolution)?;
            let speed = rpm(image.ask_of(place, scp::speed)?);
            let Counts { intervals, open, .. } = count_intervals_of(image, place)?;
            let (ticks, ms, words) = (found.duration, milliseconds(u64::from(found.duration)), found.words);
            writeln!(out, "{track:>5} {revolution:>3} {ticks:>10} {ms:>13} {words:>10} {intervals:>10} {open:>13} {speed:>14}")?;
        }
    }
    Ok(())
}
