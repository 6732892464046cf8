//! `fluxproof dsk show`: all that an image says of itself, for people.

use std::io::{self, Write};

use dsk::{Geometry, Reason, Sector};

use super::contents::{self, Found};
use super::faults::{Fault, Standard};
use super::layout::{sector_size, Layout, Place, INFORMATION};
use super::notes;
use crate::arguments::{Arguments, Command};
use crate::failure::{Failure, Status};
use crate::faults::{of_image, Rules};
use crate::files::{at_least, Input};
use crate::numbers::{counted, grouped};
use crate::show::field;

/// The command.
pub const COMMAND: Command = Command { name: "dsk show", flags: &[], values: &[], help: include_str!("../help/dsk/show.txt"), run };

/// What is said where there is nothing to say.
const NONE: &str = "-";

/// Shows an image: where it is refused the refusal first, and then what can still be read.
fn run(arguments: &Arguments, out: &mut dyn Write) -> Result<(), Failure> {
    let [file] = arguments.operands(["FILE"])?;
    let input = Input::read(file)?;
    let layout = Layout(&input.bytes);
    match contents::accepted(&input.bytes) {
        Ok((geometry, found)) => Ok(Show { input: &input, layout, geometry: Some(geometry), found, faults: Vec::new() }.say(out)?),
        Err(refusal) => {
            writeln!(out, "{}: {}", input.name, of_image(Standard, &input.bytes, refusal))?;
            writeln!(out, "UNCHECKED: the image is refused; what follows is what its bytes say:\n")?;
            let (geometry, found) = (layout.geometry(), contents::refused(layout));
            Show { input: &input, layout, geometry, found, faults: Standard.faults(&input.bytes) }.say(out)?;
            Err(Failure::Said(Status::Refused))
        }
    }
}

/// What is shown of an image.
struct Show<'a> {
    input: &'a Input,
    layout: Layout<'a>,
    geometry: Option<Geometry>,
    found: Vec<Found>,
    faults: Vec<Fault>,
}

impl Show<'_> {
    /// The fields of the image, the table of blocks and the table of sectors.
    fn say(&self, out: &mut dyn Write) -> io::Result<()> {
        field(out, "image", &self.input.name)?;
        field(out, "size", format!("{}{} bytes", at_least(self.layout.0), grouped(self.layout.len())))?;
        let Some(geometry) = self.geometry else {
            return field(out, "header", "not there");
        };
        self.say_header(geometry, out)?;
        self.say_blocks(out)?;
        self.say_sectors(out)
    }

    /// The fields before the blocks, and where these end.
    fn say_header(&self, geometry: Geometry, out: &mut dyn Write) -> io::Result<()> {
        let text = |start: usize, end: usize| {
            let bytes = self.layout.0.get(start..end).unwrap_or_default();
            let zeros = bytes.iter().rev().take_while(|&&byte| byte == 0).count();
            format!("\"{}\"", bytes[..bytes.len() - zeros].escape_ascii())
        };
        field(out, "opening", text(0, 0x22))?;
        field(out, "creator", text(0x22, 0x30))?;
        field(out, "tracks", geometry.tracks)?;
        field(out, "sides", geometry.sides)?;
        field(out, "track size", format!("{} bytes", grouped(geometry.track_size.into())))?;
        match self.faults.iter().find(|fault| fault.refusal.reason == Reason::Geometry) {
            Some(fault) => field(out, "blocks", fault),
            None => self.say_ends(geometry, out),
        }
    }

    /// How many blocks there are and should be, and what comes after them.
    fn say_ends(&self, geometry: Geometry, out: &mut dyn Write) -> io::Result<()> {
        let (all, size) = (u64::from(geometry.tracks) * u64::from(geometry.sides), self.layout.len());
        let end = INFORMATION + all * u64::from(geometry.track_size);
        let whole = self.found.iter().filter(|found| found.place.end <= size).count() as u64;
        field(out, "blocks", if whole == all { grouped(all) } else { format!("{} ({} whole in the file)", grouped(all), grouped(whole)) })?;
        let after = match size.checked_sub(end) {
            None => format!("{} missing", counted(end - size, "byte")),
            Some(0) => "no bytes".to_string(),
            Some(after) => format!("{}{} from {} on", at_least(self.layout.0), counted(after, "byte"), grouped(end)),
        };
        field(out, "after last block", after)
    }

    /// The table of blocks.
    fn say_blocks(&self, out: &mut dyn Write) -> io::Result<()> {
        writeln!(out, "\ntrack side block     offset sectors  N  size  gap filler  notes")?;
        for found in &self.found {
            let Place { index, track, side, start, .. } = found.place;
            let fields = match &found.block {
                Some(block) => {
                    let size = sector_size(block.size_code).map_or(NONE.to_string(), |size| size.to_string());
                    let (sectors, code, gap, filler) = (block.sectors, block.size_code, block.gap, block.filler);
                    format!("{sectors:>7} {code:>2} {size:>5} 0x{gap:02X}   0x{filler:02X}")
                }
                None => format!("{NONE:>7} {NONE:>2} {NONE:>5} {NONE:>4} {NONE:>6}"),
            };
            writeln!(out, "{track:>5} {side:>4} {index:>5} 0x{start:08X} {fields}  {}", self.block_note(found))?;
        }
        Ok(())
    }

    /// The first fault of a block, or what else is to note of it.
    fn block_note(&self, found: &Found) -> String {
        let at_block = |fault: &&Fault| fault.refusal.reason.position_counts().is_some() && fault.refusal.position == found.place.index;
        match (self.faults.iter().find(at_block), &found.block) {
            (Some(fault), _) => fault.to_string(),
            (None, _) if found.place.end > self.layout.len() => format!("cut off at {}", grouped(self.layout.len())),
            (None, Some(block)) => notes::of_block(block).unwrap_or(NONE.to_string()),
            (None, None) => NONE.to_string(),
        }
    }

    /// The table of sectors.
    fn say_sectors(&self, out: &mut dyn Write) -> io::Result<()> {
        writeln!(out, "\ntrack side index   C   H   R  (hex)   N  ST1  ST2     offset length  notes")?;
        for found in &self.found {
            let Place { track, side, .. } = found.place;
            for (index, sector) in found.sectors.iter().enumerate() {
                let Sector { cylinder, head, id, size_code, status1, status2, offset, length } = *sector;
                let identity = format!("{cylinder:>3} {head:>3} {id:>3} (0x{id:02X}) {size_code:>3} 0x{status1:02X} 0x{status2:02X}");
                let data = match length {
                    0 => format!("{NONE:>10} {NONE:>6}"),
                    _ => format!("0x{offset:08X} {length:>6}"),
                };
                writeln!(out, "{track:>5} {side:>4} {index:>5} {identity} {data}  {}", self.sector_notes(found, sector))?;
            }
        }
        Ok(())
    }

    /// What is to note of a sector.
    fn sector_notes(&self, found: &Found, sector: &Sector) -> String {
        let Place { track, side, end, .. } = found.place;
        let mut notes = Vec::new();
        if let Some(block) = &found.block {
            notes = notes::of_sector((track.into(), side.into()), block, sector);
        }
        let past = sector.offset + sector.length;
        if sector.length > 0 && past > self.layout.len() {
            notes.push(format!("its data are cut off at {}", grouped(self.layout.len())));
        } else if past > end {
            notes.push(format!("its data end past the block's end at {}", grouped(end)));
        }
        if notes.is_empty() {
            NONE.to_string()
        } else {
            notes.join(", ")
        }
    }
}
