//! What can still be read of an image that does not open: its bytes as they are, and the library's intervals of flux that is there.

use std::io::{self, Write};

use scp::Reason;

use super::{fault, field, say_file, say_footer, say_header};
use crate::flux::count_intervals;
use crate::image::Image;
use crate::layout::{Layout, TrackHeader, FOOTER_SIGN};
use crate::numbers::milliseconds;
use crate::reasons::{faults, Fault};

/// The faults that a track can have.
const OF_TRACKS: [Reason; 3] = [Reason::Slot, Reason::Track, Reason::Flux];

/// Shows what is there of size, header, checksum, footer, tracks and revolutions.
pub fn show(image: &Image, out: &mut dyn Write) -> io::Result<()> {
    let layout = image.layout();
    say_file(image, out)?;
    let Some(header) = layout.header() else {
        return field(out, "header", "not there");
    };
    let present = match layout.len() < layout.table_end() {
        true => "which are present is cut off".to_string(),
        false => format!("{} present", layout.entries().count()),
    };
    say_header(&header, image.edition, &present, out)?;
    if layout.is_cut() {
        return Ok(());
    }
    let faults = faults(layout);
    field(out, "checksum", format!("stored {}, true sum {}", header.checksum, layout.sum()))?;
    match (layout.footer(), fault(&faults, Reason::Footer, 0)) {
        (Some((footer, FOOTER_SIGN)), _) => say_footer(layout.bytes, &footer, &faults, out)?,
        (_, Some(fault)) => field(out, "footer", fault)?,
        (_, None) => field(out, "footer", "none")?,
    }
    say_tracks(layout, &faults, out)?;
    say_revolutions(layout, out)
}

/// The table of tracks, each with its first fault.
fn say_tracks(layout: Layout, faults: &[Fault], out: &mut dyn Write) -> io::Result<()> {
    writeln!(out, "\ntrack cylinder head     offset  fault")?;
    for (track, entry) in layout.entries() {
        let fault = OF_TRACKS.into_iter().find_map(|reason| fault(faults, reason, track));
        let fault = fault.map_or("-".to_string(), Fault::to_string);
        writeln!(out, "{track:>5} {:>8} {:>4} 0x{entry:08X}  {fault}", track / 2, track % 2)?;
    }
    Ok(())
}

/// The table of revolutions of the tracks whose header can be read; of flux that is not there, no intervals.
fn say_revolutions(layout: Layout, out: &mut dyn Write) -> io::Result<()> {
    writeln!(out, "\ntrack rev      ticks            ms      words  intervals    open ticks")?;
    let readable = |entry| matches!(layout.track_header(entry), TrackHeader::Of(_));
    for (track, entry) in layout.entries().filter(|&(_, entry)| readable(entry)) {
        for revolution in 0..layout.revolutions() {
            let Some(found) = layout.revolution(entry, revolution) else { break };
            let (ticks, ms, words) = (found.duration, milliseconds(found.duration.into()), found.words);
            let size = 2 * u64::from(words);
            let flux = layout.part(found.offset, size).filter(|_| found.offset + size <= layout.end());
            let read = flux.and_then(|flux| count_intervals(flux).ok());
            let (intervals, open) = read.map(|counts| (counts.intervals.to_string(), counts.open.to_string())).unzip();
            let (intervals, open) = (intervals.unwrap_or("-".to_string()), open.unwrap_or("-".to_string()));
            writeln!(out, "{track:>5} {revolution:>3} {ticks:>10} {ms:>13} {words:>10} {intervals:>10} {open:>13}")?;
        }
    }
    Ok(())
}
