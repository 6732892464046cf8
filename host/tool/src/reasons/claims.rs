//! Bytes that a rewrite stands on and something else claims, too.

use std::ops::Range;

use scp::STRING_NAMES;

use crate::layout::Layout;
use crate::numbers::grouped;

/// Bytes of an image, and what they are.
type Part = (Range<u64>, String);

/// What shares a byte with the rewrite of a revolution of an image that opens, if anything does.
pub fn shared(layout: Layout, track: u32, revolution: u32) -> Option<String> {
    let (_, header) = layout.entries().find(|&(present, _)| present == track)?;
    let record = Layout::record_offset(header, revolution);
    let found = layout.revolution(header, revolution)?;
    let numbers = (record..record + 8, "its duration and count".to_string());
    let flux = (found.offset..found.offset + 2 * u64::from(found.words), "its present flux".to_string());
    if let Some(byte) = overlap(&numbers.0, &flux.0) {
        return Some(format!("byte {} is of {} and of {}", grouped(byte), numbers.1, flux.1));
    }
    let claims = claims(layout, (track, revolution))?;
    let shared = |(stand, own): &Part| {
        let mut hits = claims.iter().filter_map(|(claim, name)| Some((overlap(stand, claim)?, name)));
        hits.next().map(|(byte, name)| format!("byte {} is of {own} and of {name}", grouped(byte)))
    };
    shared(&numbers).or_else(|| shared(&flux))
}

/// The first byte that two ranges share.
fn overlap(left: &Range<u64>, right: &Range<u64>) -> Option<u64> {
    let (start, end) = (left.start.max(right.start), left.end.min(right.end));
    (start < end).then_some(start)
}

/// All that is claimed by others than the rewrite of a revolution.
fn claims(layout: Layout, (track, revolution): (u32, u32)) -> Option<Vec<Part>> {
    let mut claims: Vec<Part> = vec![(0..layout.table_end(), "the header and the table".to_string())];
    for (other, header) in layout.entries() {
        let (end, name) = (header + layout.track_header_size(), format!("the header of track {other}"));
        if other == track {
            let record = Layout::record_offset(header, revolution);
            claims.extend([(header..record, name.clone()), (record + 8..end, name)]);
        } else {
            claims.push((header..end, name));
        }
        for number in (0..layout.revolutions()).filter(|&number| (other, number) != (track, revolution)) {
            let found = layout.revolution(header, number)?;
            let flux = found.offset..found.offset + 2 * u64::from(found.words);
            claims.push((flux, format!("the flux of track {other}, revolution {number}")));
        }
    }
    if let Some((footer, _)) = layout.footer() {
        claims.push((layout.end()..layout.len(), "the footer".to_string()));
        for (name, offset) in STRING_NAMES.into_iter().zip(footer.strings).filter(|(_, offset)| *offset != 0) {
            let (start, size) = (u64::from(offset), u64::from(u16::from_le_bytes(layout.array(offset.into())?)));
            claims.push((start..start + 2 + size + 1, format!("the string {name}")));
        }
    }
    Some(claims)
}
