//! What is worth a note: of a sector where its entry is not plain, of a block where not all of its data are stored.

use std::cmp::Ordering;

use dsk::{Block, Sector};

use super::layout::{full_size, sector_size, GREATEST_CODE};
use crate::numbers::grouped;

/// The bits of ST1 that the format uses.
const STATUS1: [(u8, &str); 4] = [(7, "end of cylinder"), (5, "data error"), (2, "no data"), (0, "missing address mark")];

/// The bits of ST2 that the format uses. Its text prints b5 for the control mark, a misprint: b5 is the data error, and the control mark of
/// the NEC765 is b6.
const STATUS2: [(u8, &str); 3] = [(6, "control mark"), (5, "data error in data field"), (0, "missing data address mark")];

/// Where C, H and N are not those of the block, and what the status says.
pub fn of_sector((track, side): (u32, u32), block: &Block, sector: &Sector) -> Vec<String> {
    let mut notes = Vec::new();
    if u32::from(sector.cylinder) != track {
        notes.push(format!("C {} is not the track", sector.cylinder));
    }
    if u32::from(sector.head) != side {
        notes.push(format!("H {} is not the side", sector.head));
    }
    notes.extend(of_code(sector.size_code, block.size_code));
    notes.extend(of_status("ST1", sector.status1, &STATUS1));
    notes.extend(of_status("ST2", sector.status2, &STATUS2));
    notes
}

/// Where a sector's own code is not that of its block; a code that no block may have says nothing of it.
fn of_code(own: u8, code: u8) -> Option<String> {
    match own.cmp(&code) {
        _ if code > GREATEST_CODE => None,
        Ordering::Less => Some(format!("N {own} is below the block's {code} (own size {})", grouped(full_size(own)))),
        Ordering::Equal => None,
        Ordering::Greater => Some(format!("N {own} is above the block's {code}")),
    }
}

/// The bits of a status byte that are set, from the highest on.
fn of_status<'a>(name: &'a str, status: u8, used: &'a [(u8, &str)]) -> impl Iterator<Item = String> + 'a {
    let set = (0..8).rev().filter(move |bit| status & (1 << bit) != 0);
    set.map(move |bit| match used.iter().find(|(number, _)| *number == bit) {
        Some((_, meaning)) => format!("{name} {meaning}"),
        None => format!("{name} b{bit} (unused)"),
    })
}

/// Where fewer bytes are stored than the sectors of a block have.
pub fn of_block(block: &Block) -> Option<String> {
    let (stored, full) = (sector_size(block.size_code)?, full_size(block.size_code));
    (stored < full).then(|| format!("of a sector's {} bytes {} are stored", grouped(full), grouped(stored)))
}
