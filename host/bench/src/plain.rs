//! The same work in plain Rust, as one would write it: the yardstick. It checks all that the library checks.

use scp::Edition;

/// Number and position of a refusal.
pub type Refused = (u32, u64);

/// A revolution: duration, words, place.
#[derive(Clone, Copy)]
pub struct Revolution {
    pub duration: u32,
    pub words: u32,
    pub place: u64,
}

/// Where a stretch of the image starts and ends.
type Extent = (u64, u64);

/// How many tracks the table of an edition has.
fn tracks(edition: Edition) -> usize {
    match edition {
        Edition::V1_4 => 166,
        Edition::V1_6 => 168,
    }
}

/// Where the table of an edition ends.
fn table_end(edition: Edition) -> usize {
    16 + 4 * tracks(edition)
}

/// Whether the image has a footer.
fn has_footer(image: &[u8], edition: Edition) -> bool {
    edition == Edition::V1_6 && image[8] & 0x20 != 0
}

fn le32(image: &[u8], place: usize) -> u32 {
    u32::from_le_bytes(image[place..place + 4].try_into().expect("four bytes"))
}

/// Refusals 1 to 11 and 19; gives the table, with 0 for a track that the edition does not have.
pub fn open(image: &[u8], edition: Edition) -> Result<[u32; 168], Refused> {
    check_header(image, edition)?;
    if has_footer(image, edition) {
        check_footer(image)?;
    }
    let body = body(image, edition);
    let revolutions = usize::from(image[5]);
    let mut table = [0; 168];
    for (track, entry) in table.iter_mut().enumerate().take(tracks(edition)) {
        *entry = le32(image, 16 + 4 * track);
        if *entry != 0 {
            check_track(image, track, u64::from(*entry), revolutions, body).map_err(|number| (number, track as u64))?;
        }
    }
    Ok(table)
}

/// Refusals 1 to 6. Inlined, as is the test of a track, so that each walk has its own, as if it were the only one.
#[inline(always)]
fn check_header(image: &[u8], edition: Edition) -> Result<(), Refused> {
    if !(table_end(edition)..=268_435_456).contains(&image.len()) {
        return Err((1, 0));
    }
    if !image.starts_with(b"SCP") {
        return Err((2, 0));
    }
    if !matches!(image[9], 0 | 16) {
        return Err((3, 0));
    }
    if image[5] == 0 || image[8] & 0x10 != 0 && image[5] > 1 {
        return Err((4, 0));
    }
    if image[6] > image[7] || usize::from(image[7]) >= tracks(edition) {
        return Err((5, 0));
    }
    if image[10] > 2 {
        return Err((6, 0));
    }
    Ok(())
}

/// Refusals 7, 8 and 19.
fn check_footer(image: &[u8]) -> Result<(), Refused> {
    if image.len() < 736 || !image.ends_with(b"FPCS") || image[image.len() - 5] < 0x16 {
        return Err((7, 0));
    }
    for string in 0..6 {
        let offset = le32(image, image.len() - 48 + 4 * string) as usize;
        if offset != 0 {
            let text = text_at(&image[..image.len() - 48], offset).ok_or((8, string as u64))?;
            std::str::from_utf8(text).map_err(|_| (19, string as u64))?;
        }
    }
    Ok(())
}

/// The text of the string at an offset, if it is one.
fn text_at(body: &[u8], offset: usize) -> Option<&[u8]> {
    let size = body.get(offset..offset + 2)?;
    let size = usize::from(u16::from_le_bytes([size[0], size[1]]));
    let (text, closing) = body.get(offset + 2..offset + 3 + size)?.split_at(size);
    (offset >= 688 && closing == [0] && !text.contains(&0)).then_some(text)
}

/// How far the text is well-formed UTF-8.
#[inline(never)]
pub fn valid_up_to(text: &[u8]) -> usize {
    std::str::from_utf8(text).map_or_else(|error| error.valid_up_to(), str::len)
}

/// Where tracks, flux and strings may stand: from the end of the table to E.
fn body(image: &[u8], edition: Edition) -> Extent {
    let footer = if has_footer(image, edition) { 48 } else { 0 };
    (table_end(edition) as u64, image.len() as u64 - footer)
}

#[inline(always)]
fn check_track(image: &[u8], track: usize, entry: u64, revolutions: usize, (start, end): Extent) -> Result<(), u32> {
    let held = match image[10] {
        0 => true,
        heads => track % 2 == usize::from(heads == 2),
    };
    if track < image[6].into() || track > image[7].into() || !held {
        return Err(9);
    }
    if entry < start || entry + 4 + 12 * revolutions as u64 > end {
        return Err(10);
    }
    let header = &image[entry as usize..][..4 + 12 * revolutions];
    if !header.starts_with(b"TRK") || usize::from(header[3]) != track {
        return Err(10);
    }
    let ends = |record: &[u8]| {
        let revolution = of_record(entry, record);
        revolution.place + 2 * u64::from(revolution.words) <= end
    };
    if header[4..].chunks_exact(12).all(ends) {
        Ok(())
    } else {
        Err(11)
    }
}

/// A revolution by its record, 12 bytes of the track data header at an entry.
fn of_record(entry: u64, record: &[u8]) -> Revolution {
    Revolution { duration: le32(record, 0), words: le32(record, 4), place: entry + u64::from(le32(record, 8)) }
}

/// Refusals 1 to 12 and 19.
#[inline(never)]
pub fn validate(image: &[u8], edition: Edition) -> Result<(), Refused> {
    open(image, edition)?;
    let wanted = if image[8] & 0x10 != 0 { 0 } else { byte_sum(&image[16..]) };
    if le32(image, 12) != wanted {
        return Err((12, 0));
    }
    Ok(())
}

fn byte_sum(bytes: &[u8]) -> u32 {
    bytes.iter().fold(0, |sum, &byte| sum.wrapping_add(byte.into()))
}

/// The checksum of the header: refusals 1 to 11 and 19.
#[inline(never)]
pub fn checksum(image: &[u8], edition: Edition) -> Result<u32, Refused> {
    open(image, edition)?;
    Ok(le32(image, 12))
}

/// A revolution: refusals 1 to 11, 19, 13, 14.
#[inline(never)]
pub fn revolution(image: &[u8], edition: Edition, track: u32, revolution: u32) -> Result<Revolution, Refused> {
    find(image, &open(image, edition)?, track, revolution)
}

/// A revolution without the walk over all tracks: refusals 1 to 6, 13, 9 to 11 of its track, 14.
#[inline(never)]
pub fn direct_revolution(image: &[u8], edition: Edition, track: u32, revolution: u32) -> Result<Revolution, Refused> {
    check_header(image, edition)?;
    let index = track as usize;
    if index >= tracks(edition) {
        return Err((13, 0));
    }
    let entry = le32(image, 16 + 4 * index);
    if entry == 0 {
        return Err((13, 0));
    }
    check_track(image, index, entry.into(), image[5].into(), body(image, edition)).map_err(|number| (number, track.into()))?;
    of_entry(image, entry, revolution)
}

/// The byte sum of a revolution's flux.
#[inline(never)]
pub fn flux_sum(image: &[u8], edition: Edition, track: u32, k: u32) -> Result<u32, Refused> {
    let found = revolution(image, edition, track, k)?;
    Ok(byte_sum(&image[found.place as usize..][..2 * found.words as usize]))
}

/// A revolution of an opened image.
fn find(image: &[u8], table: &[u32; 168], track: u32, revolution: u32) -> Result<Revolution, Refused> {
    let entry = table.get(track as usize).copied().filter(|&entry| entry != 0).ok_or((13, 0))?;
    of_entry(image, entry, revolution)
}

/// A revolution of the track data header at an entry.
fn of_entry(image: &[u8], entry: u32, revolution: u32) -> Result<Revolution, Refused> {
    if revolution >= image[5].into() {
        return Err((14, 0));
    }
    Ok(of_record(entry.into(), &image[entry as usize + 4 + 12 * revolution as usize..][..12]))
}

fn check_flux(flux: &[u8]) -> Result<(), Refused> {
    if !flux.len().is_multiple_of(2) || flux.len() > 268_435_456 {
        return Err((17, 0));
    }
    Ok(())
}

/// That the places hold the intervals: they are counted only where there are fewer places than words.
#[inline(always)]
fn check_places(flux: &[u8], places: usize) -> Result<(), Refused> {
    let closing = |pair: &[u8]| pair[0] != 0 || pair[1] != 0;
    if places < flux.len() / 2 && flux.chunks_exact(2).filter(|pair| closing(pair)).count() > places {
        return Err((15, 0));
    }
    Ok(())
}

/// The next interval from a word on: interval or 0, open ticks, next word, closing word or 0.
#[inline(never)]
pub fn step(flux: &[u8], word: u64) -> Result<(u64, u64, u64, u64), Refused> {
    check_flux(flux)?;
    let mut pending = 0;
    for (at, pair) in flux.chunks_exact(2).enumerate().skip(word as usize) {
        match u16::from_be_bytes([pair[0], pair[1]]) {
            0 => pending += 65_536,
            closing => return Ok((pending + u64::from(closing), 0, at as u64 + 1, at as u64)),
        }
    }
    Ok((0, pending, word, 0))
}

/// All intervals into the places; how many, and the open ticks.
#[inline(never)]
pub fn intervals(flux: &[u8], times: &mut [u64]) -> Result<(usize, u64), Refused> {
    check_flux(flux)?;
    check_places(flux, times.len())?;
    let (mut filled, mut pending) = (0, 0);
    for pair in flux.chunks_exact(2) {
        match u16::from_be_bytes([pair[0], pair[1]]) {
            0 => pending += 65_536,
            word => {
                times[filled] = pending + u64::from(word);
                filled += 1;
                pending = 0;
            }
        }
    }
    Ok((filled, pending))
}

/// All intervals and the numbers of their closing words into the places of both lists; how many, and the open ticks.
#[inline(never)]
pub fn closed_intervals(flux: &[u8], times: &mut [u64], closings: &mut [u64]) -> Result<(usize, u64), Refused> {
    check_flux(flux)?;
    check_places(flux, times.len().min(closings.len()))?;
    let (mut filled, mut pending) = (0, 0);
    for (at, pair) in flux.chunks_exact(2).enumerate() {
        match u16::from_be_bytes([pair[0], pair[1]]) {
            0 => pending += 65_536,
            word => {
                times[filled] = pending + u64::from(word);
                closings[filled] = at as u64;
                filled += 1;
                pending = 0;
            }
        }
    }
    Ok((filled, pending))
}

/// The words of the times as bytes; how many bytes.
#[inline(never)]
pub fn words(times: &[u64], words: &mut [u8]) -> Result<usize, Refused> {
    if let Some(bad) = times.iter().position(|&time| time > 4_294_967_295 || time % 65_536 == 0) {
        return Err((16, bad as u64));
    }
    let needed: u64 = times.iter().map(|time| 2 * (time / 65_536 + 1)).sum();
    if needed > words.len() as u64 {
        return Err((15, 0));
    }
    let mut at = 0;
    for time in times {
        let zeros = 2 * (time / 65_536) as usize;
        words[at..at + zeros].fill(0);
        words[at + zeros..at + zeros + 2].copy_from_slice(&((time % 65_536) as u16).to_be_bytes());
        at += zeros + 2;
    }
    Ok(at)
}

/// Rewrites a revolution: refusals 1 to 11, 19, 13, 14, 17, 18.
#[inline(never)]
pub fn rewrite(image: &mut [u8], edition: Edition, track: u32, k: u32, duration: u32, new: &[u8]) -> Result<(), Refused> {
    let table = open(image, edition)?;
    let found = find(image, &table, track, k)?;
    check_flux(new)?;
    if new.len() as u64 / 2 > found.words.into() {
        return Err((17, 0));
    }
    let entry = u64::from(table[track as usize]);
    if shared(image, edition, &table, (track as usize, k as usize), found) {
        return Err((18, 0));
    }
    let fields = (entry + 4 + 12 * u64::from(k)) as usize;
    let place = found.place as usize;
    let mut sum = le32(image, 12);
    sum = replace(image, fields, &duration.to_le_bytes(), sum);
    sum = replace(image, fields + 4, &(new.len() as u32 / 2).to_le_bytes(), sum);
    sum = replace(image, place, new, sum);
    if image[8] & 0x10 == 0 {
        image[12..16].copy_from_slice(&sum.to_le_bytes());
    }
    Ok(())
}

/// Puts bytes, and moves the sum by the change.
fn replace(image: &mut [u8], place: usize, new: &[u8], sum: u32) -> u32 {
    let old = &mut image[place..place + new.len()];
    let moved = sum.wrapping_sub(byte_sum(old)).wrapping_add(byte_sum(new));
    old.copy_from_slice(new);
    moved
}

fn meets(a: Extent, b: Extent) -> bool {
    a.0 < b.1 && b.0 < a.1 && a.0 < a.1 && b.0 < b.1
}

/// Whether a byte that a rewrite of the revolution stands on is claimed by others, or twice by itself.
fn shared(image: &[u8], edition: Edition, table: &[u32; 168], (track, k): (usize, usize), found: Revolution) -> bool {
    let revolutions = usize::from(image[5]);
    let at = u64::from(table[track]) + 4 + 12 * k as u64;
    let numbers = (at, at + 8);
    let flux = (found.place, found.place + 2 * u64::from(found.words));
    let hit = |claim: Extent| meets(numbers, claim) || meets(flux, claim);
    let size = 4 + 12 * revolutions as u64;
    let of_track = |(other, &entry): (usize, &u32)| {
        let entry = u64::from(entry);
        let header = match other == track {
            true => hit((entry, numbers.0)) || hit((numbers.1, entry + size)),
            false => hit((entry, entry + size)),
        };
        let of_revolution = |(j, record): (usize, &[u8])| {
            let other_flux = of_record(entry, record);
            (other, j) != (track, k) && hit((other_flux.place, other_flux.place + 2 * u64::from(other_flux.words)))
        };
        header || image[entry as usize + 4..][..12 * revolutions].chunks_exact(12).enumerate().any(of_revolution)
    };
    let strings = || {
        let footer = image.len() - 48;
        let of_string = |string: usize| {
            let offset = le32(image, footer + 4 * string) as usize;
            offset != 0 && {
                let size = u64::from(image[offset]) + 256 * u64::from(image[offset + 1]);
                hit((offset as u64, offset as u64 + 3 + size))
            }
        };
        hit((footer as u64, footer as u64 + 48)) || (0..6).any(of_string)
    };
    meets(numbers, flux)
        || hit((0, table_end(edition) as u64))
        || table.iter().enumerate().filter(|(_, &entry)| entry != 0).any(of_track)
        || has_footer(image, edition) && strings()
}

/// A plain read of the memory: all its 64-bit words, added.
#[inline(never)]
pub fn read_memory(bytes: &[u8]) -> u64 {
    let word = |chunk: &[u8]| u64::from_le_bytes(chunk.try_into().expect("eight bytes"));
    bytes.chunks_exact(8).fold(0, |sum, chunk| sum.wrapping_add(word(chunk)))
}
