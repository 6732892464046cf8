//! Images by chance, laid out for either edition: valid ones of every shape, and faults put into them.

use crate::image::{
    duration_at, entry_at, footer_bytes, number_at, set, store_checksum, FooterPart, Layout, Parts, Placed, RevolutionPart, TrackPart,
    FOOTER_SIZE,
};
use crate::random::Random;
use crate::text;
use scp::Edition;

/// The most revolutions of all tracks together: four tracks of 255, or all tracks of six.
const MOST_RECORDS: usize = 1020;

/// An image by chance: valid by the edition that it is laid out for, or with a fault or several.
pub fn image(random: &mut Random) -> Vec<u8> {
    let parts = parts(random);
    let mut placed = parts.build(random);
    if random.once_in(2) {
        overlap(&parts, &mut placed, random);
        store_checksum(&mut placed.image);
    }
    let faults = random.pick(&[0, 0, 0, 1, 1, 1, 1, 2]);
    for _ in 0..faults {
        spoil(&parts, &mut placed, random);
    }
    if faults > 0 && random.once_in(2) {
        store_checksum(&mut placed.image);
    }
    placed.image
}

/// Parts of a valid image.
pub fn parts(random: &mut Random) -> Parts {
    let edition = random.pick(&Edition::ALL);
    let read_write = random.once_in(5);
    let revolutions = if read_write { 1 } else { revolutions(random) };
    let heads = random.pick(&[0, 0, 0, 1, 2]);
    let footer = random.once_in(2).then(|| footer(random));
    let flagged = if edition.has_footer() { footer.is_some() } else { random.once_in(2) };
    let mut flags = random.byte() & 0xCF;
    flags |= 0x10 * u8::from(read_write) + 0x20 * u8::from(flagged);
    let (start, end) = span(edition, random);
    let numbers = numbers(random, start, end, heads, MOST_RECORDS / usize::from(revolutions));
    let tracks = numbers.into_iter().map(|number| track(random, number, revolutions)).collect();
    let trailer = if random.once_in(3) { b"01/02/2026 12:34:56 PM".to_vec() } else { Vec::new() };
    let layout = random.pick(&[Layout::InOrder, Layout::Gaps, Layout::Shuffled]);
    let width = random.pick(&[0, 16]);
    let (version, disk) = (random.byte(), random.byte());
    Parts { edition, version, disk, revolutions, start, end, flags, width, heads, tracks, footer, trailer, layout }
}

/// How many revolutions a track has: mostly a few, now and then many.
fn revolutions(random: &mut Random) -> u8 {
    match random.below(16) {
        0 => random.pick(&[6, 9, 127, 128, 200, 254, 255, 255]),
        1 => random.between(1, 255) as u8,
        _ => random.pick(&[1, 1, 2, 3, 4, 5, 6]),
    }
}

/// Start and end track: few or all, of this edition or of either.
fn span(edition: Edition, random: &mut Random) -> (u8, u8) {
    let last = random.pick(&[edition, Edition::V1_4]).tracks() as u8 - 1;
    let start = random.pick(&[0, 0, 0, 1, 80, last - 1, last]);
    let end = start.saturating_add(random.pick(&[0, 1, 3, 7, 20, last])).min(last);
    (start, end)
}

/// The numbers of the tracks that are there: none, a few, or all that may be, at most so many.
fn numbers(random: &mut Random, start: u8, end: u8, heads: u8, most: usize) -> Vec<u8> {
    let held = |number: &u8| heads == 0 || u8::from(heads == 2) == number % 2;
    let rarity = random.pick(&[1, 2, 2, 4, 30]);
    let mut numbers: Vec<u8> = (start..=end).filter(held).collect();
    let kept = if numbers.len() > 12 && !random.once_in(40) { 6.min(most) } else { most };
    if numbers.len() > kept {
        random.shuffle(&mut numbers);
        numbers.truncate(kept);
        numbers.sort_unstable();
    }
    numbers.retain(|_| random.once_in(rarity));
    numbers
}

/// A track with its revolutions.
fn track(random: &mut Random, number: u8, revolutions: u8) -> TrackPart {
    let revolution = |random: &mut Random| RevolutionPart { duration: duration(random), words: words(random, 12) };
    TrackPart { number, revolutions: (0..revolutions).map(|_| revolution(random)).collect() }
}

/// A duration: none, usual, or any.
pub fn duration(random: &mut Random) -> u32 {
    match random.below(4) {
        0 => 0,
        1 => 8_000_000 + random.below(2000) as u32 - 1000,
        _ => random.edgy32(),
    }
}

/// Up to so many words, zeros among them.
pub fn words(random: &mut Random, most: usize) -> Vec<u16> {
    let zeros = random.pick(&[1, 2, 5, 1000]);
    let count = random.between(0, most);
    let word = |random: &mut Random| match random.once_in(zeros) {
        true => 0,
        false => random.pick(&[1, 3, 80, 160, 0x0140, 0x7FFF, 0x8000, 0xFF00, 0x00FF, 0xFFFF]),
    };
    (0..count).map(|_| word(random)).collect()
}

/// A footer with strings, once in a long while of the greatest length.
fn footer(random: &mut Random) -> FooterPart {
    let longest = random.once_in(2000);
    let string = |random: &mut Random| {
        let size = if longest { 65_535 } else { text::size(random) };
        random.once_in(2).then(|| text::well_formed(size, random))
    };
    let time = |random: &mut Random| random.pick(&[0, -1, 1, 255, 1_700_000_000, i64::MIN, i64::MAX]);
    let format = random.pick(&[0x16, 0x16, 0x17, 0xFF]);
    FooterPart {
        strings: std::array::from_fn(|_| string(random)),
        created: time(random),
        modified: time(random),
        versions: [random.byte(), random.byte(), random.byte(), format],
    }
}

// ---- overlaps that the rules allow

/// Lets a part overlap another where that leaves the image openable by an edition, or nearly so.
fn overlap(parts: &Parts, placed: &mut Placed, random: &mut Random) {
    for _ in 0..random.between(1, 3) {
        match random.below(14) {
            0 | 1 => share_string(parts, placed, random),
            2 => header_in_header(parts, placed, random),
            3..=5 => string_in_flux(parts, placed, random),
            6 => string_in_duration(parts, placed, random),
            7 => move_header(parts, placed, random),
            8 => feign_footer(&mut placed.image, random),
            _ => move_flux(parts, placed, random),
        }
    }
}

/// A track and a revolution that are there, now and then its last.
fn some_revolution(parts: &Parts, random: &mut Random) -> Option<(usize, usize)> {
    if parts.tracks.is_empty() {
        return None;
    }
    let track = random.below(parts.tracks.len());
    let revolutions = parts.tracks[track].revolutions.len();
    Some((track, if random.once_in(4) { revolutions - 1 } else { random.below(revolutions) }))
}

/// Where the data end: with the image or, where a footer is flagged, by the one edition with the image and by the other before the footer.
fn data_end(image: &[u8], random: &mut Random) -> usize {
    let flagged = image.get(8).is_some_and(|flags| flags & 0x20 != 0);
    image.len().saturating_sub(if flagged { random.pick(&[0, FOOTER_SIZE]) } else { 0 })
}

/// Puts the flux of a revolution elsewhere: onto that of another, onto a header, onto the start or the end of a string, to the end, or
/// anywhere above its header.
fn move_flux(parts: &Parts, placed: &mut Placed, random: &mut Random) {
    let Some((track, revolution)) = some_revolution(parts, random) else { return };
    let Some((other, other_revolution)) = some_revolution(parts, random) else { return };
    let header = placed.headers[track];
    let size = 2 * parts.tracks[track].revolutions[revolution].words.len();
    let end = data_end(&placed.image, random);
    let place = match (random.below(8), some_text(&placed.image, random)) {
        (0, _) => placed.flux[other][other_revolution],
        (1, _) => placed.headers[other] + random.below(8 + 12 * usize::from(parts.revolutions)),
        (2, _) => end - size.min(end),
        (3, _) => (placed.flux[other][other_revolution] + 2).saturating_sub(2 * random.below(3)),
        (4, _) => duration_at(header, revolution) + random.below(13),
        (5, Some((text, _))) => (text + random.below(12)).saturating_sub(size),
        (6, Some((text, length))) => text + length + 1 - random.below(3),
        _ => random.between(parts.edition.table_end(), placed.image.len()),
    };
    if header <= place {
        placed.flux[track][revolution] = place;
        set(&mut placed.image, duration_at(header, revolution) + 8, &((place - header) as u32).to_le_bytes());
    }
}

/// Puts a track data header elsewhere: where the table of an edition ends or a little before, to the end of the data or a byte past it, or
/// among the last bytes.
fn move_header(parts: &Parts, placed: &mut Placed, random: &mut Random) {
    let Some((track, _)) = some_revolution(parts, random) else { return };
    let size = duration_at(0, parts.revolutions.into());
    let last = data_end(&placed.image, random).saturating_sub(size);
    let table_end = random.pick(&Edition::ALL).table_end();
    let place = match random.below(5) {
        0 => random.between(table_end - 12, table_end - 1),
        1 => random.between(table_end - 1, table_end + 1),
        2 => last,
        3 => last + 1,
        _ => placed.image.len().saturating_sub(size + random.below(FOOTER_SIZE)),
    };
    put_header(parts, placed, track, place, random);
}

/// Puts the data header of a track at a place, with the flux that it had or, where that lies lower, with a word or two of its own.
fn put_header(parts: &Parts, placed: &mut Placed, track: usize, place: usize, random: &mut Random) {
    let TrackPart { number, revolutions } = &parts.tracks[track];
    set(&mut placed.image, entry_at((*number).into()), &(place as u32).to_le_bytes());
    set(&mut placed.image, place, &[b'T', b'R', b'K', *number]);
    placed.headers[track] = place;
    let end = placed.image.len();
    for (revolution, part) in revolutions.iter().enumerate() {
        let (mut flux, mut count) = (placed.flux[track][revolution], part.words.len());
        if flux < place {
            count = random.below(3);
            flux = random.between(place, end.saturating_sub(2 * count).max(place));
        }
        let record = [part.duration, count as u32, (flux - place) as u32].map(u32::to_le_bytes).concat();
        set(&mut placed.image, duration_at(place, revolution), &record);
        placed.flux[track][revolution] = flux;
    }
}

/// Has a string of the footer lie in the flux of a revolution, mostly from its first byte to its last; now and then its closing zero is
/// another byte.
fn string_in_flux(parts: &Parts, placed: &mut Placed, random: &mut Random) {
    let Some((track, revolution)) = some_revolution(parts, random) else { return };
    let room = 2 * parts.tracks[track].revolutions[revolution].words.len();
    if parts.footer.is_none() || room < 4 {
        return;
    }
    let size = if random.once_in(3) { random.between(3, room) } else { room };
    let place = placed.flux[track][revolution] + random.between(0, room - size);
    let mut bytes = string_bytes(size, random);
    if random.once_in(3) {
        bytes[size - 1] = random.byte();
    }
    set(&mut placed.image, place, &bytes);
    put_string(&mut placed.image, place, random);
}

/// Has a string of the footer, of one letter, lie in the duration of a revolution.
fn string_in_duration(parts: &Parts, placed: &mut Placed, random: &mut Random) {
    let Some((track, revolution)) = some_revolution(parts, random) else { return };
    if parts.footer.is_none() {
        return;
    }
    let place = duration_at(placed.headers[track], revolution);
    set(&mut placed.image, place, &string_bytes(4, random));
    put_string(&mut placed.image, place, random);
}

/// Gives one of the six strings of the footer this place.
fn put_string(image: &mut [u8], place: usize, random: &mut Random) {
    let Some(footer) = image.len().checked_sub(FOOTER_SIZE) else { return };
    set(image, footer + 4 * random.below(6), &(place as u32).to_le_bytes());
}

/// A string that takes so many bytes, at least 3.
fn string_bytes(size: usize, random: &mut Random) -> Vec<u8> {
    string_of(&text::well_formed(size - 3, random))
}

/// Words for a rewrite that take so many bytes, at least 4, and are a string; now and then its text is ill-formed.
pub fn string_words(size: usize, random: &mut Random) -> Vec<u8> {
    if random.once_in(3) {
        return string_of(&text::ill_formed(size - 3, random));
    }
    string_bytes(size, random)
}

/// The string of a text: its length, its bytes and a zero.
fn string_of(text: &[u8]) -> Vec<u8> {
    [&(text.len() as u16).to_le_bytes(), text, &[0]].concat()
}

/// Makes a footer of the last bytes, whatever they are: its sign and its version, and now and then that it has no strings.
fn feign_footer(image: &mut [u8], random: &mut Random) {
    let Some(footer) = image.len().checked_sub(FOOTER_SIZE) else { return };
    image[8] |= 0x20;
    set(image, footer + 0x2B, b"\x16FPCS");
    if random.once_in(2) {
        set(image, footer, &[0; 24]);
    }
}

/// Gives two strings the same place, or a string the place of something else.
fn share_string(parts: &Parts, placed: &mut Placed, random: &mut Random) {
    if parts.footer.is_none() {
        return;
    }
    let footer = placed.image.len() - FOOTER_SIZE;
    let (from, to) = (footer + 4 * random.below(6), footer + 4 * random.below(6));
    let mut offset = number_at(&placed.image, from);
    if random.once_in(4) {
        offset = random.between(parts.edition.table_end(), footer) as u32;
    }
    set(&mut placed.image, to, &offset.to_le_bytes());
}

/// Puts a track data header inside that of another track: a duration that reads "TRK" and the number.
fn header_in_header(parts: &Parts, placed: &mut Placed, random: &mut Random) {
    let Some((track, revolution)) = some_revolution(parts, random) else { return };
    let Some((other, _)) = some_revolution(parts, random) else { return };
    let place = duration_at(placed.headers[track], revolution);
    set(&mut placed.image, place, &[b'T', b'R', b'K', parts.tracks[other].number]);
    let entry = entry_at(parts.tracks[other].number.into());
    set(&mut placed.image, entry, &(place as u32).to_le_bytes());
}

// ---- faults

/// Puts one fault of some kind into the image; some leave it valid.
fn spoil(parts: &Parts, placed: &mut Placed, random: &mut Random) {
    match random.below(if parts.footer.is_some() { 17 } else { 15 }) {
        0 => resize(&mut placed.image, random),
        1 => spoil_byte(&mut placed.image, 0, 3, random),
        2 => spoil_field(&mut placed.image, 9, &[1, 15, 16, 17, 32, 255], random),
        3 => spoil_field(&mut placed.image, 5, &[0, 1, 2, 5, 6, 254, 255], random),
        4 => spoil_span(&mut placed.image, random),
        5 => spoil_field(&mut placed.image, 10, &[0, 1, 2, 3, 255], random),
        6 => spoil_footer(&mut placed.image, random),
        7 => spoil_string(parts.edition, &mut placed.image, random),
        8 => spoil_entry(parts.edition, &mut placed.image, random),
        9 => spoil_track(parts, placed, random),
        10 => spoil_revolution(parts, placed, random),
        11 => spoil_field(&mut placed.image, 12 + random.below(4), &[0, 1, 255], random),
        12 => flip_flag(&mut placed.image, random),
        13 => bare(&mut placed.image, random),
        14 => flip_bytes(&mut placed.image, random),
        _ => spoil_text(parts, placed, random),
    }
}

/// Another length: at an edge, a byte more or less, or any.
fn resize(image: &mut Vec<u8>, random: &mut Random) {
    let now = image.len();
    let edges = [0, 1, 16, 735, 736, 737, now.saturating_sub(1), now.saturating_sub(FOOTER_SIZE), now + 1, now + FOOTER_SIZE];
    let size = match random.below(6) {
        0 | 1 => random.below(now + 2),
        2 | 3 => near_table_ends(random),
        _ => random.pick(&edges),
    };
    image.resize(size, 0);
}

/// A length from a byte below the end of the one edition's table to a byte above that of the other's.
fn near_table_ends(random: &mut Random) -> usize {
    let [low, high] = Edition::ALL.map(Edition::table_end);
    random.between(low - 1, high + 1)
}

/// Changes one of n bytes from a place on.
pub fn spoil_byte(image: &mut [u8], place: usize, n: usize, random: &mut Random) {
    let at = place + random.below(n);
    if let Some(byte) = image.get_mut(at) {
        *byte ^= 1 << random.below(8);
    }
}

/// Sets a byte to one of the values.
pub fn spoil_field(image: &mut [u8], place: usize, values: &[u8], random: &mut Random) {
    set(image, place, &[random.pick(values)]);
}

/// Other start and end tracks.
fn spoil_span(image: &mut [u8], random: &mut Random) {
    let edges = [0, 1, 2, 5, 6, 80, 164, 165, 166, 167, 168, 255];
    let span = [random.pick(&edges), random.pick(&edges)];
    set(image, 6, &span);
}

/// A footer without its sign or too old, or one that is flagged and not there.
fn spoil_footer(image: &mut [u8], random: &mut Random) {
    let Some(footer) = image.len().checked_sub(FOOTER_SIZE) else { return };
    match random.below(4) {
        0 => spoil_byte(image, footer + 44, 4, random),
        1 => spoil_field(image, footer + 0x2B, &[0, 0x15, 0x16, 0x17], random),
        2 => set(image, 8, &[0x20]),
        _ => spoil_byte(image, footer, FOOTER_SIZE, random),
    }
}

/// Nothing behind the table of an edition, or a footer alone, and a byte more or fewer: no track is left.
fn bare(image: &mut Vec<u8>, random: &mut Random) {
    let footed = random.once_in(2);
    image.truncate(16);
    image.resize(near_table_ends(random) + FOOTER_SIZE * usize::from(footed), 0);
    image[8] &= 0xDF;
    if footed {
        image[8] |= 0x20;
        let footer = FooterPart { strings: Default::default(), created: 1, modified: -1, versions: [0, 0, 0, 0x16] };
        let place = image.len() - FOOTER_SIZE;
        set(image, place, &footer_bytes(&footer, &[0; 6]));
    }
}

/// A string misplaced or malformed.
fn spoil_string(edition: Edition, image: &mut [u8], random: &mut Random) {
    let Some(footer) = image.len().checked_sub(FOOTER_SIZE) else { return };
    match (random.below(5), some_text(image, random)) {
        (0, Some((place, _))) => spoil_byte(image, place - 2, 2, random),
        (1, Some((place, size))) => set(image, place + random.below(size + 1), &[0]),
        (2, Some((place, size))) => set(image, place + size, &[random.byte().max(1)]),
        _ => {
            let near = random.below(5) as u32;
            let low = edition.table_end() as u32 - 3;
            let values = [near, low + near, (footer as u32).wrapping_sub(near), footer as u32 + near, u32::MAX - near];
            let offset = random.pick(&values);
            set(image, footer + 4 * random.below(6), &offset.to_le_bytes());
        }
    }
}

/// Ill-formed text in one string or several; now and then a string that is misplaced or malformed besides, or a faulty track.
fn spoil_text(parts: &Parts, placed: &mut Placed, random: &mut Random) {
    if texts(&placed.image).iter().all(|&(_, size)| size == 0) {
        string_in_flux(parts, placed, random);
    }
    let mut texts = texts(&placed.image);
    texts.retain(|&(_, size)| size > 0);
    random.shuffle(&mut texts);
    texts.truncate(random.pick(&[1, 1, 2, 6]));
    for (place, size) in texts {
        set(&mut placed.image, place, &text::ill_formed(size, random));
    }
    match random.below(8) {
        0..=2 => spoil_string(parts.edition, &mut placed.image, random),
        3 => spoil_entry(parts.edition, &mut placed.image, random),
        4 => spoil_track(parts, placed, random),
        5 => spoil_revolution(parts, placed, random),
        _ => (),
    }
}

/// One of the texts of an image, if there is any.
fn some_text(image: &[u8], random: &mut Random) -> Option<(usize, usize)> {
    let texts = texts(image);
    (!texts.is_empty()).then(|| random.pick(&texts))
}

/// The texts of the strings that the last bytes, as a footer, name and that lie before them: the place and the size of each.
fn texts(image: &[u8]) -> Vec<(usize, usize)> {
    let Some(footer) = image.len().checked_sub(FOOTER_SIZE) else { return Vec::new() };
    let offsets = (0..6).map(|string| number_at(image, footer + 4 * string) as usize).filter(|&offset| offset != 0);
    let texts = offsets.map(|offset| (offset + 2, number_at(image, offset) as usize % 65_536));
    texts.filter(|&(place, size)| place + size < footer).collect()
}

/// An entry of the table: another value, another slot.
fn spoil_entry(edition: Edition, image: &mut [u8], random: &mut Random) {
    let slot = entry_at(random.below(edition.tracks() as usize));
    let other = entry_at(random.below(edition.tracks() as usize));
    let near = random.below(8) as u32;
    let mut value = number_at(image, other);
    if random.once_in(2) {
        let (low, end) = (edition.table_end() as u32 - 4, image.len() as u32);
        let values = [near, low + near, end.saturating_sub(near), end + near, u32::MAX - near, 1 << 31];
        value = random.pick(&values);
    }
    set(image, slot, &value.to_le_bytes());
}

/// A track's entry moved a little or far, its header with it or not, its sign or its number changed.
fn spoil_track(parts: &Parts, placed: &mut Placed, random: &mut Random) {
    let Some((track, _)) = some_revolution(parts, random) else { return };
    let header = placed.headers[track];
    let slot = entry_at(parts.tracks[track].number.into());
    let (end, low) = (placed.image.len() as u32, parts.edition.table_end() as u32);
    let near = random.below(50) as u32;
    let values =
        [header as u32 + 1, (header as u32).saturating_sub(1), end.saturating_sub(near), end + near, u32::MAX - near, low - 1, low];
    match random.below(4) {
        0 => move_header(parts, placed, random),
        1 => spoil_byte(&mut placed.image, header, 3, random),
        2 => set(&mut placed.image, header + 3, &[random.byte()]),
        _ => set(&mut placed.image, slot, &random.pick(&values).to_le_bytes()),
    }
}

/// A revolution's duration, count or distance changed: by little, to the end, or to an edge of 32 bits.
fn spoil_revolution(parts: &Parts, placed: &mut Placed, random: &mut Random) {
    let Some((track, revolution)) = some_revolution(parts, random) else { return };
    let (header, flux) = (placed.headers[track], placed.flux[track][revolution]);
    let field = duration_at(header, revolution);
    let end = data_end(&placed.image, random);
    let room = end.saturating_sub(flux) as u32 / 2;
    let away = end.saturating_sub(header) as u32;
    let counts = [0, room, room + 1, 1 << 31, (1 << 31) + 1, u32::MAX, random.edgy32()];
    let distances = [0, 1, away, away + 1, away.saturating_sub(2), u32::MAX, random.edgy32()];
    match random.below(4) {
        0 => set(&mut placed.image, field, &random.edgy32().to_le_bytes()),
        1 => set(&mut placed.image, field + 4, &random.pick(&counts).to_le_bytes()),
        2 => set(&mut placed.image, field + 8, &random.pick(&distances).to_le_bytes()),
        _ => {
            set(&mut placed.image, field + 4, &random.pick(&[0u32, 1]).to_le_bytes());
            set(&mut placed.image, field + 8, &random.pick(&distances).to_le_bytes());
        }
    }
}

/// One bit of FLAGS.
fn flip_flag(image: &mut [u8], random: &mut Random) {
    spoil_byte(image, 8, 1, random);
}

/// A few bits anywhere.
fn flip_bytes(image: &mut [u8], random: &mut Random) {
    for _ in 0..random.between(1, 6) {
        let size = image.len();
        if size > 0 {
            let part = random.pick(&[16, Edition::V1_6.table_end(), size, size]).min(size);
            spoil_byte(image, 0, part, random);
        }
    }
}
