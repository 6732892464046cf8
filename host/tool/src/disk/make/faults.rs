//! Why no image is made: which numbers break which rule, or that the data have another length, and what would fit them.

use dsk::{Layout, Refusal};

use super::options::in_words;
use crate::disk::layout::{full_size, GREATEST_WHOLE, INFORMATION, MOST_SECTORS};
use crate::faults::said;
use crate::files::at_least;
use crate::numbers::{counted, grouped};

/// How many tracks there are at most: as many as a byte can say.
const MOST_TRACKS: u32 = u8::MAX as u32;

/// The greatest size code that --size can ask for.
const GREATEST_SIZED: u32 = 24;

/// The greatest track size: what two bytes can say.
const GREATEST_TRACK: u64 = u16::MAX as u64;

/// Disks that a dump is often of: tracks, sides, sectors and size code.
const USUAL: [[u32; 4]; 12] = [
    [40, 1, 8, 2],
    [40, 1, 9, 2],
    [40, 2, 8, 2],
    [40, 2, 9, 2],
    [80, 2, 8, 2],
    [80, 2, 9, 2],
    [80, 2, 10, 2],
    [80, 2, 15, 2],
    [80, 2, 18, 2],
    [77, 1, 26, 0],
    [80, 2, 16, 1],
    [80, 2, 5, 3],
];

/// A refusal to make an image, with all that breaks the rules.
pub fn of_making(layout: Layout, data: &[u8], refusal: Refusal) -> String {
    let faults = faults(layout, data);
    said(refusal, (!faults.is_empty()).then(|| faults.join("; ")))
}

/// All that breaks the rules; none where the library makes the image. Where other numbers are wrong, the length says nothing.
fn faults(layout: Layout, data: &[u8]) -> Vec<String> {
    let (disk, block) = (of_disk(layout), of_block(layout));
    let length = if disk.is_empty() && block.is_empty() { of_length(layout, data) } else { None };
    [disk, block, of_bytes(layout)].concat().into_iter().chain(length).collect()
}

/// The numbers of tracks and sides.
fn of_disk(layout: Layout) -> Vec<String> {
    let Layout { tracks, sides, .. } = layout;
    let tracks = (!(1..=MOST_TRACKS).contains(&tracks)).then(|| format!("{}, not 1 to {MOST_TRACKS}", counted(tracks.into(), "track")));
    let sides = (!matches!(sides, 1 | 2)).then(|| format!("{}, not 1 or 2", counted(sides.into(), "side")));
    tracks.into_iter().chain(sides).collect()
}

/// The number of sectors and their size code; the track size where these are right.
fn of_block(layout: Layout) -> Vec<String> {
    let Layout { sectors, size_code, .. } = layout;
    let mut faults = Vec::new();
    if sectors > MOST_SECTORS.into() {
        faults.push(format!("{}, more than {MOST_SECTORS}", counted(sectors.into(), "sector")));
    }
    if size_code > GREATEST_WHOLE.into() {
        let [code, most] = [size_code.into(), full_size(GREATEST_WHOLE)].map(grouped);
        let own = if size_code <= GREATEST_SIZED { format!(" ({} bytes)", grouped(full_size(size_code))) } else { String::new() };
        faults.push(format!("size code {code}{own}, above {GREATEST_WHOLE} ({most} bytes)"));
    }
    if faults.is_empty() {
        faults.extend(of_track_size(layout));
    }
    faults
}

/// The track size.
fn of_track_size(layout: Layout) -> Option<String> {
    let [_, _, sectors, bytes] = in_words(layout);
    let size = INFORMATION + u64::from(layout.sectors) * full_size(layout.size_code);
    let told = |size, most| format!("a track size of {size} ({INFORMATION} + {sectors} x {bytes}), above {most}");
    (size > GREATEST_TRACK).then(|| told(grouped(size), grouped(GREATEST_TRACK)))
}

/// Gap and filler.
fn of_bytes(layout: Layout) -> Vec<String> {
    let wrong = [("gap", layout.gap), ("filler", layout.filler)].into_iter().filter(|(_, number)| *number > u8::MAX.into());
    wrong.map(|(name, number)| format!("{name} {}, above {}", grouped(number.into()), u8::MAX)).collect()
}

/// The length of the data, and which options would fit it.
fn of_length(layout: Layout, data: &[u8]) -> Option<String> {
    let due = layout.data_size().filter(|due| *due != data.len())?;
    let (found, numbers) = (counted(data.len() as u64, "byte"), in_words(layout).join(" x "));
    let hint = match either(offers(layout, data.len())) {
        Some(options) => format!(" ({options} would fit)"),
        None => String::new(),
    };
    Some(format!("{}{found} of data, not the {} of {numbers}{hint}", at_least(data), grouped(due as u64)))
}

/// The options that would make the layout one which so many bytes of data fit, each once.
fn offers(layout: Layout, size: usize) -> Vec<String> {
    let mut offers: Vec<String> = Vec::new();
    for offer in fitting(layout, size).map(|other| changes(layout, other)) {
        if !offers.contains(&offer) {
            offers.push(offer);
        }
    }
    offers
}

/// Layouts that so many bytes of data fit: with other tracks, also on the other number of sides; with other sectors; with another size; or
/// usual ones.
fn fitting(layout: Layout, size: usize) -> impl Iterator<Item = Layout> {
    let tracks = [layout.sides, 3 - layout.sides].map(|sides| (1..=MOST_TRACKS).map(move |tracks| Layout { tracks, sides, ..layout }));
    let sectors = (1..=MOST_SECTORS.into()).map(move |sectors| Layout { sectors, ..layout });
    let codes = (0..=GREATEST_WHOLE.into()).map(move |size_code| Layout { size_code, ..layout });
    let usual = USUAL.into_iter().map(move |[tracks, sides, sectors, size_code]| Layout { tracks, sides, sectors, size_code, ..layout });
    let others = tracks.into_iter().flatten().chain(sectors).chain(codes).chain(usual);
    others.filter(move |other| other.data_size() == Some(size) && of_block(*other).is_empty())
}

/// The options that make one layout the other.
fn changes(from: Layout, to: Layout) -> String {
    let numbers = |layout: Layout| {
        let Layout { tracks, sides, sectors, size_code, .. } = layout;
        [("--tracks", tracks.into()), ("--sides", sides.into()), ("--sectors", sectors.into()), ("--size", full_size(size_code))]
    };
    let changed = numbers(to).into_iter().zip(numbers(from)).filter(|(to, from)| to != from);
    changed.map(|((name, number), _)| format!("{name} {number}")).collect::<Vec<_>>().join(" ")
}

/// One or another of some words, if there are any.
fn either(mut words: Vec<String>) -> Option<String> {
    let last = words.pop()?;
    Some(if words.is_empty() { last } else { format!("{} or {last}", words.join(", ")) })
}

#[cfg(test)]
mod tests {
    use super::*;
    use dsk::Reason;

    /// The most data that an image has: 255 tracks of 2 sides with 15 sectors of 4,096 bytes.
    const MOST_DATA: usize = 255 * 2 * 15 * 4096;

    /// What the library says of making an image, which it never does, since it has no room.
    fn verdict(layout: Layout, data: &[u8]) -> Reason {
        dsk::write(&[0; 14], layout, data, &mut []).expect_err("there is no room").reason
    }

    /// Layouts of numbers at the edges of the rules.
    fn layouts() -> impl Iterator<Item = Layout> {
        let tracks = [0, 1, 2, 255, 256, u32::MAX];
        let sides = [0, 1, 2, 3, u32::MAX];
        let sectors = [0, 1, 15, 16, 29, 30, u32::MAX];
        let codes = [0, 1, 4, 5, 6, 31, 32, 57, 64, u32::MAX];
        let bytes = [(0, 255), (255, 0), (256, 0), (0, 256), (u32::MAX, u32::MAX)];
        let disks = tracks.into_iter().flat_map(move |tracks| sides.map(|sides| (tracks, sides)));
        let blocks = move || sectors.into_iter().flat_map(move |sectors| codes.map(|code| (sectors, code)));
        let both = disks.flat_map(move |disk| blocks().map(move |block| (disk, block)));
        both.flat_map(move |((tracks, sides), (sectors, size_code))| {
            bytes.map(|(gap, filler)| Layout { tracks, sides, sectors, size_code, gap, filler })
        })
    }

    #[test]
    fn there_are_faults_just_where_the_library_refuses() {
        let zeros = vec![0; MOST_DATA + 1];
        let mut met = [0, 0];
        for layout in layouts() {
            let due = layout.data_size().unwrap_or(0).min(MOST_DATA);
            for size in [0, due, due + 1, due.saturating_sub(1)] {
                let faults = faults(layout, &zeros[..size]);
                let due = if faults.is_empty() { Reason::Places } else { Reason::Layout };
                assert_eq!(verdict(layout, &zeros[..size]), due, "{layout:?} {size}: {faults:?}");
                met[usize::from(faults.is_empty())] += 1;
            }
        }
        assert!(met.iter().all(|&met| met > 100), "{met:?}");
    }

    #[test]
    fn what_would_fit_is_made() {
        let zeros = vec![0; MOST_DATA];
        let mut met = 0;
        for layout in layouts().filter(|layout| faults(*layout, &zeros[..layout.data_size().unwrap_or(0).min(MOST_DATA)]).is_empty()) {
            for size in [0, 128, 65_536, 184_320, 368_640, 737_280, MOST_DATA].into_iter().filter(|size| layout.data_size() != Some(*size))
            {
                for other in fitting(layout, size) {
                    assert_eq!(verdict(other, &zeros[..size]), Reason::Places, "{layout:?} {other:?}");
                    assert!(changes(layout, other).starts_with("--"), "{layout:?} {other:?}");
                    met += 1;
                }
            }
        }
        assert!(met > 100, "{met}");
    }

    #[test]
    fn words_are_joined() {
        let either = |words: &[&str]| either(words.iter().map(|word| word.to_string()).collect());
        for (words, text) in [(&["a"][..], "a"), (&["a", "b"], "a or b"), (&["a", "b", "c"], "a, b or c")] {
            assert_eq!(either(words).as_deref(), Some(text));
        }
        assert_eq!(either(&[]), None);
    }
}
