//! DSK images that the library writes are those that other programs read, and have the sectors that those handed back.
//! `outside/dsk_written/README.md` tells what was run.

mod dsk_rows;

use dsk::Layout;
use dsk_rows::{by_library, by_reader, fnv1a, Row};
use std::collections::BTreeMap;
use std::path::Path;

const FOLDER: &str = "outside/dsk_written";

/// The images that libdsk, floptool and Fuse do not read.
const NOT_READ: [&[&str]; 3] = [
    &["1x1x0x128", "3x2x0x512"],
    &["1x1x15x4096", "1x1x29x2048", "255x1x2x128", "255x2x29x128", "80x2x18x512", "86x1x2x128"],
    &["1x1x15x4096", "1x1x29x2048", "255x1x2x128", "255x2x29x128", "2x1x29x128", "84x2x2x128", "86x1x2x128"],
];

/// The images that are stored whole.
const STORED: [&str; 5] = ["1x1x0x128", "1x1x1x128", "2x1x29x128", "2x2x2x256", "3x2x0x512"];

/// The images of other programs that have sectors numbered from 1, with their own track and side and status bytes 0.
const REGULAR: [&str; 8] =
    ["blank-4x512-2s", "fuse-6x512-2s", "fuse-9x128", "n0-16x128", "n1-29x256", "n2-8x512-2s-ob", "n5-1x4096-2s", "pad-9x128"];

/// What is to be written.
struct Case {
    creator: [u8; 14],
    layout: Layout,
    data: Vec<u8>,
}

impl Case {
    /// A line of `layouts.txt`: the layout, the seed of the data (0: the filler alone) and the creator.
    fn of_line(line: &str) -> (String, Case) {
        let words: Vec<&str> = line.split(' ').collect();
        let [name, numbers @ .., creator] = &words[..] else { panic!("{line}") };
        let numbers: Vec<u32> = numbers.iter().map(|number| number.parse().unwrap()).collect();
        let [tracks, sides, sectors, size_code, gap, filler, seed] = numbers[..] else { panic!("{line}") };
        let layout = Layout { tracks, sides, sectors, size_code, gap, filler };
        let length = layout.data_size().unwrap();
        let data = if seed == 0 { vec![filler as u8; length] } else { noise(seed, length) };
        let mut padded = [0; 14];
        let creator = if *creator == "-" { "" } else { creator };
        padded[..creator.len()].copy_from_slice(creator.as_bytes());
        (name.to_string(), Case { creator: padded, layout, data })
    }

    /// The image, by the library.
    fn write(&self) -> Vec<u8> {
        let mut image = vec![0x5A; self.layout.image_size().unwrap()];
        assert_eq!(dsk::write(&self.creator, self.layout, &self.data, &mut image), Ok(image.len()));
        image
    }

    /// The sectors that went in.
    fn rows(&self) -> Vec<Row> {
        let Layout { sides, sectors, size_code, .. } = self.layout;
        let row = |(number, data): (usize, &[u8])| {
            let (block, index) = (number as u32 / sectors, number as u32 % sectors);
            let at = [block / sides, block % sides, index];
            let identity = [at[0], at[1], index + 1, size_code].map(|number| number as u8);
            Row { at, identity, length: data.len() as u64, hash: fnv1a(data) }
        };
        self.data.chunks(128 << size_code).enumerate().map(row).collect()
    }
}

/// The same bytes for the same seed, as `make` of the other folder has them.
fn noise(seed: u32, length: usize) -> Vec<u8> {
    let next = |x: &u32| Some(x.wrapping_mul(1_664_525).wrapping_add(1_013_904_223));
    std::iter::successors(Some(seed), next).skip(1).take(length).map(|x| (x >> 24) as u8).collect()
}

fn text(file: &str) -> String {
    std::fs::read_to_string(Path::new(FOLDER).join(file)).unwrap_or_else(|error| panic!("{file}: {error}"))
}

/// What is to be written, by name.
fn cases() -> BTreeMap<String, Case> {
    text("layouts.txt").lines().map(Case::of_line).collect()
}

/// What the other programs read, by name: the length and the FNV-1a of the image, and for libdsk, floptool and Fuse that of the sectors that
/// each handed back.
fn read() -> BTreeMap<String, (usize, u64, [Option<u64>; 3])> {
    let hash = |word: &str| u64::from_str_radix(word, 16).ok();
    let line = |line: &str| {
        let words: Vec<&str> = line.split(' ').collect();
        let [name, length, image, programs @ ..] = &words[..] else { panic!("{line}") };
        let programs: [&str; 3] = programs.try_into().unwrap();
        (name.to_string(), (length.parse().unwrap(), hash(image).unwrap(), programs.map(hash)))
    };
    text("read.txt").lines().map(line).collect()
}

/// The FNV-1a of the lines that the other folder has for such sectors.
fn listed(rows: &[Row]) -> u64 {
    let line = |row: &Row| {
        let ([track, side, index], [c, h, r, n]) = (row.at, row.identity);
        format!("{track} {side} {index} {c} {h} {r} {n} {} {:016x}\n", row.length, row.hash)
    };
    fnv1a(rows.iter().map(line).collect::<String>().as_bytes())
}

#[test]
fn every_image_is_the_one_that_the_other_programs_read() {
    let (cases, read) = (cases(), read());
    assert!(cases.len() >= 24 && cases.keys().eq(read.keys()));
    for (name, case) in cases {
        let image = case.write();
        assert_eq!((image.len(), fnv1a(&image)), (read[&name].0, read[&name].1), "{name}");
    }
}

#[test]
fn every_stored_image_is_written_again() {
    let cases = cases();
    let files = std::fs::read_dir(FOLDER).expect("the folder is there").map(|file| file.unwrap().file_name().into_string().unwrap());
    let mut names: Vec<String> = files.filter_map(|file| file.strip_suffix(".dsk").map(str::to_string)).collect();
    names.sort();
    assert_eq!(names, STORED);
    for name in names {
        assert!(std::fs::read(Path::new(FOLDER).join(format!("{name}.dsk"))).unwrap() == cases[&name].write(), "{name}");
    }
}

#[test]
fn every_sector_is_as_the_other_programs_handed_it_back() {
    let read = read();
    for (name, case) in cases() {
        let (image, due) = (case.write(), case.rows());
        assert_eq!(by_library(&image), due, "{name}");
        // the reader judges the whole image anew for each sector
        if due.len() < 10_000 {
            assert_eq!(by_reader(&image), due, "{name}");
        }
        for (program, not_read) in NOT_READ.into_iter().enumerate() {
            let back = if not_read.contains(&&*name) { None } else { Some(listed(&due)) };
            assert_eq!(read[&name].2[program], back, "{name}, program {program}");
        }
    }
}

/// The same layout, creator and data as an image has.
fn case_of(image: &[u8]) -> Case {
    let (geometry, block) = (dsk::geometry(image).unwrap(), dsk::block(image, 0, 0).unwrap());
    let layout = Layout {
        tracks: geometry.tracks.into(),
        sides: geometry.sides.into(),
        sectors: block.sectors.into(),
        size_code: block.size_code.into(),
        gap: block.gap.into(),
        filler: block.filler.into(),
    };
    let data = by_library(image).iter().flat_map(|row| dsk::data(image, row.at[0], row.at[1], row.at[2]).unwrap()).copied().collect();
    Case { creator: image[0x22..0x30].try_into().unwrap(), layout, data }
}

#[test]
fn images_of_other_programs_are_written_alike() {
    for name in REGULAR {
        let mut image = std::fs::read(format!("outside/dsk/{name}.dsk")).unwrap_or_else(|error| panic!("{name}: {error}"));
        let case = case_of(&image);
        // libdsk notes the data rate and the density of each track, and in one image more bytes follow the last block
        if !name.starts_with("fuse-") {
            let size = dsk::geometry(&image).unwrap().track_size.into();
            for block in image[256..].chunks_exact_mut(size) {
                assert!(block[0x12] != 0 && block[0x13] != 0, "{name}");
                block[0x12..0x14].fill(0);
            }
        }
        let written = case.write();
        assert!(image.starts_with(&written), "{name}");
        assert_eq!(image.len() - written.len(), if name == "pad-9x128" { 128 } else { 0 }, "{name}");
    }
}
