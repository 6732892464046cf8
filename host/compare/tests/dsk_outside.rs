//! DSK images that other programs made: what those programs say of every sector, library and reader answer too. `outside/dsk/README.md`
//! tells where the values come from.

mod dsk_rows;

use dsk_reader as reader;
use dsk_rows::{by_library, by_reader, fnv1a, Row};
use scp_compare::dsk_cases::agree;
use std::collections::BTreeMap;
use std::path::Path;

const FOLDER: &str = "outside/dsk";

/// The one image that its own program reads differently.
const OTHER: &str = "other-2x8192";

/// The image with status bytes, by which four of its sectors have a data error.
const MARKED: &str = "st-6x256";

/// The images that floptool does not convert.
const NOT_CONVERTED: [&str; 3] = ["n1-29x256", "n6-1x8192", OTHER];

fn text(file: &str) -> String {
    std::fs::read_to_string(Path::new(FOLDER).join(file)).unwrap_or_else(|error| panic!("{file}: {error}"))
}

fn image(name: &str) -> Vec<u8> {
    std::fs::read(Path::new(FOLDER).join(format!("{name}.dsk"))).unwrap_or_else(|error| panic!("{name}: {error}"))
}

/// The images of the folder: those that are accepted, or those that are not.
fn names(accepted: bool) -> Vec<String> {
    let files = std::fs::read_dir(FOLDER).expect("the folder is there").map(|file| file.unwrap().file_name().into_string().unwrap());
    let mut names: Vec<String> = files.filter_map(|file| file.strip_suffix(".dsk").map(str::to_string)).collect();
    names.retain(|name| name.starts_with("bad-") != accepted);
    names.sort();
    names
}

/// The rows of the table below a heading of the README, by the name in their first column.
fn table(heading: &str) -> BTreeMap<String, Vec<String>> {
    let readme = text("README.md");
    let part = readme.split("\n## ").find(|part| part.starts_with(heading)).expect("the README has the heading");
    let lines = part.lines().filter(|line| line.starts_with('|')).skip(2);
    let rows = lines.map(|line| line.split('|').map(|cell| cell.trim().to_string()).collect::<Vec<String>>());
    rows.map(|cells| (cells[1].clone(), cells[2..].to_vec())).collect()
}

/// The sectors that a file lists, by track, side and index.
fn listed(file: &str) -> Vec<Row> {
    let row = |line: &str| {
        let (numbers, hash) = line.rsplit_once(' ').expect("a line has nine values");
        let numbers: Vec<u32> = numbers.split(' ').map(|number| number.parse().unwrap()).collect();
        let [track, side, index, c, h, r, n, length] = numbers[..] else { panic!("{file}: {line}") };
        let hash = u64::from_str_radix(hash, 16).unwrap();
        Row { at: [track, side, index], identity: [c, h, r, n].map(|byte| byte as u8), length: length.into(), hash }
    };
    let mut rows: Vec<Row> = text(file).lines().map(row).collect();
    rows.sort();
    rows
}

/// What the programs say of the sectors; of code 6 the first 0x1800 bytes.
fn due(name: &str) -> Vec<Row> {
    let short = format!("{name}.sectors6144");
    match Path::new(FOLDER).join(&short).exists() {
        true => listed(&short),
        false => listed(&format!("{name}.sectors")),
    }
}

#[test]
fn every_sector_is_as_the_other_programs_have_it() {
    let names = names(true);
    assert!(names.len() >= 20, "{names:?}");
    for name in names.iter().filter(|name| *name != OTHER) {
        let (image, due) = (image(name), due(name));
        assert!(!due.is_empty(), "{name}");
        assert_eq!(by_library(&image), due, "{name}");
        assert_eq!(by_reader(&image), due, "{name}");
    }
}

#[test]
fn floptool_finds_the_same_sectors() {
    let text = text("floptool.txt");
    let told: BTreeMap<&str, &str> = text.lines().map(|line| line.split_once(": ").expect("a line has a name")).collect();
    assert_eq!(told.keys().copied().collect::<Vec<_>>(), names(true));
    for (name, line) in told {
        if NOT_CONVERTED.contains(&name) {
            assert!(line.starts_with("does not convert it: "), "{name}: {line}");
            continue;
        }
        let (all, bad) = (listed(&format!("{name}.sectors")).len(), if name == MARKED { 4 } else { 0 });
        let (sectors, others) = (format!("{all} sectors: {} the same, 0 with other data", all - bad), "0 not found, 0 more");
        assert_eq!(line, format!("{sectors}, {bad} with a bad CRC or cut, {others}; 0 tracks with another list"), "{name}");
    }
}

#[test]
fn geometry_gap_and_filler_are_as_the_readme_says() {
    let (table, readme) = (table("Images"), text("README.md"));
    assert_eq!(table.keys().cloned().collect::<Vec<_>>(), names(true));
    for (name, cells) in table {
        let image = image(&name);
        let geometry = dsk::geometry(&image).unwrap();
        for track in 0..geometry.tracks {
            for side in 0..geometry.sides {
                let block = dsk::block(&image, track.into(), side.into()).unwrap();
                let told = format!("{} x {} x {} x {}", geometry.tracks, geometry.sides, block.sectors, 128 << block.size_code);
                assert_eq!([image.len().to_string(), told, block.gap.to_string()], [&*cells[0], &*cells[1], &*cells[3]], "{name}");
                assert!(readme.contains(&format!("The filler is {:#04X} in all images.", block.filler)), "{name}");
            }
        }
    }
}

/// The status bytes ST1 and ST2 of every sector, by the library.
fn statuses(image: &[u8]) -> Vec<([u32; 3], [u8; 2])> {
    let status = |Row { at: [track, side, index], .. }| {
        let sector = dsk::sector(image, track, side, index).unwrap();
        ([track, side, index], [sector.status1, sector.status2])
    };
    by_library(image).into_iter().map(status).collect()
}

#[test]
fn status_bytes_are_the_marks_of_the_other_program() {
    let marked = |line: &str| {
        let numbers: Vec<u32> = line.split(' ').map(|number| number.parse().unwrap()).collect();
        let [track, side, index, mark] = numbers[..] else { panic!("{line}") };
        ([track, side, index], [0, [0, 0x40, 0x20, 0x60][mark as usize / 2]])
    };
    let marks: Vec<_> = text(&format!("{MARKED}.marks")).lines().map(marked).collect();
    assert_eq!(statuses(&image(MARKED)), marks);
    for name in names(true).iter().filter(|name| *name != MARKED) {
        assert!(statuses(&image(name)).iter().all(|&(_, status)| status == [0, 0]), "{name}");
    }
}

#[test]
fn sectors_of_code_6_follow_each_other_after_0x1800_bytes() {
    let (image, whole, cut) = (image(OTHER), listed(&format!("{OTHER}.sectors")), due(OTHER));
    let found = by_library(&image);
    assert_eq!(by_reader(&image), found);
    assert_eq!(found[0], cut[0]);
    assert_eq!((found.len(), found[1]), (2, Row { hash: found[1].hash, ..cut[1] }));
    // what the other program has as its sectors, of 0x2000 bytes each
    let (first, second) = (&image[512..][..0x2000], &image[512 + 0x2000..][..0x2000]);
    assert_eq!([fnv1a(first), fnv1a(second)], [whole[0].hash, whole[1].hash]);
    assert_eq!(dsk::data(&image, 0, 0, 1).unwrap(), [&first[0x1800..], &second[..0x1000]].concat());
}

#[test]
fn what_is_not_accepted_is_refused_as_the_readme_says() {
    let table = table("Not accepted");
    assert_eq!(table.keys().cloned().collect::<Vec<_>>(), names(false));
    for (name, cells) in table {
        let image = image(&name);
        let (number, block) = cells[2].split_once(", block ").unwrap_or((&cells[2], "0"));
        let due = (number.parse().unwrap(), block.parse().unwrap());
        let by_library = dsk::validate(&image).unwrap_err();
        let by_reader = reader::validate(&image).unwrap_err();
        assert_eq!((u32::from(by_library.reason.number()), by_library.position), due, "{name}");
        assert_eq!((by_reader.number, by_reader.position), due, "{name}");
        assert_eq!(image.len().to_string(), cells[0], "{name}");
    }
}

#[test]
fn every_question_is_answered_alike() {
    for name in names(true).into_iter().chain(names(false)) {
        agree(&name, &image(&name));
    }
}
