//! `fluxproof dsk show`.

use super::{edited, image};
use crate::bench::Bench;

/// What is shown of the example.
const SHOWN: &str = r#"image               a.dsk
size                2,304 bytes
opening             "MV - CPCEMU Disk-File\r\nDisk-Info\r\n"
creator             "example"
tracks              2
sides               2
track size          512 bytes
blocks              4
after last block    no bytes

track side block     offset sectors  N  size  gap filler  notes
    0    0     0 0x00000100       2  0   128 0x4E   0xE5  -
    0    1     1 0x00000300       2  0   128 0x4E   0xE5  -
    1    0     2 0x00000500       2  0   128 0x4E   0xE5  -
    1    1     3 0x00000700       2  0   128 0x4E   0xE5  -

track side index   C   H   R  (hex)   N  ST1  ST2     offset length  notes
    0    0     0   0   0 193 (0xC1)   0 0x00 0x00 0x00000200    128  -
    0    0     1   0   0 194 (0xC2)   0 0x20 0x40 0x00000280    128  ST1 data error, ST2 control mark
    0    1     0   0   1 193 (0xC1)   0 0x00 0x00 0x00000400    128  -
    0    1     1   0   1 194 (0xC2)   0 0x20 0x40 0x00000480    128  ST1 data error, ST2 control mark
    1    0     0   1   0 193 (0xC1)   0 0x00 0x00 0x00000600    128  -
    1    0     1   1   0 194 (0xC2)   0 0x20 0x40 0x00000680    128  ST1 data error, ST2 control mark
    1    1     0   1   1 193 (0xC1)   0 0x00 0x00 0x00000800    128  -
    1    1     1   1   1 194 (0xC2)   0 0x20 0x40 0x00000880    128  ST1 data error, ST2 control mark
"#;

/// Whether a line of the output starts with a name and then has a value.
fn has(out: &str, name: &str, value: &str) -> bool {
    out.lines().any(|line| line.trim_start().strip_prefix(name).is_some_and(|rest| rest.trim() == value))
}

/// What is shown of an image, which is refused if a refusal is due.
fn shown(bench: &Bench, image: &[u8], refused: bool) -> String {
    bench.put("b.dsk", image);
    if refused {
        bench.refuses("dsk show b.dsk")
    } else {
        bench.passes("dsk show b.dsk")
    }
}

#[test]
fn the_example_is_shown() {
    let bench = Bench::with_disk();
    assert_eq!(bench.passes("dsk show a.dsk"), SHOWN);
    let run = bench.run_with("dsk show -", &dsk::example::image());
    assert_eq!((run.status, run.out), (0, SHOWN.replace("a.dsk", "standard input")));
}

#[test]
fn text_is_printed_safely() {
    let bench = Bench::with_disk();
    let out = shown(&bench, &edited(&[(8, &[0xFF; 26]), (0x22, b"\x1B[31m\"\0\\x\x97\r\0\0\0")]), false);
    assert!(out.is_ascii() && !out.contains('\x1B'), "{out}");
    assert!(has(&out, "creator", r#""\x1b[31m\"\x00\\x\x97\r""#), "{out}");
    assert!(has(&out, "opening", &format!("\"MV - CPC{}\"", "\\xff".repeat(26))), "{out}");
    let out = shown(&bench, &edited(&[(0x22, &[0; 14])]), false);
    assert!(has(&out, "creator", "\"\""), "{out}");
    let out = shown(&bench, &edited(&[(0x22, b"14 letters her")]), false);
    assert!(has(&out, "creator", "\"14 letters her\""), "{out}");
}

#[test]
fn bytes_after_the_last_block_are_counted() {
    let bench = Bench::with_disk();
    let mut longer = dsk::example::image();
    longer.push(0);
    assert!(has(&shown(&bench, &longer, false), "after last block", "1 byte from 2,304 on"));
    longer.extend([0; 999]);
    assert!(has(&shown(&bench, &longer, false), "after last block", "1,000 bytes from 2,304 on"));
    let file = std::fs::OpenOptions::new().write(true).open(bench.path("b.dsk")).expect("the file");
    file.set_len(268_435_460).expect("a sparse file");
    let out = bench.passes("dsk show b.dsk");
    assert!(has(&out, "size", "at least 268,435,457 bytes"), "{out}");
    assert!(has(&out, "after last block", "at least 268,433,153 bytes from 2,304 on"), "{out}");
}

#[test]
fn what_is_not_plain_has_a_note() {
    let bench = Bench::with_disk();
    let entries = [[0, 0, 1, 6, 0, 0], [5, 0, 2, 6, 0, 0], [0, 1, 3, 6, 0, 0], [9, 9, 255, 1, 0xA5, 0x61], [0, 0, 4, 6, 0x5A, 0x9E]];
    let out = shown(&bench, &image((1, 1, 256 + 5 * 0x1800), 6, &entries), false);
    for (start, notes) in [
        ("0    0     0 0x00000100       5  6  6144 0x00   0x00", "of a sector's 8,192 bytes 6,144 are stored"),
        ("0    0     0   0   0   1 (0x01)   6 0x00 0x00 0x00000200   6144", "-"),
        ("0    0     1   5   0   2 (0x02)   6 0x00 0x00 0x00001A00   6144", "C 5 is not the track"),
        ("0    0     2   0   1   3 (0x03)   6 0x00 0x00 0x00003200   6144", "H 1 is not the side"),
        (
            "0    0     3   9   9 255 (0xFF)   1 0xA5 0x61 0x00004A00   6144",
            "C 9 is not the track, H 9 is not the side, N 1 is below the block's 6 (own size 256), ST1 end of cylinder, ST1 data error, \
             ST1 no data, ST1 missing address mark, ST2 control mark, ST2 data error in data field, ST2 missing data address mark",
        ),
        (
            "0    0     4   0   0   4 (0x04)   6 0x5A 0x9E 0x00006200   6144",
            "ST1 b6 (unused), ST1 b4 (unused), ST1 b3 (unused), ST1 b1 (unused), \
             ST2 b7 (unused), ST2 b4 (unused), ST2 b3 (unused), ST2 b2 (unused), ST2 b1 (unused)",
        ),
    ] {
        assert!(has(&out, start, notes), "{start} {notes}: {out}");
    }
}

#[test]
fn what_can_be_read_of_a_refused_image_is_shown() {
    let bench = Bench::with_disk();
    let edits: [(usize, &[u8]); 5] =
        [(256 + 0x10, &[9]), (768 + 0x14, &[7]), (1280 + 0x15, &[3]), (1280 + 0x28, &[1, 0, 7, 1]), (1792 + 3, &[0])];
    let out = shown(&bench, &edited(&edits), true);
    let (first, rest) = out.split_once("\n\n").expect("the refusal, then what can be read");
    let said = "33 Block: track 0, side 0 (block 0 at 256): the byte at 272 is track 9, not 0";
    assert_eq!(first, format!("b.dsk: refused {said}\nUNCHECKED: the image is refused; what follows is what its bytes say:"));
    for (name, value) in [
        ("creator", "\"example\""),
        ("blocks", "4"),
        ("0    0     0 0x00000100       2  0   128 0x4E   0xE5", said),
        (
            "0    1     1 0x00000300       2  7     - 0x4E   0xE5",
            "34 Sectors: track 0, side 1 (block 1 at 768): the byte at 788 is size code 7, above 6",
        ),
        (
            "1    0     2 0x00000500       3  0   128 0x4E   0xE5",
            "34 Sectors: track 1, side 0 (block 2 at 1,280): sector 2: the byte at 1,323 is size code 1, above the block's 0",
        ),
        (
            "1    1     3 0x00000700       -  -     -    -      -",
            "33 Block: track 1, side 1 (block 3 at 1,792): the name is 54 72 61 00 6B 2D 49 6E 66 6F 0D 0A, not \"Track-Info\\r\\n\"",
        ),
        ("0    0     0   0   0 193 (0xC1)   0 0x00 0x00 0x00000200    128", "-"),
        ("0    1     0   0   1 193 (0xC1)   0 0x00 0x00          -      -", "-"),
        (
            "1    0     2   1   0   7 (0x07)   1 0x00 0x00 0x00000700    128",
            "N 1 is above the block's 0, its data end past the block's end at 1,792",
        ),
    ] {
        assert!(has(rest, name, value), "{name} {value}: {rest}");
    }
    let sectors = rest.split("\n\n").nth(2).expect("the table of sectors");
    assert_eq!(sectors.lines().count(), 1 + 2 + 2 + 3, "{sectors}");
}

#[test]
fn of_a_file_that_is_too_short_what_is_there_is_shown() {
    let bench = Bench::with_disk();
    let whole = dsk::example::image();
    let out = shown(&bench, &whole[..1700], true);
    for (name, value) in [
        ("size", "1,700 bytes"),
        ("blocks", "4 (2 whole in the file)"),
        ("after last block", "604 bytes missing"),
        ("0    1     1 0x00000300       2  0   128 0x4E   0xE5", "-"),
        ("1    0     2 0x00000500       2  0   128 0x4E   0xE5", "cut off at 1,700"),
        ("1    0     0   1   0 193 (0xC1)   0 0x00 0x00 0x00000600    128", "-"),
        (
            "1    0     1   1   0 194 (0xC2)   0 0x20 0x40 0x00000680    128",
            "ST1 data error, ST2 control mark, its data are cut off at 1,700",
        ),
    ] {
        assert!(has(&out, name, value), "{name} {value}: {out}");
    }
    assert!(!out.contains("\n    1    1 "), "{out}");
    // Where the code is none, there are no data to be cut off.
    let out = shown(&bench, &edited(&[(1280 + 0x14, &[7])])[..1500], true);
    assert!(has(&out, "1    0     0   1   0 193 (0xC1)   0 0x00 0x00          -      -", "-"), "{out}");
    // In the second block: before the end of its name, of its fields and of its first entry.
    for (size, block, sectors) in [(768 + 11, "-", 2), (768 + 0x17, "-", 2), (768 + 0x18, "2", 2), (768 + 0x20, "2", 3)] {
        let out = shown(&bench, &whole[..size], true);
        let row = format!("0    1     1 0x00000300 {block:>7} ");
        assert!(out.contains(&row) && out.contains(&format!("cut off at {size}\n")), "{out}");
        assert_eq!(out.lines().count() - out.lines().position(|line| line.contains(" index ")).expect("a table"), 1 + sectors, "{out}");
    }
}

#[test]
fn files_that_are_hardly_images_are_shown() {
    let bench = Bench::with_disk();
    for size in [0, 7, 8, 0x33] {
        let out = shown(&bench, &dsk::example::image()[..size], true);
        assert!(out.ends_with(&format!("size                {size} bytes\nheader              not there\n")), "{out}");
    }
    let out = shown(&bench, &dsk::example::image()[..0x34], true);
    assert!(has(&out, "tracks", "2") && has(&out, "blocks", "4 (0 whole in the file)"), "{out}");
    assert!(has(&out, "after last block", "2,252 bytes missing"), "{out}");
    let out = shown(&bench, &edited(&[(0x31, &[3])]), true);
    assert!(has(&out, "sides", "3") && has(&out, "blocks", "31 Geometry: byte 0x31 (sides) is 3, not 1 or 2"), "{out}");
    assert!(!out.contains("after last block") && out.ends_with("notes\n"), "{out}");
}

#[test]
fn a_block_of_too_many_sectors_has_29_entries() {
    let bench = Bench::with_disk();
    let mut long = image((1, 1, 256 + 29 * 128), 0, &[[0; 6]; 29]);
    long[256 + 0x15] = 255;
    let out = shown(&bench, &long, true);
    assert!(out.contains("\n    0    0    28 ") && !out.contains("\n    0    0    29 "), "{out}");
    assert!(out.contains("0x00000100     255  0   128 0x00   0x00  34 Sectors: "), "{out}");
}
