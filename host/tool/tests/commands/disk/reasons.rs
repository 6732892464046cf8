//! What refusals of DSK images say: every case of every number, and that it is the one that the library refuses.

use super::{edited, image};
use crate::bench::Bench;

/// The first bytes of the example.
fn cut(size: usize) -> Vec<u8> {
    dsk::example::image()[..size].to_vec()
}

/// The example with some bytes changed from an offset on.
fn a(offset: usize, bytes: &[u8]) -> Vec<u8> {
    edited(&[(offset, bytes)])
}

/// Images with what the library answers for them and what the tool says.
fn cases() -> Vec<(Vec<u8>, &'static str, &'static str)> {
    let sign = |text: &[u8]| a(0, text);
    vec![
        (vec![], "30 at 0", "30 Sign: 0 bytes, fewer than the 8 of \"MV - CPC\""),
        (cut(7), "30 at 0", "30 Sign: 7 bytes, fewer than the 8 of \"MV - CPC\""),
        (sign(b"mv"), "30 at 0", "30 Sign: the first eight bytes are 6D 76 20 2D 20 43 50 43, not \"MV - CPC\""),
        (
            sign(b"EXTENDED CPC DSK"),
            "30 at 0",
            "30 Sign: the first eight bytes are 45 58 54 45 4E 44 45 44 (an extended DSK image?), not \"MV - CPC\"",
        ),
        (
            scp::example::image_a(),
            "30 at 0",
            "30 Sign: the first eight bytes are 53 43 50 16 00 01 00 00 (an SCP image?), not \"MV - CPC\"",
        ),
        (cut(8), "32 at 0", "32 Length: 8 bytes, fewer than 256"),
        (cut(255), "32 at 0", "32 Length: 255 bytes, fewer than 256"),
        (a(0x30, &[0]), "31 at 0", "31 Geometry: byte 0x30 (tracks) is 0, not 1 to 255"),
        (a(0x31, &[0]), "31 at 0", "31 Geometry: byte 0x31 (sides) is 0, not 1 or 2"),
        (a(0x31, &[3]), "31 at 0", "31 Geometry: byte 0x31 (sides) is 3, not 1 or 2"),
        (a(0x32, &[255, 0]), "31 at 0", "31 Geometry: bytes 0x32 and 0x33 (track size) are 255, below 256"),
        (cut(256), "32 at 0", "32 Length: 256 bytes, fewer than 2,304 (256 + 2 tracks x 2 sides x 512 bytes)"),
        (cut(2303), "32 at 0", "32 Length: 2,303 bytes, fewer than 2,304 (256 + 2 tracks x 2 sides x 512 bytes)"),
        (a(0x30, &[1, 1, 255, 255]), "32 at 0", "32 Length: 2,304 bytes, fewer than 65,791 (256 + 1 track x 1 side x 65,535 bytes)"),
        (
            a(256, b"t"),
            "33 at 0",
            "33 Block: track 0, side 0 (block 0 at 256): the name is 74 72 61 63 6B 2D 49 6E 66 6F 0D 0A, not \"Track-Info\\r\\n\"",
        ),
        (
            a(1792 + 11, b"\r"),
            "33 at 3",
            "33 Block: track 1, side 1 (block 3 at 1,792): the name is 54 72 61 63 6B 2D 49 6E 66 6F 0D 0D, not \"Track-Info\\r\\n\"",
        ),
        (a(1280 + 0x10, &[2]), "33 at 2", "33 Block: track 1, side 0 (block 2 at 1,280): the byte at 1,296 is track 2, not 1"),
        (a(1280 + 0x11, &[1]), "33 at 2", "33 Block: track 1, side 0 (block 2 at 1,280): the byte at 1,297 is side 1, not 0"),
        (a(768 + 0x15, &[30]), "34 at 1", "34 Sectors: track 0, side 1 (block 1 at 768): the byte at 789 is 30 sectors, more than 29"),
        (a(768 + 0x14, &[7]), "34 at 1", "34 Sectors: track 0, side 1 (block 1 at 768): the byte at 788 is size code 7, above 6"),
        (
            a(768 + 0x23, &[1]),
            "34 at 1",
            "34 Sectors: track 0, side 1 (block 1 at 768): sector 1: the byte at 803 is size code 1, above the block's 0",
        ),
        (
            a(1280 + 0x15, &[3]),
            "35 at 2",
            "35 Data: track 1, side 0 (block 2 at 1,280): 3 x 128 bytes at 1,536 end at 1,920, past the block's end at 1,792",
        ),
        (
            image((1, 1, 256 + 0x17FF), 6, &[[0; 6]]),
            "35 at 0",
            "35 Data: track 0, side 0 (block 0 at 256): 1 x 6,144 bytes at 512 end at 6,656, past the block's end at 6,655",
        ),
    ]
}

#[test]
fn every_case_of_every_number_is_told() {
    let bench = Bench::with_disk();
    let mut numbers = Vec::new();
    for (bytes, answer, said) in cases() {
        bench.put("b.dsk", &bytes);
        for command in ["dsk validate b.dsk", "dsk validate --all b.dsk", "dsk show b.dsk"] {
            let run = bench.run(command);
            assert_eq!((run.status, run.err.as_str(), run.out.lines().next()), (1, "", Some(&*format!("b.dsk: refused {said}"))));
        }
        assert_eq!(bench.refuses("dsk list b.dsk"), format!("refused {answer}\n"), "{said}");
        for tail in ["", "--raw", "--data b.bin"] {
            bench.fails(&format!("dsk sector b.dsk 9 9 9 {tail}"), 1, &format!("b.dsk: refused {said}\n"));
        }
        numbers.push(answer.split(' ').next().unwrap_or_default().parse::<u8>().expect("a number"));
    }
    numbers.sort();
    numbers.dedup();
    assert_eq!(numbers, (30..=35).collect::<Vec<u8>>());
    assert!(!bench.path("b.bin").exists());
}

#[test]
fn all_faults_are_listed() {
    let bench = Bench::with_disk();
    let edits: [(usize, &[u8]); 6] = [
        (256 + 0x10, &[9, 8]),
        (256 + 0x14, &[1, 2]),
        (768 + 0x14, &[7, 30]),
        (1280 + 0x15, &[3]),
        (1280 + 0x1B, &[3, 0, 0, 0, 0, 0, 0, 0, 2, 0, 0, 0, 0, 0, 0, 0, 1]),
        (1792 + 3, &[0]),
    ];
    bench.put("b.dsk", &edited(&edits));
    let due = [
        "a.dsk: ok",
        "b.dsk: refused 33 Block: track 0, side 0 (block 0 at 256): the byte at 272 is track 9, not 0",
        "b.dsk: also 33 Block: track 0, side 0 (block 0 at 256): the byte at 273 is side 8, not 0",
        "b.dsk: also 35 Data: track 0, side 0 (block 0 at 256): 2 x 256 bytes at 512 end at 1,024, past the block's end at 768",
        "b.dsk: also 34 Sectors: track 0, side 1 (block 1 at 768): the byte at 789 is 30 sectors, more than 29",
        "b.dsk: also 34 Sectors: track 0, side 1 (block 1 at 768): the byte at 788 is size code 7, above 6",
        "b.dsk: also 34 Sectors: track 1, side 0 (block 2 at 1,280): sector 0: the byte at 1,307 is size code 3, above the block's 0",
        "b.dsk: also 34 Sectors: track 1, side 0 (block 2 at 1,280): sector 1: the byte at 1,315 is size code 2, above the block's 0",
        "b.dsk: also 34 Sectors: track 1, side 0 (block 2 at 1,280): sector 2: the byte at 1,323 is size code 1, above the block's 0",
        "b.dsk: also 35 Data: track 1, side 0 (block 2 at 1,280): 3 x 128 bytes at 1,536 end at 1,920, past the block's end at 1,792",
        "b.dsk: also 33 Block: track 1, side 1 (block 3 at 1,792): the name is 54 72 61 00 6B 2D 49 6E 66 6F 0D 0A, not \"Track-Info\\r\\n\"",
    ];
    assert_eq!(bench.refuses("dsk validate a.dsk b.dsk --all").lines().collect::<Vec<_>>(), due);
}

#[test]
fn what_a_fault_makes_meaningless_is_left_out() {
    let bench = Bench::with_disk();
    let lines = |image: &[u8]| {
        bench.put("b.dsk", image);
        bench.refuses("dsk validate --all b.dsk").lines().map(|line| line.split(':').nth(1).unwrap_or_default().to_string()).collect()
    };
    let faults = |image: &[u8]| -> Vec<String> { lines(image) };
    // All blocks have faults, but where they are is not known.
    let wrong = edited(&[(0x30, &[0, 3, 1, 0]), (256, &[0]), (768, &[0])]);
    assert_eq!(faults(&wrong), [" refused 31 Geometry", " also 31 Geometry", " also 31 Geometry"]);
    // The second block is not whole.
    let short = &edited(&[(256, &[0]), (768, &[0])])[..1279];
    assert_eq!(faults(short), [" refused 32 Length", " also 33 Block"]);
    // The file ends before the blocks, or before the geometry.
    assert_eq!(faults(&cut(255)), [" refused 32 Length"]);
    assert_eq!(faults(&edited(&[(0x30, &[0])])[..255]), [" refused 32 Length", " also 31 Geometry"]);
    assert_eq!(faults(&edited(&[(0, &[0]), (0x30, &[0])])[..0x33]), [" refused 30 Sign", " also 32 Length"]);
    // A size code above 6 gives no sizes; 30 sectors give no end of the data, but 29 entries.
    assert_eq!(faults(&edited(&[(256 + 0x14, &[7, 2]), (256 + 0x1B, &[8])])), [" refused 34 Sectors"]);
    assert_eq!(faults(&edited(&[(256 + 0x15, &[30]), (256 + 0x1B + 8 * 28, &[1])])), [" refused 34 Sectors", " also 34 Sectors"]);
}

#[test]
fn what_is_asked_for_and_not_there_is_told() {
    let bench = Bench::with_disk();
    bench.put("b.dsk", &image((1, 1, 512), 0, &[[0; 6]]));
    bench.put("e.dsk", &image((40, 1, 256), 0, &[]));
    for (line, said) in [
        ("a.dsk 2 0 0", "13 Absent: track 2: the image has 2 tracks, from 0 on"),
        ("a.dsk 4294967295 9 9", "13 Absent: track 4294967295: the image has 2 tracks, from 0 on"),
        ("a.dsk 256 0 0", "13 Absent: track 256: the image has 2 tracks, from 0 on"),
        ("a.dsk 1 2 9", "13 Absent: side 2: the image has 2 sides, from 0 on"),
        ("b.dsk 1 0 0", "13 Absent: track 1: the image has 1 track, from 0 on"),
        ("b.dsk 0 1 0", "13 Absent: side 1: the image has 1 side, from 0 on"),
        ("a.dsk 1 0 2", "14 Sector: sector 2 of track 1, side 0: the block has 2 sectors, from 0 on"),
        ("b.dsk 0 0 4294967295", "14 Sector: sector 4294967295 of track 0, side 0: the block has 1 sector, from 0 on"),
        ("e.dsk 39 0 0", "14 Sector: sector 0 of track 39, side 0: the block has 0 sectors, from 0 on"),
    ] {
        for tail in ["", "--raw", "--data b.bin"] {
            bench.fails(&format!("dsk sector {line} {tail}"), 1, &format!("{}: refused {said}\n", &line[..5]));
        }
    }
    assert!(!bench.path("b.bin").exists());
}

#[test]
fn an_image_of_the_other_kind_is_guessed() {
    let bench = Bench::with_disk();
    let said = "a.dsk: refused 2 Sign: the first three bytes are 4D 56 20 (a DSK image?), not SCP\n";
    assert_eq!(bench.refuses("validate a.dsk"), said);
}
