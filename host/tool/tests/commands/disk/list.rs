//! `fluxproof dsk list`.

use super::{edited, image, Entry};
use crate::bench::Bench;

/// The listing of the example.
const LISTING: &str = "\
ok 2304 tracks 2 sides 2 size 512
track 0 side 0 index 0 c 0 h 0 r 193 n 0 st1 0 st2 0 offset 512 length 128
track 0 side 0 index 1 c 0 h 0 r 194 n 0 st1 32 st2 64 offset 640 length 128
track 0 side 1 index 0 c 0 h 1 r 193 n 0 st1 0 st2 0 offset 1024 length 128
track 0 side 1 index 1 c 0 h 1 r 194 n 0 st1 32 st2 64 offset 1152 length 128
track 1 side 0 index 0 c 1 h 0 r 193 n 0 st1 0 st2 0 offset 1536 length 128
track 1 side 0 index 1 c 1 h 0 r 194 n 0 st1 32 st2 64 offset 1664 length 128
track 1 side 1 index 0 c 1 h 1 r 193 n 0 st1 0 st2 0 offset 2048 length 128
track 1 side 1 index 1 c 1 h 1 r 194 n 0 st1 32 st2 64 offset 2176 length 128
";

#[test]
fn the_example_is_listed() {
    let bench = Bench::with_disk();
    assert_eq!(bench.passes("dsk list a.dsk"), LISTING);
    let run = bench.run_with("dsk list -", &dsk::example::image());
    assert_eq!((run.status, run.out.as_str(), run.err.as_str()), (0, LISTING, ""));
}

#[test]
fn the_length_is_that_of_the_block_s_code() {
    let bench = Bench::with_disk();
    let entries = [[3, 9, 255, 1, 0xFF, 0], [0, 0, 1, 6, 0, 0xFF]];
    bench.put("b.dsk", &image((1, 1, 256 + 2 * 0x1800), 6, &entries));
    let lines = [
        "ok 12800 tracks 1 sides 1 size 12544",
        "track 0 side 0 index 0 c 3 h 9 r 255 n 1 st1 255 st2 0 offset 512 length 6144",
        "track 0 side 0 index 1 c 0 h 0 r 1 n 6 st1 0 st2 255 offset 6656 length 6144",
    ];
    assert_eq!(bench.passes("dsk list b.dsk"), lines.join("\n") + "\n");
    bench.put("b.dsk", &image((3, 2, 256), 2, &[]));
    assert_eq!(bench.passes("dsk list b.dsk"), "ok 1792 tracks 3 sides 2 size 256\n");
}

#[test]
fn the_greatest_image_is_listed() {
    let bench = Bench::with_disk();
    let entries: Vec<Entry> = (0..29).map(|index| [7, 8, index, 0, 0, 0]).collect();
    bench.put("b.dsk", &image((255, 2, 65_535), 0, &entries));
    let mut due = "ok 33423106 tracks 255 sides 2 size 65535\n".to_string();
    for (block, (track, side)) in (0..255).flat_map(|track| [(track, 0), (track, 1)]).enumerate() {
        for index in 0..29 {
            let offset = 256 + 65_535 * block + 256 + 128 * index;
            due += &format!("track {track} side {side} index {index} c 7 h 8 r {index} n 0 st1 0 st2 0 offset {offset} length 128\n");
        }
    }
    assert!(bench.passes("dsk list b.dsk") == due);
}

#[test]
fn the_size_is_that_of_the_file() {
    let bench = Bench::with_disk();
    // Of a file that is longer than any SCP image, one byte more than that is read.
    for (length, size) in [(2305, 2305), (268_435_456, 268_435_456), (268_435_457, 268_435_457), (268_435_460, 268_435_457)] {
        bench.put("b.dsk", &dsk::example::image());
        let file = std::fs::OpenOptions::new().write(true).open(bench.path("b.dsk")).expect("the file");
        file.set_len(length).expect("a sparse file");
        assert_eq!(bench.passes("dsk list b.dsk"), LISTING.replace("2304", &size.to_string()));
    }
}

#[test]
fn refusals_are_listed() {
    let bench = Bench::with_disk();
    bench.put("b.dsk", &edited(&[(256 + 3 * 512 + 0x15, &[3])]));
    assert_eq!(bench.refuses("dsk list b.dsk"), "refused 35 at 3\n");
    bench.put("b.dsk", b"");
    assert_eq!(bench.refuses("dsk list b.dsk"), "refused 30 at 0\n");
    bench.fails("dsk list none.dsk", 3, "none.dsk: No such file");
}
