//! `fluxproof dsk sector`.

use std::fs;

use super::image;
use crate::bench::{Bench, Run};

/// The dump of a sector of the example.
const DUMP: &str = "\
# track 0 side 1 index 1 c 0 h 1 r 194 n 0 st1 32 st2 64 offset 1152 length 128 (ST1 data error, ST2 control mark)
0000  60 61 62 63 64 65 66 67  68 69 6A 6B 6C 6D 6E 6F  |`abcdefghijklmno|
0010  70 71 72 73 74 75 76 77  78 79 7A 7B 7C 7D 7E 7F  |pqrstuvwxyz{|}~.|
0020  60 61 62 63 64 65 66 67  68 69 6A 6B 6C 6D 6E 6F  |`abcdefghijklmno|
0030  70 71 72 73 74 75 76 77  78 79 7A 7B 7C 7D 7E 7F  |pqrstuvwxyz{|}~.|
0040  60 61 62 63 64 65 66 67  68 69 6A 6B 6C 6D 6E 6F  |`abcdefghijklmno|
0050  70 71 72 73 74 75 76 77  78 79 7A 7B 7C 7D 7E 7F  |pqrstuvwxyz{|}~.|
0060  60 61 62 63 64 65 66 67  68 69 6A 6B 6C 6D 6E 6F  |`abcdefghijklmno|
0070  70 71 72 73 74 75 76 77  78 79 7A 7B 7C 7D 7E 7F  |pqrstuvwxyz{|}~.|
";

/// The data of that sector.
fn data() -> Vec<u8> {
    dsk::example::image()[1152..1280].to_vec()
}

#[test]
fn a_sector_is_dumped() {
    let bench = Bench::with_disk();
    for line in ["dsk sector a.dsk 0 1 1", "dsk sector a.dsk 0x0 0X1 0x01", "dsk sector -- a.dsk 0 1 1"] {
        assert_eq!(bench.passes(line), DUMP);
    }
    let run = bench.run_with("dsk sector - 0 1 1", &dsk::example::image());
    assert_eq!((run.status, run.out.as_str(), run.err.as_str()), (0, DUMP, ""));
    let plain = bench.passes("dsk sector a.dsk 1 0 0");
    let first = "# track 1 side 0 index 0 c 1 h 0 r 193 n 0 st1 0 st2 0 offset 1536 length 128\n0000  80 81 ";
    assert!(plain.starts_with(first), "{plain}");
}

#[test]
fn all_data_of_a_long_sector_are_dumped() {
    let bench = Bench::with_disk();
    let mut long = image((1, 1, 256 + 0x1800), 6, &[[0, 0, 1, 5, 0, 0]]);
    let last = long.len() - 16;
    long[last..].copy_from_slice(b"0123456789:;<=>?");
    bench.put("b.dsk", &long);
    let out = bench.passes("dsk sector b.dsk 0 0 0");
    let lines: Vec<&str> = out.lines().collect();
    assert!(lines[0].ends_with(" offset 512 length 6144 (N 5 is below the block's 6 (own size 4,096))"), "{}", lines[0]);
    assert_eq!((lines.len(), lines[384]), (385, "17F0  30 31 32 33 34 35 36 37  38 39 3A 3B 3C 3D 3E 3F  |0123456789:;<=>?|"));
}

#[test]
fn the_bytes_come_as_they_are() {
    let bench = Bench::with_disk();
    for (track, side, index) in [(0, 0, 0), (0, 1, 1), (1, 1, 1)] {
        let done = bench.command(&format!("dsk sector a.dsk {track} {side} {index} --raw")).output().expect("the command runs");
        let image = dsk::example::image();
        assert_eq!((done.status.code(), Ok(&*done.stdout)), (Some(0), dsk::data(&image, track, side, index)));
    }
    let said = "128 bytes of track 0 side 1 index 1 written to s.bin\n";
    assert_eq!(bench.passes("dsk sector a.dsk 0 1 1 --data s.bin"), said);
    assert_eq!((bench.get("s.bin"), bench.names()), (data(), ["a.dsk", "a.scp", "s.bin"].map(String::from).to_vec()));
    let run = bench.run_with("dsk sector - 0 1 1 --data=t.bin", &dsk::example::image());
    assert_eq!((run.status, run.out, bench.get("t.bin")), (0, said.replace("s.bin", "t.bin"), data()));
}

#[test]
fn existing_files_and_the_image_are_kept() {
    let bench = Bench::with_disk();
    bench.put("s.bin", b"precious");
    let line = "dsk sector a.dsk 0 1 1 --data";
    bench.fails(&format!("{line} s.bin"), 3, "s.bin: it exists already; --force replaces it");
    bench.fails(&format!("{line} a.dsk"), 3, "a.dsk: this is the image itself\n");
    bench.fails(&format!("{line} a.dsk --force"), 3, "a.dsk: this is the image itself\n");
    bench.fails(&format!("{line} none/s.bin"), 3, "none/s.bin: cannot be written: No such file");
    bench.fails(&format!("{line} ."), 2, "\".\" names no file");
    bench.fails(&format!("{line} -"), 2, "\"-\" names no file to write (one named - is ./-)");
    assert_eq!((bench.get("s.bin"), bench.get("a.dsk")), (b"precious".to_vec(), dsk::example::image()));
    bench.passes(&format!("{line} s.bin --force"));
    assert_eq!((bench.get("s.bin"), bench.names().len()), (data(), 3));
}

#[cfg(unix)]
#[test]
fn links_and_standard_input_do_not_hide_the_image() {
    let bench = Bench::with_disk();
    std::os::unix::fs::symlink("a.dsk", bench.path("soft")).expect("a symbolic link");
    fs::hard_link(bench.path("a.dsk"), bench.path("hard")).expect("a hard link");
    for (file, out) in [("a.dsk", "soft"), ("soft", "a.dsk"), ("a.dsk", "hard"), ("hard", "soft")] {
        bench.fails(&format!("dsk sector {file} 0 0 0 --data {out} --force"), 3, "this is the image itself");
    }
    let input = fs::File::open(bench.path("a.dsk")).expect("a file to read");
    let run = Run::of(bench.command("dsk sector - 0 0 0 --data a.dsk --force").stdin(input).output().expect("the command runs"));
    assert!(run.status == 3 && run.err.contains("a.dsk: this is the image itself"), "{run:?}");
    assert_eq!(bench.get("a.dsk"), dsk::example::image());
}

#[cfg(unix)]
#[test]
fn a_file_is_written_whole_or_not_at_all() {
    let bench = Bench::with_disk();
    bench.put("long.dsk", &image((1, 1, 256 + 4096), 5, &[[0; 6]]));
    bench.put("old.bin", b"precious");
    let names = bench.names();
    for out in ["old.bin --force", "new.bin"] {
        let script = format!("ulimit -f 1; exec \"$0\" dsk sector long.dsk 0 0 0 --data {out}");
        let run = crate::streams::shell(&bench, "sh", &[], &script);
        assert!(run.status == 3 && run.err.contains(".bin: cannot be written: File too large"), "{out}: {run:?}");
        assert_eq!((bench.get("old.bin"), bench.names()), (b"precious".to_vec(), names.clone()), "{out}");
    }
}

#[test]
fn wrong_command_lines_are_told() {
    let bench = Bench::with_disk();
    let help = "; see \"fluxproof help dsk sector\"";
    for (line, message) in [
        ("", "FILE is missing"),
        ("a.dsk", "TRACK is missing"),
        ("a.dsk 0", "SIDE is missing"),
        ("a.dsk 0 0", "INDEX is missing"),
        ("a.dsk 0 0 0 0", "unexpected argument \"0\" after FILE TRACK SIDE INDEX"),
        ("a.dsk zero 0 0", "TRACK: \"zero\" is not a number (decimal, or hexadecimal after 0x)"),
        ("a.dsk 0 C1 0", "SIDE: \"C1\" is not a number (decimal, or hexadecimal after 0x)"),
        ("a.dsk 0 0 4294967296", "INDEX: 4294967296 is above 4,294,967,295"),
        ("a.dsk 0 0 0 --hex", "unknown option \"--hex\""),
        ("a.dsk 0 0 0 --date x", "unknown option \"--date\" (did you mean \"--data\"?)"),
        ("a.dsk 0 0 0 --data", "--data needs a value"),
        ("a.dsk 0 0 0 --force", "--force is for --data, which is missing"),
        ("a.dsk 0 0 0 --raw --force", "--force is for --data, which is missing"),
        ("a.dsk 0 0 0 --raw --data s.bin", "--data and --raw exclude each other"),
        ("a.dsk 0 0 0 --data s.bin --in-place", "unknown option \"--in-place\""),
    ] {
        bench.fails(&format!("dsk sector {line}"), 2, &format!("dsk sector: {message}{help}"));
    }
    bench.fails("dsk sector none.dsk 0 0 0", 3, "none.dsk: No such file");
    assert_eq!(bench.names(), ["a.dsk", "a.scp"]);
}
