//! `fluxproof dsk make`.

use std::fs;

use scp_compare::dsk_image::{block_size, file_order, sector_size, Ground, Parts, INFORMATION};
use scp_compare::random::Random;

use crate::bench::{Bench, Run};

/// Tracks, sides, sectors of a block, and size code.
type Numbers = (u8, u8, u8, u8);

/// The numbers without options.
const STANDARD: Numbers = (40, 1, 9, 2);

/// How many bytes of data they want.
const STANDARD_SIZE: usize = 184_320;

/// Options for 512 bytes of data, and what is said of them.
const SMALL: &str = "--tracks 1 --sectors 1";
const SMALL_SAID: &str = "1,024 bytes written to b.dsk: 1 track, 1 side, 1 sector of 512 bytes\n";

/// So many bytes, no two sectors alike.
fn data(size: usize) -> Vec<u8> {
    Random::new(size as u64).bytes(size)
}

/// How many bytes of data there are.
fn data_size((tracks, sides, sectors, code): Numbers) -> usize {
    usize::from(tracks) * usize::from(sides) * usize::from(sectors) * sector_size(code)
}

/// The options for these numbers.
fn options((tracks, sides, sectors, code): Numbers) -> String {
    format!("--tracks {tracks} --sides {sides} --sectors {sectors} --code {code}")
}

/// The image that is due, made without the library.
fn due(creator: &[u8], (tracks, sides, sectors, code): Numbers, (gap, filler): (u8, u8), data: &[u8]) -> Vec<u8> {
    let size = block_size(code, sectors.into());
    let mut parts = Parts::plain(tracks, sides, size as u16, (code, sectors));
    parts.ground = Ground::Zeros;
    parts.opening.extend(creator);
    for block in &mut parts.blocks {
        (block.gap, block.filler) = (gap, filler);
    }
    let mut image = parts.build(&mut Random::new(0));
    for (index, data) in data.chunks((size - INFORMATION).max(1)).enumerate() {
        let start = parts.block_at(index) + INFORMATION;
        image[start..start + data.len()].copy_from_slice(data);
    }
    image
}

/// The image that is due without other options.
fn plain(numbers: Numbers, data: &[u8]) -> Vec<u8> {
    due(b"fluxproof", numbers, (0x4E, 0xE5), data)
}

/// A bench with 512 bytes of data as a.bin, and the image that is due of them.
fn bench() -> (Bench, Vec<u8>) {
    let (bench, data) = (Bench::new(), data(512));
    bench.put("a.bin", &data);
    (bench, plain((1, 1, 1, 2), &data))
}

/// A run that makes a small image with a creator.
fn made_by(bench: &Bench, creator: impl AsRef<std::ffi::OsStr>) -> Run {
    let line = format!("dsk make a.bin b.dsk {SMALL} --force --creator");
    Run::of(bench.command(&line).arg(creator).output().expect("the command runs"))
}

#[test]
fn the_standard_format_needs_no_options() {
    let (bench, data) = (Bench::new(), data(STANDARD_SIZE));
    bench.put("a.bin", &data);
    let said = "194,816 bytes written to b.dsk: 40 tracks, 1 side, 9 sectors of 512 bytes\n";
    assert_eq!(bench.passes("dsk make a.bin b.dsk"), said);
    assert!(bench.get("b.dsk") == plain(STANDARD, &data) && bench.get("a.bin") == data);
    assert_eq!(bench.names(), ["a.bin", "a.scp", "b.dsk"]);
    let run = bench.run_with("dsk make - c.dsk", &data);
    assert_eq!((run.status, run.out, run.err.as_str()), (0, said.replace("b.dsk", "c.dsk"), ""));
    assert!(bench.get("c.dsk") == bench.get("b.dsk"));
}

#[test]
fn every_sector_reads_back() {
    let bench = Bench::new();
    for numbers in [STANDARD, (1, 1, 1, 0), (3, 2, 4, 0), (2, 2, 29, 1), (1, 2, 5, 3), (2, 1, 29, 4), (1, 1, 15, 5), (255, 2, 0, 5)] {
        let ((tracks, sides, sectors, code), data) = (numbers, data(data_size(numbers)));
        let (length, size) = (sector_size(code), block_size(code, sectors.into()));
        bench.put("a.bin", &data);
        bench.passes(&format!("dsk make a.bin b.dsk --force {}", options(numbers)));
        let image = bench.get("b.dsk");
        assert!(image == plain(numbers, &data), "{numbers:?}");
        assert_eq!(bench.passes("dsk validate b.dsk"), "b.dsk: ok\n");
        let mut list = format!("ok {} tracks {tracks} sides {sides} size {size}\n", image.len());
        let mut joined = Vec::new();
        for (block, (track, side)) in file_order(tracks, sides).enumerate() {
            for index in 0..sectors {
                let offset = INFORMATION + block * size + INFORMATION + usize::from(index) * length;
                let place = format!("track {track} side {side} index {index} c {track} h {side} r {}", index + 1);
                list += &format!("{place} n {code} st1 0 st2 0 offset {offset} length {length}\n");
                let line = format!("dsk sector b.dsk {track} {side} {index} --raw");
                joined.extend(bench.command(&line).output().expect("the command runs").stdout);
            }
        }
        assert_eq!(bench.passes("dsk list b.dsk"), list);
        assert!(joined == data, "{numbers:?}");
    }
}

#[test]
fn the_least_and_the_greatest_image_are_made() {
    let bench = Bench::new();
    let greatest = (255, 2, 15, 5);
    bench.put("none.bin", b"");
    bench.put("most.bin", &data(data_size(greatest)));
    let said = "512 bytes written to b.dsk: 1 track, 1 side, 0 sectors of 512 bytes\n";
    assert_eq!(bench.passes("dsk make none.bin b.dsk --tracks 1 --sectors 0"), said);
    assert!(bench.get("b.dsk") == plain((1, 1, 0, 2), b""));
    let said = "31,465,216 bytes written to c.dsk: 255 tracks, 2 sides, 15 sectors of 4,096 bytes\n";
    assert_eq!(bench.passes(&format!("dsk make most.bin c.dsk {}", options(greatest))), said);
    assert!(bench.get("c.dsk") == plain(greatest, &bench.get("most.bin")));
}

#[test]
fn numbers_and_sizes_have_many_forms() {
    let (bench, due) = bench();
    for line in [
        "a.bin b.dsk --tracks 0x1 --sides 0X01 --sectors 01 --gap 78 --filler 229",
        "--tracks=1 a.bin --sectors=1 --size=512 b.dsk",
        "--sectors 1 --tracks 1 --code 2 -- a.bin b.dsk",
        "a.bin ./b.dsk --tracks 1 --sectors 1 --size 0x200",
        "a.bin b.dsk --tracks 1 --sectors 1 --creator fluxproof",
    ] {
        bench.passes(&format!("dsk make {line}"));
        assert_eq!(bench.get("b.dsk"), due, "{line}");
        fs::remove_file(bench.path("b.dsk")).expect("the image removed");
    }
    for (code, size) in [(0, 128), (1, 256), (2, 512), (3, 1024), (4, 2048), (5, 4096)] {
        bench.put("a.bin", &data(size));
        bench.passes(&format!("dsk make a.bin b.dsk {SMALL} --size {size} --force"));
        bench.passes(&format!("dsk make a.bin c.dsk {SMALL} --code {code} --force"));
        assert!(bench.get("b.dsk") == bench.get("c.dsk") && bench.get("b.dsk") == plain((1, 1, 1, code), &data(size)), "{size}");
    }
}

#[test]
fn gap_and_filler_are_noted() {
    let (bench, _) = bench();
    for (gap, filler) in [(0, 0), (255, 255), (0x2A, 0xF6)] {
        assert_eq!(bench.passes(&format!("dsk make a.bin b.dsk {SMALL} --gap {gap} --filler {filler} --force")), SMALL_SAID);
        assert_eq!(bench.get("b.dsk"), due(b"fluxproof", (1, 1, 1, 2), (gap, filler), &data(512)));
    }
}

#[test]
fn the_creator_has_zeros_after_it() {
    let (bench, _) = bench();
    for creator in ["", "x", " bench 7 ", "14 characters!", "--force", "\"~\\"] {
        let run = made_by(&bench, creator);
        assert_eq!((run.status, run.out.as_str(), run.err.as_str()), (0, SMALL_SAID, ""), "{creator}");
        assert_eq!(bench.get("b.dsk"), due(creator.as_bytes(), (1, 1, 1, 2), (0x4E, 0xE5), &data(512)), "{creator}");
    }
    made_by(&bench, "bench 7");
    let shown = bench.passes("dsk show b.dsk");
    assert!(shown.contains("\ncreator             \"bench 7\"\n"), "{shown}");
}

#[test]
fn a_creator_that_does_not_fit_is_told() {
    let (bench, _) = bench();
    bench.put("b.dsk", b"precious");
    for (creator, message) in [
        ("15 characters!!", "\"15 characters!!\" has 15 characters, more than 14"),
        ("M\u{FC}hle", "\"M\u{FC}hle\" is not printable ASCII"),
        ("a\tb", "\"a\\tb\" is not printable ASCII"),
        ("\u{7F}", "\"\\u{7f}\" is not printable ASCII"),
        ("\u{E9} and far too long", "\"\u{E9} and far too long\" is not printable ASCII"),
    ] {
        let run = made_by(&bench, creator);
        let due = format!("fluxproof: dsk make: --creator: {message}; see \"fluxproof help dsk make\"\n");
        assert_eq!((run.status, run.out.as_str(), run.err), (2, "", due));
    }
    #[cfg(unix)]
    {
        let run = made_by(&bench, <std::ffi::OsStr as std::os::unix::ffi::OsStrExt>::from_bytes(b"x\xFF"));
        assert!(run.status == 2 && run.err.contains("--creator: \"x\\xFF\" is not printable ASCII"), "{run:?}");
    }
    assert_eq!((bench.get("b.dsk"), bench.names().len()), (b"precious".to_vec(), 3));
}

#[test]
fn numbers_that_no_image_has_are_refused() {
    let (bench, _) = bench();
    bench.put("b.dsk", b"precious");
    let names = bench.names();
    for (options, said) in [
        ("--tracks 0", "0 tracks, not 1 to 255"),
        ("--tracks 256", "256 tracks, not 1 to 255"),
        ("--tracks 4294967295", "4,294,967,295 tracks, not 1 to 255"),
        ("--sides 0", "0 sides, not 1 or 2"),
        ("--sides 3", "3 sides, not 1 or 2"),
        ("--sectors 30", "30 sectors, more than 29"),
        ("--code 6", "size code 6 (8,192 bytes), above 5 (4,096 bytes)"),
        ("--size 8192", "size code 6 (8,192 bytes), above 5 (4,096 bytes)"),
        ("--size 0x80000000", "size code 24 (2,147,483,648 bytes), above 5 (4,096 bytes)"),
        ("--code 4294967295", "size code 4,294,967,295, above 5 (4,096 bytes)"),
        ("--sectors 16 --size 4096", "a track size of 65,792 (256 + 16 sectors x 4,096 bytes), above 65,535"),
        ("--sectors 29 --code 5", "a track size of 119,040 (256 + 29 sectors x 4,096 bytes), above 65,535"),
        ("--tracks 1 --sectors 1 --gap 256", "gap 256, above 255"),
        ("--tracks 1 --sectors 1 --filler 0xFFFFFFFF", "filler 4,294,967,295, above 255"),
        (
            "--tracks 0 --sides 3 --sectors 30 --code 6 --gap 1000 --filler 0x100",
            "0 tracks, not 1 to 255; 3 sides, not 1 or 2; 30 sectors, more than 29; size code 6 (8,192 bytes), above 5 \
             (4,096 bytes); gap 1,000, above 255; filler 256, above 255",
        ),
        (
            "--tracks 300 --sectors 20 --code 5",
            "300 tracks, not 1 to 255; a track size of 82,176 (256 + 20 sectors x 4,096 bytes), above 65,535",
        ),
        (
            "--tracks 2 --sectors 1 --gap 256",
            "gap 256, above 255; 512 bytes of data, not the 1,024 of 2 tracks x 1 side x 1 sector x 512 bytes (--tracks 1 or --size 256 \
             would fit)",
        ),
    ] {
        bench.fails(&format!("dsk make a.bin b.dsk --force {options}"), 1, &format!("fluxproof: a.bin: refused 41 Layout: {said}\n"));
        assert_eq!((bench.get("b.dsk"), bench.names()), (b"precious".to_vec(), names.clone()), "{options}");
    }
}

#[test]
fn data_of_another_length_are_refused_with_what_would_fit() {
    let bench = Bench::new();
    bench.put("b.dsk", b"precious");
    let standard = "not the 184,320 of 40 tracks x 1 side x 9 sectors x 512 bytes";
    for (size, options, said) in [
        (0, "", format!("0 bytes of data, {standard}")),
        (1, "", format!("1 byte of data, {standard}")),
        (STANDARD_SIZE - 1, "", format!("184,319 bytes of data, {standard}")),
        (STANDARD_SIZE + 1, "", format!("184,321 bytes of data, {standard}")),
        (39 * 4608, "", format!("179,712 bytes of data, {standard} (--tracks 39 would fit)")),
        (42 * 4608, "", format!("193,536 bytes of data, {standard} (--tracks 42 or --tracks 21 --sides 2 would fit)")),
        (
            2 * STANDARD_SIZE,
            "",
            format!("368,640 bytes of data, {standard} (--tracks 80, --sides 2, --sectors 18 or --size 1024 would fit)"),
        ),
        (40 * 10 * 512, "", format!("204,800 bytes of data, {standard} (--sectors 10 would fit)")),
        (77 * 26 * 128, "", format!("256,256 bytes of data, {standard} (--tracks 77 --sectors 26 --size 128 would fit)")),
        (
            160 * 10 * 512,
            "",
            format!(
                "819,200 bytes of data, {standard} (--tracks 80 --sides 2 --sectors 10 or --tracks 80 --sides 2 --sectors 5 --size 1024 \
                 would fit)"
            ),
        ),
        (
            STANDARD_SIZE,
            "--sides 2",
            "184,320 bytes of data, not the 368,640 of 40 tracks x 2 sides x 9 sectors x 512 bytes (--tracks 20, --sides 1 or --size 256 \
             would fit)"
                .to_string(),
        ),
        (
            4 * STANDARD_SIZE,
            "--tracks 80",
            "737,280 bytes of data, not the 368,640 of 80 tracks x 1 side x 9 sectors x 512 bytes (--tracks 160, --sides 2, --sectors 18 or \
             --size 1024 would fit)"
                .to_string(),
        ),
        (
            77 * 26 * 128,
            "--tracks 77 --sectors 26",
            "256,256 bytes of data, not the 1,025,024 of 77 tracks x 1 side x 26 sectors x 512 bytes (--size 128 would fit)".to_string(),
        ),
        (
            128,
            "--tracks 1 --sectors 0 --code 0",
            "128 bytes of data, not the 0 of 1 track x 1 side x 0 sectors x 128 bytes (--sectors 1 would fit)".to_string(),
        ),
        // 16 sectors of 4,096 bytes would be too large a track.
        (
            65_536,
            "--tracks 1 --sectors 1 --code 5",
            "65,536 bytes of data, not the 4,096 of 1 track x 1 side x 1 sector x 4,096 bytes (--tracks 16 or --tracks 8 --sides 2 would \
             fit)"
                .to_string(),
        ),
    ] {
        let data = data(size);
        bench.put("a.bin", &data);
        let names = bench.names();
        bench.fails(&format!("dsk make a.bin b.dsk --force {options}"), 1, &format!("fluxproof: a.bin: refused 41 Layout: {said}\n"));
        let run = bench.run_with(&format!("dsk make - b.dsk --force {options}"), &data);
        assert_eq!((run.status, run.err), (1, format!("fluxproof: standard input: refused 41 Layout: {said}\n")));
        assert_eq!((bench.get("b.dsk"), bench.names()), (b"precious".to_vec(), names), "{said}");
    }
}

#[test]
fn a_file_that_is_too_long_is_not_cut() {
    let (bench, _) = bench();
    for (length, size) in [(268_435_456, "268,435,456"), (268_435_457, "at least 268,435,457"), (268_435_969, "at least 268,435,457")] {
        let file = fs::OpenOptions::new().write(true).open(bench.path("a.bin")).expect("the file");
        file.set_len(length).expect("a sparse file");
        let said = format!("a.bin: refused 41 Layout: {size} bytes of data, not the 512 of 1 track x 1 side x 1 sector x 512 bytes\n");
        bench.fails(&format!("dsk make a.bin b.dsk {SMALL}"), 1, &said);
    }
    assert!(!bench.path("b.dsk").exists());
}

#[cfg(target_os = "linux")]
#[test]
fn no_room_is_made_for_what_is_refused() {
    let (bench, _) = bench();
    bench.put("none.bin", b"");
    // Without sectors the data have the right length; the image would have 2.5 GB.
    let script = "ulimit -v 262144; exec \"$0\" dsk make none.bin b.dsk --tracks 100000 --sides 100 --sectors 0";
    let run = crate::streams::shell(&bench, "sh", &[], script);
    assert_eq!(run.err, "fluxproof: none.bin: refused 41 Layout: 100,000 tracks, not 1 to 255; 100 sides, not 1 or 2\n");
    assert_eq!((run.status, bench.path("b.dsk").exists()), (1, false));
}

#[test]
fn existing_files_are_kept() {
    let (bench, due) = bench();
    bench.put("b.dsk", b"precious");
    let line = format!("dsk make a.bin OUT {SMALL}");
    let to = |out: &str| line.replace("OUT", out);
    bench.fails(&to("b.dsk"), 3, "b.dsk: it exists already; --force replaces it\n");
    bench.fails(&to("none/b.dsk"), 3, "none/b.dsk: cannot be written: No such file");
    bench.fails(&to("."), 2, "\".\" names no file");
    bench.fails(&to("-"), 2, "\"-\" names no file to write (one named - is ./-)");
    for force in ["", " --force"] {
        bench.fails(&(to("a.bin") + force), 3, "a.bin: the command reads this file, so it is not replaced\n");
        bench.fails(&(to("./a.bin") + force), 3, "./a.bin: the command reads this file, so it is not replaced\n");
    }
    assert_eq!((bench.get("b.dsk"), bench.get("a.bin")), (b"precious".to_vec(), data(512)));
    assert_eq!(bench.passes(&(to("b.dsk") + " --force")), SMALL_SAID);
    assert_eq!((bench.get("b.dsk"), bench.names().len()), (due.clone(), 3));
    bench.passes(&(to("c.dsk") + " --force"));
    bench.passes(&to("./-"));
    assert_eq!((bench.get("c.dsk"), bench.get("-")), (due.clone(), due));
}

#[cfg(unix)]
#[test]
fn a_file_is_written_whole_or_not_at_all() {
    let (bench, _) = bench();
    bench.put("long.bin", &data(STANDARD_SIZE));
    bench.put("old.dsk", b"precious");
    let names = bench.names();
    for out in ["old.dsk --force", "new.dsk"] {
        let run = crate::streams::shell(&bench, "sh", &[], &format!("ulimit -f 1; exec \"$0\" dsk make long.bin {out}"));
        assert!(run.status == 3 && run.err.contains(".dsk: cannot be written: File too large"), "{out}: {run:?}");
        assert_eq!((bench.get("old.dsk"), bench.names()), (b"precious".to_vec(), names.clone()), "{out}");
    }
}

#[test]
fn wrong_command_lines_are_told() {
    let (bench, _) = bench();
    let help = "; see \"fluxproof help dsk make\"";
    for (line, message) in [
        ("", "DATA is missing"),
        ("a.bin", "OUT is missing"),
        ("a.bin b.dsk 40", "unexpected argument \"40\" after DATA OUT"),
        ("a.bin b.dsk --tracks forty", "--tracks: \"forty\" is not a number (decimal, or hexadecimal after 0x)"),
        ("a.bin b.dsk --sides -1", "--sides: \"-1\" is not a number (decimal, or hexadecimal after 0x)"),
        ("a.bin b.dsk --sectors=", "--sectors: \"\" is not a number (decimal, or hexadecimal after 0x)"),
        ("a.bin b.dsk --code 2.5", "--code: \"2.5\" is not a number (decimal, or hexadecimal after 0x)"),
        ("a.bin b.dsk --gap 4E", "--gap: \"4E\" is not a number (decimal, or hexadecimal after 0x)"),
        ("a.bin b.dsk --filler 4294967296", "--filler: 4294967296 is above 4,294,967,295"),
        ("a.bin b.dsk --size 1k", "--size: \"1k\" is not a number (decimal, or hexadecimal after 0x)"),
        ("a.bin b.dsk --size 0", "--size: no sector has 0 bytes (128, 256, 512, 1024, 2048 or 4096)"),
        ("a.bin b.dsk --size 1", "--size: no sector has 1 byte (128, 256, 512, 1024, 2048 or 4096)"),
        ("a.bin b.dsk --size 64", "--size: no sector has 64 bytes (128, 256, 512, 1024, 2048 or 4096)"),
        ("a.bin b.dsk --size 6144", "--size: no sector has 6,144 bytes (128, 256, 512, 1024, 2048 or 4096)"),
        ("a.bin b.dsk --code 2 --size 512", "--code and --size exclude each other"),
        ("a.bin b.dsk --tracks 40 --tracks 40", "--tracks is given twice"),
        ("a.bin b.dsk --tracks", "--tracks needs a value"),
        ("a.bin b.dsk --creator", "--creator needs a value"),
        ("a.bin b.dsk --force=1", "--force takes no value"),
        ("a.bin b.dsk --track 40", "unknown option \"--track\" (did you mean \"--tracks\"?)"),
        ("a.bin b.dsk --in-place", "unknown option \"--in-place\""),
    ] {
        bench.fails(&format!("dsk make {line}"), 2, &format!("dsk make: {message}{help}"));
    }
    bench.fails("dsk make none.bin b.dsk", 3, "none.bin: No such file");
    bench.fails("dsk mak a.bin b.dsk", 2, "dsk: unknown command \"mak\" (did you mean \"make\"?); see \"fluxproof help dsk\"");
    assert_eq!(bench.names(), ["a.bin", "a.scp"]);
}

#[cfg(unix)]
#[test]
fn the_examples_of_the_help_are_true() {
    let bench = Bench::new();
    bench.put("dump.bin", &data(STANDARD_SIZE));
    bench.put("dump720.bin", &data(4 * STANDARD_SIZE));
    let help = bench.passes("help dsk make");
    let examples = help.split("\nExamples:\n").nth(1).and_then(|rest| rest.split("\nExit status").next()).expect("examples");
    for example in examples.split("  $ ").skip(1) {
        let (line, said) = example.split_once('\n').expect("a line and what it says");
        let run = crate::streams::shell(&bench, "sh", &[], &line.replace("fluxproof dsk", "\"$0\" dsk"));
        let all = run.out + &run.err;
        // A line that is too long for the help goes on in the next.
        assert!(all.split_whitespace().eq(said.split_whitespace()), "{line}: {all}");
    }
    assert_eq!(bench.passes("dsk validate a.dsk b.dsk blank.dsk"), "a.dsk: ok\nb.dsk: ok\nblank.dsk: ok\n");
    assert!(bench.get("b.dsk") == due(b"bench 7", (80, 2, 9, 2), (0x4E, 0xE5), &bench.get("dump720.bin")));
    assert!(bench.get("blank.dsk") == plain(STANDARD, &[0xE5; STANDARD_SIZE]));
}
