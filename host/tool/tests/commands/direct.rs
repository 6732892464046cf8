//! `--direct` with `read` and `plot`: the header and one track are tested, and nothing else.

use scp::Edition;

use crate::bench::{changed, damaged_a, image, image_by, with_footer, Bench, Revolution};

/// Tracks 1 to 3 of two revolutions, and a footer. The headers are at 688, 720 and 752, each with 28 bytes and two words; the maker, "hi",
/// is from 784 to 789, and the footer from 789 to 837.
fn footed() -> Vec<u8> {
    let tracks: [(u8, &[Revolution]); 3] = [
        (1, &[(8_000_000, &[5]), (8_000_001, &[6])]),
        (2, &[(8_000_002, &[7]), (8_000_003, &[8])]),
        (3, &[(8_000_004, &[9]), (8_000_005, &[0])]),
    ];
    with_footer(image(0, &tracks), [b"hi", b"", b"", b"", b"", b""], 1, 2)
}

/// The same with some bytes changed: those from each offset on.
fn footed_but(changes: &[(usize, &[u8])]) -> Vec<u8> {
    changes.iter().fold(footed(), |bytes, (offset, new)| changed(bytes, *offset, new))
}

/// Each of the forms that a revolution is read or drawn in.
fn forms(file: &str, place: &str) -> [String; 7] {
    [
        format!("read {file} {place}"),
        format!("read --us {file} {place}"),
        format!("read {file} {place} --csv"),
        format!("read {file} --csv {place} --us"),
        format!("read {file} {place} --closing"),
        format!("read --closing {file} --us {place} --csv"),
        format!("plot {file} {place} out.svg --force"),
    ]
}

/// Runs a line; gives the status, what is said on both streams, and what is drawn.
fn result(bench: &Bench, line: &str) -> (i32, String, String, Option<Vec<u8>>) {
    let drawing = bench.path("out.svg");
    let _ = std::fs::remove_file(&drawing);
    let run = bench.run(line);
    (run.status, run.out, run.err, std::fs::read(&drawing).ok())
}

#[test]
fn of_an_image_that_opens_the_same_is_said_and_drawn() {
    let bench = Bench::new();
    let many: Vec<Revolution> = vec![(8_000_000, &[160, 0, 1, 0]); 255];
    let edges: [(u8, &[Revolution]); 4] =
        [(0, &[(0, &[])]), (1, &[(0, &[0, 0])]), (5, &[(u32::MAX, &[65_535, 0, 1])]), (167, &[(7, &[9])])];
    let one_sided = changed(image(0, &[(2, &[(1, &[5])]), (4, &[(3, &[6])])]), 10, &[1]);
    let cases = [
        (scp::example::image_a(), "1.6", &["0 0", "0 1", "1 0", "0x0 0x0", "168 0", "4294967295 4294967295"][..]),
        (scp::example::image_a(), "1.4", &["0 0", "0 1", "1 0", "165 0", "166 0", "168 0"]),
        (scp::example::image_a_1_4(), "1.4", &["0 0", "0 1", "1 0", "166 0"]),
        (damaged_a(), "1.6", &["0 0", "0 1", "1 0"]),
        (footed(), "1.6", &["0 0", "1 0", "2 1", "3 1", "3 2", "4 0"]),
        (footed(), "1.4", &["0 0", "1 0", "2 1", "3 1", "3 2", "4 0"]),
        (image(1, &[(0, &many), (3, &many)]), "1.6", &["0 0", "3 100", "3 254", "3 255", "2 0"]),
        (image_by(Edition::V1_4, 1, &[(165, &many)]), "1.4", &["165 0", "165 254", "165 255", "164 0"]),
        (image(0x10, &edges), "1.6", &["0 0", "1 0", "5 0", "167 0", "166 0", "167 1"]),
        (one_sided, "1.6", &["2 0", "3 0", "4 0", "4 1"]),
    ];
    for (bytes, edition, places) in cases {
        bench.put("b.scp", &bytes);
        for line in places.iter().flat_map(|place| forms("b.scp", place)) {
            let line = format!("{line} --edition {edition}");
            assert_eq!(result(&bench, &format!("{line} --direct")), result(&bench, &line), "{line}");
        }
    }
}

#[test]
fn the_option_may_stand_anywhere() {
    let bench = Bench::new();
    bench.put("--direct", &scp::example::image_a());
    for line in ["read --direct a.scp 0 0", "read a.scp --direct 0 0", "read a.scp 0 0 --direct", "read --direct -- --direct 0 0"] {
        assert_eq!(bench.passes(line), "160\n65537\n240\n", "{line}");
    }
    let run = bench.run_with("read --direct - 0 0 --us --csv", &damaged_a());
    assert_eq!((run.status, run.out.as_str()), (0, "index,microseconds\n0,4.000\n1,1638.425\n2,6.000\n"));
    let run = bench.run_with("plot - 0 0 b.svg --direct", &scp::example::image_a());
    assert_eq!((run.status, run.out.as_str()), (0, "3 intervals drawn in b.svg\n"));
}

/// What can be wrong behind the header but for track 2, with what the full call says of it.
fn faulty_elsewhere() -> Vec<(Vec<u8>, &'static str)> {
    let with_room = {
        let mut bytes = image(0x20, &[(2, &[(8_000_002, &[7]), (8_000_003, &[8])])]);
        bytes.extend([0; 48]);
        changed(bytes, 8, &[0x20])
    };
    vec![
        (footed_but(&[(833, b"FPC\0")]), "7 Footer: the last four bytes are 46 50 43 00, not FPCS"),
        (footed_but(&[(832, &[0x15])]), "7 Footer: the format version 0x15 is below 0x16"),
        (with_room, "7 Footer: the last four bytes are 00 00 00 00, not FPCS"),
        (footed_but(&[(789, &[0xAF, 0x02])]), "8 String: maker: its offset 687 is below 688"),
        (footed_but(&[(809, &[0xFF; 4])]), "8 String: comments: its length at 4,294,967,295 ends past 789"),
        (footed_but(&[(787, &[0])]), "8 String: maker: the byte at 787, within its 2 bytes, is 0"),
        (footed_but(&[(788, b"!")]), "8 String: maker: the byte at 788, after its 2 bytes, is 21, not 0"),
        (
            footed_but(&[(787, &[0x97])]),
            "19 Text: maker (string 0 at 784): not UTF-8 at 787, after 1 of its 2 bytes: 97 cannot start a character, in \"h\\x97\"",
        ),
        (footed_but(&[(6, &[2])]), "9 Slot: track 1 has an entry, but the tracks are 2 to 3"),
        (footed_but(&[(7, &[2])]), "9 Slot: track 3 has an entry, but the tracks are 1 to 2"),
        (footed_but(&[(10, &[1])]), "9 Slot: track 1 has an entry, but only side 0 is held (heads 1)"),
        (footed_but(&[(20, &[0xAF])]), "10 Track: track 1: its header at 687 is below 688"),
        (footed_but(&[(28, &[0xFF; 4])]), "10 Track: track 3: its header of 28 bytes at 4,294,967,295 ends at 4,294,967,323, past 789"),
        (footed_but(&[(688, b"X")]), "10 Track: track 1: the three bytes at 688 are 58 52 4B, not TRK"),
        (footed_but(&[(755, &[2])]), "10 Track: track 3: its header at 752 is that of track 2"),
        (footed_but(&[(696, &[100])]), "11 Flux: track 1, revolution 0: 2 x 100 bytes at 716 end at 916, past 789"),
        (footed_but(&[(776, &[0xFF])]), "11 Flux: track 3, revolution 1: 2 x 1 bytes at 1,007 end at 1,009, past 789"),
    ]
}

#[test]
fn a_fault_elsewhere_is_not_looked_at() {
    let bench = Bench::new();
    for place in ["2 0", "2 1"] {
        bench.put("b.scp", &footed());
        let sound = forms("b.scp", place).map(|line| result(&bench, &line));
        for (bytes, said) in faulty_elsewhere() {
            bench.put("b.scp", &bytes);
            for (line, sound) in forms("b.scp", place).iter().zip(&sound) {
                let full = result(&bench, line);
                assert_eq!(full, (1, String::new(), format!("fluxproof: b.scp: refused {said}\n"), None), "{line}");
                let direct = result(&bench, &format!("{line} --direct"));
                assert_eq!((direct.0, direct.2.as_str()), (0, ""), "{line}: {said}");
                assert_eq!(direct, *sound, "{line}: {said}");
            }
        }
    }
}

#[test]
fn a_wrong_length_or_header_is_told() {
    let bench = Bench::new();
    let a = |offset: usize, bytes: &[u8]| changed(scp::example::image_a(), offset, bytes);
    for (bytes, said) in [
        (vec![], "1 Size: 0 bytes, fewer than 688"),
        (vec![0; 687], "1 Size: 687 bytes, fewer than 688"),
        (a(0, b"SPC"), "2 Sign: the first three bytes are 53 50 43, not SCP"),
        (a(0, b"MV - CPC"), "2 Sign: the first three bytes are 4D 56 20 (a DSK image?), not SCP"),
        (a(9, &[8]), "3 Width: byte 0x09 is 8, not 0 or 16"),
        (a(5, &[0]), "4 Revolutions: byte 0x05 is 0, not 1 to 255"),
        (footed_but(&[(8, &[0x30])]), "4 Revolutions: byte 0x05 is 2, but a read/write image (FLAGS bit 4) has 1"),
        (a(6, &[9, 3]), "5 Span: the start track 9 is above the end track 3"),
        (a(7, &[168]), "5 Span: the end track 168 is above 167"),
        (a(10, &[3]), "6 Heads: byte 0x0A is 3, not 0, 1 or 2"),
    ] {
        bench.put("b.scp", &bytes);
        for place in ["0 0", "1 0", "168 0"] {
            for line in forms("b.scp", place) {
                // These come first in the full call, too.
                let due = (1, String::new(), format!("fluxproof: b.scp: refused {said}\n"), None);
                assert_eq!(result(&bench, &line), due, "{line}");
                assert_eq!(result(&bench, &format!("{line} --direct")), due, "{line}");
            }
        }
    }
}

/// Faults of the track that is asked for, or that it is not there, on an image whose maker and track 1 are faulty, too.
fn faulty_here() -> Vec<(Vec<u8>, &'static str, &'static str)> {
    let but = |changes: &[(usize, &[u8])]| footed_but(&[&[(787, &[0][..]), (688, b"X")], changes].concat());
    let many_words = but(&[(740, &[100])]);
    vec![
        (but(&[(7, &[2])]), "3 0", "9 Slot: track 3 has an entry, but the tracks are 1 to 2"),
        (but(&[(10, &[1])]), "3 0", "9 Slot: track 3 has an entry, but only side 0 is held (heads 1)"),
        (but(&[(10, &[2])]), "2 0", "9 Slot: track 2 has an entry, but only side 1 is held (heads 2)"),
        (but(&[(7, &[2]), (10, &[1]), (752, b"X")]), "3 9", "9 Slot: track 3 has an entry, but the tracks are 1 to 2"),
        (but(&[]), "1 0", "10 Track: track 1: the three bytes at 688 are 58 52 4B, not TRK"),
        (but(&[(24, &[0xAF])]), "2 0", "10 Track: track 2: its header at 687 is below 688"),
        (but(&[(24, &[0xFA, 0x02])]), "2 0", "10 Track: track 2: its header of 28 bytes at 762 ends at 790, past 789"),
        (but(&[(720, b"x")]), "2 9", "10 Track: track 2: the three bytes at 720 are 78 52 4B, not TRK"),
        (but(&[(723, &[9]), (740, &[100])]), "2 0", "10 Track: track 2: its header at 720 is that of track 9"),
        (many_words.clone(), "2 1", "11 Flux: track 2, revolution 1: 2 x 100 bytes at 750 end at 950, past 789"),
        (many_words.clone(), "2 0", "11 Flux: track 2, revolution 1: 2 x 100 bytes at 750 end at 950, past 789"),
        (many_words, "2 2", "11 Flux: track 2, revolution 1: 2 x 100 bytes at 750 end at 950, past 789"),
        (but(&[]), "0 0", "13 Absent: track 0 has no entry in the table, which has 3 tracks"),
        (but(&[]), "4 9", "13 Absent: track 4 has no entry in the table, which has 3 tracks"),
        (but(&[]), "168 0", "13 Absent: track 168 is above 167"),
        (but(&[]), "2 2", "14 Revolution: revolution 2 of track 2: a track has 2 revolutions, from 0 on"),
        (but(&[]), "3 4294967295", "14 Revolution: revolution 4294967295 of track 3: a track has 2 revolutions, from 0 on"),
    ]
}

#[test]
fn a_fault_of_this_track_is_told() {
    let bench = Bench::new();
    for (bytes, place, said) in faulty_here() {
        bench.put("b.scp", &bytes);
        for line in forms("b.scp", place) {
            let due = |said: &str| (1, String::new(), format!("fluxproof: b.scp: refused {said}\n"), None);
            assert_eq!(result(&bench, &format!("{line} --direct")), due(said), "{line}");
            assert_eq!(result(&bench, &line), due("8 String: maker: the byte at 787, within its 2 bytes, is 0"), "{line}");
        }
    }
}

#[test]
fn a_footer_that_is_announced_is_kept_free() {
    let bench = Bench::new();
    bench.put("b.scp", &changed(scp::example::image_a(), 8, &[0x21]));
    let hint = "(the track is valid as revision 1.4: try --edition 1.4)";
    let said = "10 Track: track 0: its header of 16 bytes at 688 ends at 704, past 664";
    bench.fails("read b.scp 0 0 --direct", 1, &format!("b.scp: refused {said} {hint}\n"));
    bench.fails("read b.scp 1 0 --direct", 1, "b.scp: refused 13 Absent: track 1 has no entry in the table, which has 1 track\n");
    assert_eq!(bench.passes("read b.scp 0 0 --direct --edition 1.4"), "160\n65537\n240\n");
    for (more, said) in [(47, "11 Flux: track 0, revolution 0: 2 x 4 bytes at 704 end at 712, past 711"), (48, "")] {
        let mut bytes = bench.get("b.scp");
        bytes.extend(vec![0; more]);
        bench.put("c.scp", &bytes);
        match said {
            "" => assert_eq!(bench.passes("read c.scp 0 0 --direct"), "160\n65537\n240\n"),
            _ => bench.fails("read c.scp 0 0 --direct", 1, &format!("c.scp: refused {said} {hint}\n")),
        }
    }
}

#[test]
fn the_edition_that_has_the_track_is_hinted_at() {
    let bench = Bench::new();
    let two: [(u8, &[Revolution]); 2] = [(0, &[(7, &[5])]), (9, &[(7, &[6])])];
    let old = image_by(Edition::V1_4, 0, &two);
    let new = image(0, &[(0, &[(7, &[5])]), (167, &[(7, &[6])])]);
    bench.put("old.scp", &old);
    bench.put("broken.scp", &changed(old, 680 + 18, b"X"));
    bench.put("new.scp", &new);
    bench.put("wrong.scp", &changed(new, 688 + 18, b"X"));
    let hint = |edition: &str| format!(" (the track is valid as revision {edition}: try --edition {edition})");
    let (low, high) = ("10 Track: track 0: its header at 680 is below 688", "5 Span: the end track 167 is above 165");
    for (line, said, edition) in [
        ("old.scp 0 0", low, "1.4"),
        ("old.scp 0 7", low, "1.4"),
        ("broken.scp 0 0", low, "1.4"),
        ("new.scp 0 0 --edition 1.4", high, "1.6"),
        ("new.scp 167 0 --edition 1.4", high, "1.6"),
        ("wrong.scp 0 0 --edition 1.4", high, "1.6"),
        // The other edition has no such track, or refuses it, too.
        ("old.scp 166 0", "9 Slot: track 166 has an entry, but the tracks are 0 to 9", ""),
        ("old.scp 1 0", "13 Absent: track 1 has no entry in the table, which has 4 tracks", ""),
        ("old.scp 166 0 --edition 1.4", "13 Absent: track 166 is above 165", ""),
        ("old.scp 0 1 --edition 1.4", "14 Revolution: revolution 1 of track 0: a track has 1 revolution, from 0 on", ""),
        ("old.scp 9 1", "14 Revolution: revolution 1 of track 9: a track has 1 revolution, from 0 on", ""),
        ("broken.scp 9 0", "10 Track: track 9: the three bytes at 698 are 58 52 4B, not TRK", ""),
        ("new.scp 1 0 --edition 1.4", high, ""),
        ("new.scp 168 0 --edition 1.4", high, ""),
        ("wrong.scp 167 0 --edition 1.4", high, ""),
        ("wrong.scp 167 0", "10 Track: track 167: the three bytes at 706 are 58 52 4B, not TRK", ""),
    ] {
        let (file, _) = line.split_once(' ').expect("a file");
        let due = format!("{file}: refused {said}{}\n", if edition.is_empty() { String::new() } else { hint(edition) });
        bench.fails(&format!("read {line} --direct"), 1, &due);
        bench.fails(&format!("plot {line} out.svg --direct"), 1, &due);
    }
    // What both editions read alike needs no name.
    for line in ["old.scp 9 0", "old.scp 9 0 --edition 1.4", "new.scp 167 0"] {
        assert_eq!(bench.passes(&format!("read {line} --direct")), "6\n");
    }
    assert_eq!(bench.passes("read broken.scp 0 0 --direct --edition 1.4"), "5\n");
    assert_eq!(bench.passes("read wrong.scp 0 0 --direct"), "5\n");
}

#[test]
fn a_drawing_is_written_by_the_same_rules() {
    let bench = Bench::new();
    bench.put("a.svg", b"precious");
    bench.fails("plot a.scp 0 0 a.svg --direct", 3, "a.svg: it exists already; --force replaces it");
    bench.fails("plot a.scp 0 0 a.scp --force --direct", 3, "a.scp: this is the image itself");
    bench.fails("plot a.scp 9 0 b.svg --direct", 1, "a.scp: refused 13 Absent: track 9 has no entry");
    bench.fails("plot none.scp 0 0 b.svg --direct", 3, "none.scp: No such file");
    assert_eq!((bench.get("a.svg"), bench.names()), (b"precious".to_vec(), vec!["a.scp".to_string(), "a.svg".to_string()]));
    assert_eq!(bench.passes("plot a.scp 0 0 a.svg --direct --force"), "3 intervals drawn in a.svg\n");
}

#[test]
fn wrong_usage_is_said() {
    let bench = Bench::with_disk();
    bench.put("words.bin", &[0, 1]);
    bench.put("calls.txt", b"validate\n");
    let names = bench.names();
    for line in ["read a.scp 0 0", "plot a.scp 0 0 out.svg"] {
        let name = &line[..4];
        let help = format!("; see \"fluxproof help {name}\"\n");
        bench.fails(&format!("{line} --direct --direct"), 2, &format!("{name}: --direct is given twice{help}"));
        bench.fails(&format!("{line} --direct=1"), 2, &format!("{name}: --direct takes no value{help}"));
        bench.fails(&format!("{line} --dircet"), 2, &format!("{name}: unknown option \"--dircet\" (did you mean \"--direct\"?){help}"));
    }
    for line in [
        "list a.scp",
        "validate a.scp",
        "show a.scp",
        "patch a.scp b.scp 0 0 --duration keep --words words.bin",
        "replay a.scp calls.txt",
        "dsk list a.dsk",
        "dsk validate a.dsk",
        "dsk show a.dsk",
        "dsk sector a.dsk 0 0 0",
        "dsk make words.bin b.dsk",
    ] {
        bench.fails(&format!("{line} --direct"), 2, "unknown option \"--direct\"");
    }
    bench.fails("--direct read a.scp 0 0", 2, "unknown option \"--direct\"; see \"fluxproof --help\"");
    assert_eq!(bench.names(), names);
}

#[test]
fn the_help_says_what_is_not_tested() {
    let bench = Bench::new();
    for line in ["--help", "help read", "help plot"] {
        let help = bench.passes(line).split_whitespace().collect::<Vec<_>>().join(" ");
        for part in ["--direct", "footer, its strings", "other tracks", "nor that the image is valid", "image that other commands refuse"] {
            assert!(help.contains(part), "{line} without \"{part}\": {help}");
        }
    }
    for name in ["list", "validate", "show", "patch", "replay", "dsk"] {
        assert!(!bench.passes(&format!("help {name}")).contains("--direct"), "{name}");
    }
    // The example.
    let footed = with_footer(scp::example::image_a(), [b""; 6], 1, 2);
    bench.put("b.scp", &changed(footed, 712 + 44, b"FPC\0"));
    let [full, direct] = ["read b.scp 0 0", "read b.scp 0 0 --direct"].map(|line| (line, bench.run(line)));
    let example = format!("  $ fluxproof {}\n  {}  $ fluxproof {}\n", full.0, full.1.err, direct.0);
    let printed: String = direct.1.out.lines().map(|line| format!("  {line}\n")).collect();
    assert!(bench.passes("help read").contains(&(example + &printed)), "{full:?} {direct:?}");
}
