//! What refusals say: every case of every number, and that it is the one that the library refuses.

use crate::bench::{changed, image, with_footer, Bench};

/// Image A with a change.
fn a(offset: usize, bytes: &[u8]) -> Vec<u8> {
    changed(scp::example::image_a(), offset, bytes)
}

/// An image with a footer: the track's 712 bytes, "hello" as its maker from 712 to 720, the footer from 720 to 768.
fn footed() -> Vec<u8> {
    with_footer(scp::example::image_a(), [b"hello", b"", b"", b"", b"", b""], 1, 2)
}

/// An image whose footer names an offset for the comments.
fn commented(offset: u32) -> Vec<u8> {
    changed(footed(), 720 + 20, &offset.to_le_bytes())
}

/// Tracks 1 to 3 of two revolutions: headers at 688, 720 and 752, each with 28 bytes and two words.
fn three_tracks() -> Vec<u8> {
    let revolutions: &[(u32, &[u16])] = &[(1, &[5]), (2, &[6])];
    image(0, &[(1, revolutions), (2, revolutions), (3, revolutions)])
}

/// Images with what the library answers for them and what the tool says.
fn cases() -> Vec<(Vec<u8>, &'static str, &'static str)> {
    let mut damaged = scp::example::image_a();
    damaged[12] += 1;
    let mut stored = a(8, &[0x11]);
    stored[12..15].copy_from_slice(&[0x15, 0xCD, 0x5B]);
    let one_side = |heads: u8| changed(image(0, &[(2, &[(1, &[5])]), (3, &[(1, &[5])])]), 10, &[heads]);
    vec![
        (vec![], "1 at 0", "1 Size: 0 bytes, fewer than 688"),
        (vec![0; 687], "1 at 0", "1 Size: 687 bytes, fewer than 688"),
        (a(0, b"SPC"), "2 at 0", "2 Sign: the first three bytes are 53 50 43, not SCP"),
        (a(9, &[8]), "3 at 0", "3 Width: byte 0x09 is 8, not 0 or 16"),
        (a(5, &[0]), "4 at 0", "4 Revolutions: byte 0x05 is 0, not 1 to 255"),
        (changed(three_tracks(), 8, &[0x10]), "4 at 0", "4 Revolutions: byte 0x05 is 2, but a read/write image (FLAGS bit 4) has 1"),
        (a(6, &[9, 3]), "5 at 0", "5 Span: the start track 9 is above the end track 3"),
        (a(7, &[168]), "5 at 0", "5 Span: the end track 168 is above 167"),
        (a(10, &[3]), "6 at 0", "6 Heads: byte 0x0A is 3, not 0, 1 or 2"),
        (a(8, &[0x21]), "7 at 0", "7 Footer: FLAGS 0x21 announces one, but 712 bytes are fewer than 736"),
        (changed(footed(), 764, b"FPC\0"), "7 at 0", "7 Footer: the last four bytes are 46 50 43 00, not FPCS"),
        (changed(footed(), 763, &[0x15]), "7 at 0", "7 Footer: the format version 0x15 is below 0x16"),
        (commented(687), "8 at 5", "8 String: comments: its offset 687 is below 688"),
        (commented(719), "8 at 5", "8 String: comments: its length at 719 ends past 720"),
        (commented(u32::MAX), "8 at 5", "8 String: comments: its length at 4,294,967,295 ends past 720"),
        (changed(footed(), 712, &[6]), "8 at 0", "8 String: maker: 2 + 6 + 1 bytes at 712 end at 721, past 720"),
        (changed(footed(), 716, &[0]), "8 at 0", "8 String: maker: the byte at 716, within its 5 bytes, is 0"),
        (changed(footed(), 712, &[4]), "8 at 0", "8 String: maker: the byte at 718, after its 4 bytes, is 6F, not 0"),
        (
            changed(footed(), 715, &[0x97]),
            "19 at 0",
            "19 Text: maker (string 0 at 712): not UTF-8 at 715, after 1 of its 5 bytes: 97 cannot start a character, in \"h\\x97llo\"",
        ),
        (
            changed(footed(), 718, &[0xE9]),
            "19 at 0",
            "19 Text: maker (string 0 at 712): not UTF-8 at 718, after 4 of its 5 bytes: E9 starts a character of 3 bytes, which the end \
             of the string cuts off, in \"hell\\xE9\"",
        ),
        (changed(three_tracks(), 7, &[2]), "9 at 3", "9 Slot: track 3 has an entry, but the tracks are 1 to 2"),
        (changed(three_tracks(), 6, &[2]), "9 at 1", "9 Slot: track 1 has an entry, but the tracks are 2 to 3"),
        (one_side(1), "9 at 3", "9 Slot: track 3 has an entry, but only side 0 is held (heads 1)"),
        (one_side(2), "9 at 2", "9 Slot: track 2 has an entry, but only side 1 is held (heads 2)"),
        (a(16, &[0xAF]), "10 at 0", "10 Track: track 0: its header at 687 is below 688"),
        (a(16, &[0xB9]), "10 at 0", "10 Track: track 0: its header of 16 bytes at 697 ends at 713, past 712"),
        (a(5, &[6]), "10 at 0", "10 Track: track 0: its header of 76 bytes at 688 ends at 764, past 712"),
        (a(5, &[255]), "10 at 0", "10 Track: track 0: its header of 3,064 bytes at 688 ends at 3,752, past 712"),
        (a(689, b"X"), "10 at 0", "10 Track: track 0: the three bytes at 688 are 54 58 4B, not TRK"),
        (changed(three_tracks(), 723, &[9]), "10 at 2", "10 Track: track 2: its header at 720 is that of track 9"),
        (a(696, &[5]), "11 at 0", "11 Flux: track 0, revolution 0: 2 x 5 bytes at 704 end at 714, past 712"),
        (
            changed(three_tracks(), 752 + 4 + 12 + 8, &[0xFF; 4]),
            "11 at 3",
            "11 Flux: track 3, revolution 1: 2 x 1 bytes at 4,294,968,047 end at 4,294,968,049, past 784",
        ),
        (damaged, "12 at 0", "12 Sum: stored 981, the bytes add up to 980"),
        (stored, "12 at 0", "12 Sum: stored 6,016,277, but a read/write image (FLAGS bit 4) stores 0"),
    ]
}

#[test]
fn every_case_of_every_number_is_told() {
    let bench = Bench::new();
    let mut numbers = Vec::new();
    for (bytes, answer, said) in cases() {
        bench.put("b.scp", &bytes);
        for command in ["validate b.scp", "validate --all b.scp", "show b.scp"] {
            let run = bench.run(command);
            assert_eq!((run.status, run.err.as_str(), run.out.lines().next()), (1, "", Some(&*format!("b.scp: refused {said}"))));
        }
        let run = bench.run("list b.scp");
        assert_eq!((run.status, run.out), (1, format!("refused {answer}\n")), "{said}");
        if !answer.starts_with("12 ") {
            bench.fails("read b.scp 0 0", 1, &format!("b.scp: refused {said}"));
            bench.fails("plot b.scp 0 0 b.svg", 1, &format!("b.scp: refused {said}"));
        }
        numbers.push(answer.split(' ').next().unwrap_or_default().parse::<u8>().expect("a number"));
    }
    numbers.dedup();
    assert_eq!(numbers, (1..=8).chain([19]).chain(9..=12).collect::<Vec<u8>>());
}

#[test]
fn a_file_longer_than_any_image_is_told() {
    let bench = Bench::new();
    let file = std::fs::File::create(bench.path("b.scp")).expect("a file");
    file.set_len(268_435_457).expect("a sparse file");
    let run = bench.run("validate b.scp --all");
    let due = [
        "b.scp: refused 1 Size: more than 268,435,456 bytes",
        "b.scp: also 2 Sign: the first three bytes are 00 00 00, not SCP",
        "b.scp: also 4 Revolutions: byte 0x05 is 0, not 1 to 255",
    ];
    assert_eq!((run.status, run.out), (1, due.join("\n") + "\n"));
    assert!(bench.run("show b.scp").out.contains("at least 268,435,457 bytes"));
    bench.fails("read b.scp 0 0 --direct", 1, "b.scp: refused 1 Size: more than 268,435,456 bytes\n");
}

#[test]
fn all_faults_are_listed() {
    let bench = Bench::new();
    let mut faulty = with_footer(three_tracks(), [b"a", b"b", b"c", b"", b"", b""], 1, 2);
    let (maker, model, serial) = (784, 788, 792);
    for (offset, byte) in [(9, 8), (7, 1), (10, 1), (maker + 2, 0), (model + 2, 0x97), (serial + 3, 7)] {
        faulty[offset] = byte;
    }
    for (offset, byte) in [(721, 0), (752 + 3, 4), (752 + 4 + 7, 1)] {
        faulty[offset] = byte;
    }
    bench.put("b.scp", &faulty);
    let run = bench.run("validate a.scp b.scp --all");
    let due = [
        "a.scp: ok",
        "b.scp: refused 3 Width: byte 0x09 is 8, not 0 or 16",
        "b.scp: also 8 String: maker: the byte at 786, within its 1 byte, is 0",
        "b.scp: also 19 Text: model (string 1 at 788): not UTF-8 at 790, after 0 of its 1 byte: 97 cannot start a character, in \"\\x97\"",
        "b.scp: also 8 String: serial: the byte at 795, after its 1 byte, is 07, not 0",
        "b.scp: also 9 Slot: track 1 has an entry, but only side 0 is held (heads 1)",
        "b.scp: also 9 Slot: track 2 has an entry, but the tracks are 1 to 1",
        "b.scp: also 10 Track: track 2: the three bytes at 720 are 54 00 4B, not TRK",
        "b.scp: also 9 Slot: track 3 has an entry, but the tracks are 1 to 1",
        "b.scp: also 9 Slot: track 3 has an entry, but only side 0 is held (heads 1)",
        "b.scp: also 10 Track: track 3: its header at 752 is that of track 4",
        "b.scp: also 11 Flux: track 3, revolution 0: 2 x 16,777,217 bytes at 780 end at 33,555,214, past 796",
        "b.scp: also 12 Sum: stored 2,326, the bytes add up to 2,209",
    ];
    assert_eq!((run.status, run.out.lines().collect::<Vec<_>>()), (1, due.to_vec()));
}

#[test]
fn what_is_asked_for_and_not_there_is_told() {
    let bench = Bench::new();
    bench.put("t.scp", &three_tracks());
    for (line, said) in [
        ("t.scp 168 0", "13 Absent: track 168 is above 167"),
        ("t.scp 4294967295 0", "13 Absent: track 4294967295 is above 167"),
        ("t.scp 0 0", "13 Absent: track 0 has no entry in the table, which has 3 tracks"),
        ("a.scp 1 0", "13 Absent: track 1 has no entry in the table, which has 1 track"),
        ("t.scp 3 2", "14 Revolution: revolution 2 of track 3: a track has 2 revolutions, from 0 on"),
        ("a.scp 0 1", "14 Revolution: revolution 1 of track 0: a track has 1 revolution, from 0 on"),
    ] {
        let file = &line[..5];
        bench.fails(&format!("read {line}"), 1, &format!("{file}: refused {said}"));
        bench.fails(&format!("plot {line} b.svg"), 1, &format!("{file}: refused {said}"));
    }
}

#[test]
fn a_rewrite_that_is_refused_is_told() {
    let bench = Bench::new();
    let two: &[(u32, &[u16])] = &[(1, &[5, 6]), (2, &[7, 8])];
    let tracks = image(0, &[(0, two), (1, two)]);
    // The distance of track 0's second flux, from its header at 688.
    let at = |distance: u32| changed(tracks.clone(), 688 + 4 + 12 + 8, &distance.to_le_bytes());
    let footed = with_footer(at(28), [b"x", b"", b"", b"", b"", b""], 1, 2);
    bench.put("two.bin", &[0, 1, 0, 2]);
    for (bytes, said) in [
        (at(30), "18 Shared: byte 718 is of its present flux and of the flux of track 0, revolution 0"),
        (at(24), "18 Shared: byte 712 is of its present flux and of the header of track 0"),
        (at(14), "18 Shared: byte 704 is of its duration and count and of its present flux"),
        (at(36), "18 Shared: byte 724 is of its present flux and of the header of track 1"),
        (changed(footed.clone(), 712, &72_u32.to_le_bytes()), "18 Shared: byte 760 is of its present flux and of the string maker"),
    ] {
        bench.put("b.scp", &bytes);
        bench.fails("patch b.scp c.scp 0 1 --duration keep --words two.bin", 1, &format!("b.scp: refused {said}"));
    }
    assert!(!bench.path("c.scp").exists());
}

#[test]
fn a_time_that_no_words_express_is_told_with_its_line() {
    let bench = Bench::new();
    for (time, said) in [
        ("0", "0 ticks, where 1 is the least"),
        ("131072", "131,072 ticks, a multiple of 65,536, which no word closes"),
        ("4294967296", "4,294,967,296 ticks, above 4,294,967,295"),
    ] {
        bench.put("times.txt", format!("160\n{time}\n").as_bytes());
        let line = "patch a.scp b.scp 0 0 --duration keep --times times.txt";
        bench.fails(line, 1, &format!("times.txt: line 2: refused 16 Time: {said}\n"));
    }
}

#[test]
fn a_wrong_number_of_revolutions_makes_no_other_faults() {
    let bench = Bench::new();
    let (none, several) = ("not 1 to 255", "but a read/write image (FLAGS bit 4) has 1");
    let first = "    3   0          1      0.000025          1          1             0\n";
    for (flags, revolutions, due, shown_last) in [
        (0x00, 0, none, "open ticks\n"),
        (0x10, 0, none, "open ticks\n"),
        (0x10, 2, several, first),
        (0x10, 200, several, first),
        (0x10, 255, several, first),
    ] {
        bench.put("b.scp", &changed(changed(three_tracks(), 8, &[flags]), 5, &[revolutions]));
        let due = format!("b.scp: refused 4 Revolutions: byte 0x05 is {revolutions}, {due}\n");
        assert_eq!(bench.refuses("validate --all b.scp"), due);
        let shown = bench.refuses("show b.scp");
        assert!(shown.contains("0x000002B0  -\n") && shown.ends_with(shown_last), "{shown}");
    }
}

#[test]
fn a_cut_file_is_told_by_its_length() {
    let bench = Bench::new();
    bench.put("b.scp", &three_tracks()[..600]);
    assert_eq!(bench.refuses("validate --all b.scp"), "b.scp: refused 1 Size: 600 bytes, fewer than 688\n");
    assert!(bench.refuses("show b.scp").contains("1 to 3, which are present is cut off\n"));
}
