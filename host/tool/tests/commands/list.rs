//! `fluxproof list`.

use scp::Edition;

use crate::bench::{damaged_a, image, with_footer, Bench, Revolution};

/// The listing of image A, byte for byte.
const LISTING_OF_A: &str = "ok 712 tracks 1 turns 1 sum 980\ntrack 0 turn 0 ticks 8000000 words 4 intervals 3 open 0 last 3\n";

#[test]
fn image_a_is_listed_byte_for_byte() {
    let bench = Bench::new();
    assert_eq!(bench.passes("list a.scp"), LISTING_OF_A);
    let run = bench.run_with("list -", &scp::example::image_a());
    assert_eq!((run.status, run.out.as_str(), run.err.as_str()), (0, LISTING_OF_A, ""));
}

#[test]
fn every_revolution_of_every_track_has_a_line() {
    let bench = Bench::new();
    let tracks: [(u8, &[_]); 2] = [(3, &[(100, &[0, 0][..]), (0, &[])]), (167, &[(7, &[0, 5, 0]), (u32::MAX, &[65_535])])];
    bench.put("b.scp", &image(0, &tracks));
    let sum = scp::header(&bench.get("b.scp"), Edition::V1_6).expect("it opens").checksum;
    let lines = [
        &format!("ok {} tracks 2 turns 2 sum {sum}", bench.get("b.scp").len()),
        "track 3 turn 0 ticks 100 words 2 intervals 0 open 131072 last -",
        "track 3 turn 1 ticks 0 words 0 intervals 0 open 0 last -",
        "track 167 turn 0 ticks 7 words 3 intervals 1 open 65536 last 1",
        "track 167 turn 1 ticks 4294967295 words 1 intervals 1 open 0 last 0",
    ];
    assert_eq!(bench.passes("list b.scp"), lines.join("\n") + "\n");
}

#[test]
fn the_last_closing_word_is_listed() {
    let bench = Bench::new();
    let mut late = vec![0; 65_536];
    late.extend([7, 0, 9, 0]);
    let revolutions: [Revolution; 7] = [(0, &[]), (0, &[0]), (0, &[0; 3]), (0, &[5]), (0, &[0, 0, 5]), (0, &[1, 0, 2, 0, 0]), (0, &late)];
    bench.put("b.scp", &image(0, &[(9, &revolutions)]));
    let listed = bench.passes("list b.scp");
    let lines: Vec<&str> = listed.lines().skip(1).map(|line| line.split_once(" words ").expect("words").1).collect();
    let due = [
        "0 intervals 0 open 0 last -",
        "1 intervals 0 open 65536 last -",
        "3 intervals 0 open 196608 last -",
        "1 intervals 1 open 0 last 0",
        "3 intervals 1 open 0 last 2",
        "5 intervals 2 open 131072 last 2",
        "65540 intervals 2 open 65536 last 65538",
    ];
    assert_eq!(lines, due);
    for (revolution, line) in lines.iter().enumerate() {
        let read = bench.passes(&format!("read b.scp 9 {revolution} --closing"));
        let last = read.lines().rev().find_map(|line| line.split_once(" word ")).map_or("-", |(_, word)| word);
        assert!(line.ends_with(&format!(" last {last}")), "{line}: {last}");
    }
}

#[test]
fn the_help_has_this_listing() {
    let lines: String = LISTING_OF_A.lines().map(|line| format!("  {line}\n")).collect();
    assert!(Bench::new().passes("help list").contains(&format!("  $ fluxproof list a.scp\n{lines}")));
}

#[test]
fn refusals_are_listed() {
    let bench = Bench::new();
    let mut misplaced = scp::example::image_a();
    misplaced[7] = 3;
    misplaced[0x1C] = 5;
    let short = &scp::example::image_a()[..687];
    let text = with_footer(scp::example::image_a(), [b"a", b"", b"", b"", b"", b"\x97"], 1, 2);
    for (bytes, line) in [
        (&damaged_a()[..], "refused 12 at 0\n"),
        (&misplaced, "refused 10 at 3\n"),
        (short, "refused 1 at 0\n"),
        (&text, "refused 19 at 5\n"),
    ] {
        bench.put("b.scp", bytes);
        let run = bench.run("list b.scp");
        assert_eq!((run.status, run.out.as_str(), run.err.as_str()), (1, line, ""));
    }
}

#[test]
fn images_above_65536_bytes_are_listed() {
    let bench = Bench::new();
    let words = vec![160; 50_000];
    bench.put("b.scp", &image(1, &[(0, &[(8_000_000, &words)])]));
    assert!(bench.passes("list b.scp").ends_with("track 0 turn 0 ticks 8000000 words 50000 intervals 50000 open 0 last 49999\n"));
}

#[test]
fn a_file_above_the_greatest_size_is_refused_1() {
    let bench = Bench::new();
    let file = std::fs::File::create(bench.path("b.scp")).expect("a file");
    file.set_len(268_435_457).expect("a sparse file");
    let run = bench.run("list b.scp");
    assert_eq!((run.status, run.out.as_str()), (1, "refused 1 at 0\n"));
}

#[test]
fn files_that_cannot_be_read_have_the_system_s_message() {
    let bench = Bench::new();
    bench.fails("list none.scp", 3, "none.scp: No such file");
    bench.fails("list .", 3, ".: Is a directory");
}
