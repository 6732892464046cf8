//! `fluxproof replay`.

use scp::Edition;

use crate::bench::{damaged_a, image, with_footer, Bench};

/// A call of each kind, a rewrite among them.
const CALLS: &str = "\
# all calls
validate
header
footer

track 0
revolution 0 0   # comment
flux 0x0 0
speed 0 0
track-speed 0
rewrite 0 0 8000000 01400000 0001 00f0
header
rewrite 0 0 0 -
speed 0 0
track-speed 0
track 1
rewrite 0 0 0 01
validate
";

/// Their answers on image A.
const ANSWERS: &str = "\
2: validate: ok
3: header: version 0x16 disk 0x00 revolutions 1 start 0 end 0 flags 0x01 width 0 heads 0 checksum 980
4: footer: none
6: track 0: cylinder 0 head 0 offset 688 revolutions 1
7: revolution 0 0: duration 8000000 words 4 offset 704
8: flux 0 0: offset 704 bytes 8 sum 401
9: speed 0 0: 300.0 rpm
10: track-speed 0: slowest 300.0 rpm fastest 300.0 rpm
11: rewrite 0 0 8000000 (8 bytes): ok
12: header: version 0x16 disk 0x00 revolutions 1 start 0 end 0 flags 0x01 width 0 heads 0 checksum 885
13: rewrite 0 0 0 (0 bytes): ok
14: speed 0 0: none
15: track-speed 0: none
16: track 1: refused 13 Absent: track 1 has no entry in the table, which has 1 track
17: rewrite 0 0 0 (1 bytes): refused 17 Words: an odd number of bytes, 1
18: validate: ok
";

#[test]
fn every_call_has_its_answer() {
    let bench = Bench::new();
    bench.put("calls.txt", CALLS.as_bytes());
    assert_eq!(bench.refuses("replay a.scp calls.txt"), ANSWERS);
    assert_eq!(bench.get("a.scp"), scp::example::image_a());
    assert_eq!(bench.run_with("replay a.scp -", CALLS.as_bytes()).out, ANSWERS);
    assert_eq!(bench.names(), ["a.scp", "calls.txt"]);
}

#[test]
fn the_image_after_the_calls_is_written() {
    let bench = Bench::new();
    bench.put("calls.txt", b"rewrite 0 0 8000000 01400000000100F0");
    let out = bench.passes("replay a.scp calls.txt --out b.scp");
    assert_eq!(out, "1: rewrite 0 0 8000000 (8 bytes): ok\nwritten to b.scp\nchecksum 980 -> 885\n");
    assert_eq!(scp::header(&bench.get("b.scp"), Edition::V1_6).map(|header| header.checksum), Ok(885));
    bench.fails("replay a.scp calls.txt --out b.scp", 3, "exists already");
    bench.fails("replay a.scp calls.txt --out a.scp --force", 3, "this is the image itself");
    bench.fails("replay a.scp calls.txt --force", 2, "--force is for --out");
    bench.put("d.scp", &damaged_a());
    let out = bench.passes("replay d.scp calls.txt --out b.scp --force");
    assert!(out.contains("checksum 981 -> 886\nthe image was damaged before") && out.contains("and it still is"), "{out}");
    let out = bench.passes("replay d.scp calls.txt --out d.scp --in-place");
    assert!(out.contains("checksum 981 -> 886"), "{out}");
    assert_eq!(bench.get("d.scp"), bench.get("b.scp"));
}

#[test]
fn answers_of_a_refused_image_are_refusals() {
    let bench = Bench::new();
    bench.put("short.scp", b"SCP");
    bench.put("calls.txt", b"validate\nheader\n");
    let size = "refused 1 Size: 3 bytes, fewer than 688";
    assert_eq!(bench.refuses("replay short.scp calls.txt"), format!("1: validate: {size}\n2: header: {size}\n"));
    assert!(bench.refuses("replay short.scp calls.txt --out copy.scp").ends_with("\nwritten to copy.scp\n"));
    assert_eq!(bench.get("copy.scp"), b"SCP");
}

#[test]
fn an_image_that_is_too_long_is_not_written_cut() {
    let bench = Bench::new();
    let file = std::fs::File::create(bench.path("long.scp")).expect("a file");
    file.set_len(268_435_458).expect("a sparse file");
    bench.put("calls.txt", b"validate");
    assert!(bench.refuses("replay long.scp calls.txt").starts_with("1: validate: refused 1 Size: more than 268,435,456 bytes\n"));
    bench.fails("replay long.scp calls.txt --out b.scp", 3, "long.scp: longer than 268,435,456 bytes");
    bench.fails("replay long.scp calls.txt --out long.scp --in-place", 3, "long.scp: longer than 268,435,456 bytes");
    assert_eq!((bench.names().len(), file.metadata().map(|found| found.len()).ok()), (3, Some(268_435_458)));
}

#[test]
fn a_footer_and_several_speeds_are_answered() {
    let bench = Bench::new();
    let first = image(0, &[(5, &[(8_000_000, &[1]), (7_000_000, &[2])])]);
    bench.put("f.scp", &with_footer(first, [b"a", b"", b"", b"", b"", b""], -1, i64::MAX));
    bench.put("calls.txt", b"footer\ntrack-speed 5");
    let out = bench.passes("replay f.scp calls.txt");
    assert!(
        out.starts_with("1: footer: strings 720 0 0 0 0 0 created -1 modified 9223372036854775807 versions 0x11 0x12 0x13 0x16\n"),
        "{out}"
    );
    assert!(out.ends_with("2: track-speed 5: slowest 300.0 rpm fastest 342.85714285714283 rpm\n"), "{out}");
}

#[test]
fn a_line_that_cannot_be_read_stops_everything() {
    let bench = Bench::new();
    for (line, message) in [
        ("frobnicate", "unknown call \"frobnicate\""),
        ("track", "track takes TRACK"),
        ("flux 1", "flux takes TRACK REV"),
        ("validate 1", "validate takes nothing after it"),
        ("rewrite 0 0 1", "rewrite takes TRACK REV DURATION HEXWORDS (- for none)"),
        ("rewrite 0 0 1 123", "the words have an odd number of hexadecimal digits"),
        ("rewrite 0 0 1 zz", "the words are not hexadecimal digits"),
        ("rewrite 0 0 4294967296 -", "4294967296 is above 4,294,967,295"),
        ("speed 0 one", "\"one\" is not a number"),
    ] {
        bench.put("calls.txt", format!("validate\nrewrite 0 0 0 -\n{line}\n").as_bytes());
        bench.fails("replay a.scp calls.txt --out b.scp", 2, &format!("calls.txt: line 3: {message}"));
    }
    assert_eq!(bench.names(), ["a.scp", "calls.txt"]);
    bench.fails("replay a.scp none.txt", 3, "none.txt: No such file");
    bench.fails("replay - calls.txt", 2, "standard input");
}

#[test]
fn a_reason_is_that_of_the_bytes_that_the_call_got() {
    let bench = Bench::new();
    bench.put("calls.txt", b"rewrite 0 0 8000000 0001\nrewrite 0 0 8000000 0001 0002\nrewrite 0 0 1 -\nrewrite 0 0 1 0001\n");
    let due = [
        "1: rewrite 0 0 8000000 (2 bytes): ok",
        "2: rewrite 0 0 8000000 (4 bytes): refused 17 Words: 2 words, where the revolution has 1",
        "3: rewrite 0 0 1 (0 bytes): ok",
        "4: rewrite 0 0 1 (2 bytes): refused 17 Words: 1 word, where the revolution has 0",
    ];
    assert_eq!(bench.refuses("replay a.scp calls.txt").lines().collect::<Vec<_>>(), due);
}

#[test]
fn nothing_is_written_where_a_rewrite_is_refused() {
    let bench = Bench::new();
    bench.put("old.scp", b"precious");
    bench.put("calls.txt", b"rewrite 0 0 1 0001\nrewrite 1 0 1 0001\nvalidate\n");
    let names = bench.names();
    for (out, more) in [("new.scp", ""), ("old.scp", "--force"), ("a.scp", "--in-place")] {
        let run = bench.run(&format!("replay a.scp calls.txt --out {out} {more}"));
        assert_eq!((run.status, run.err), (1, format!("fluxproof: {out}: not written, since a rewrite is refused\n")));
        assert!(
            run.out.contains("2: rewrite 1 0 1 (2 bytes): refused 13 Absent: ") && run.out.ends_with("3: validate: ok\n"),
            "{}",
            run.out
        );
    }
    assert_eq!((bench.get("a.scp"), bench.get("old.scp"), bench.names()), (scp::example::image_a(), b"precious".to_vec(), names));
}

#[test]
fn a_revolution_that_gets_shorter_is_said() {
    let bench = Bench::new();
    bench.put("calls.txt", b"speed 0 0\nrewrite 0 0 1 0001\n");
    let shorter = "2: the revolution is shorter now, and this tool cannot make it longer again";
    assert!(!bench.passes("replay a.scp calls.txt").contains("shorter"));
    let out = bench.passes("replay a.scp calls.txt --out b.scp");
    assert!(out.contains(&format!("written to b.scp\n{shorter}")) && out.contains("; its former words are still in a.scp\n"), "{out}");
    let out = bench.passes("replay a.scp calls.txt --out a.scp --in-place");
    assert!(out.contains(&format!("written to a.scp\n{shorter}")) && out.contains("; its former words were not kept\n"), "{out}");
}
