//! `fluxproof patch`.

use std::fs;

use scp::Edition;

use crate::bench::{damaged_a, image, image_by, patched_a, store_sum, with_footer, Bench};

/// A bench with the words of the example, also as times.
fn bench() -> Bench {
    let bench = Bench::with_words();
    bench.put("times.txt", b"# new\n320\n\n  65537 # long\r\n240");
    bench
}

/// Options for each form that `read` prints, with those by which `patch` takes it.
const FORMS: [(&str, &str); 8] = [
    ("", ""),
    ("--us", "--us"),
    ("--csv", ""),
    ("--us --csv", "--us"),
    ("--closing", ""),
    ("--closing --us", "--us"),
    ("--closing --csv", ""),
    ("--closing --us --csv", "--us"),
];

#[test]
fn image_a_is_patched_to_885() {
    let bench = bench();
    let said = "track 0 revolution 0 of a.scp rewritten in b.scp\nduration 8000000 -> 8000000\nwords 4 -> 4\nchecksum 980 -> 885\n";
    for source in ["--times times.txt", "--words words.bin", "--times=times.txt --force", "--words=words.bin --force"] {
        let _ = source.contains("--force") || fs::remove_file(bench.path("b.scp")).is_ok();
        assert_eq!(bench.passes(&format!("patch a.scp b.scp 0 0 --duration 8000000 {source}")), said);
        assert_eq!(bench.get("b.scp"), patched_a());
    }
    assert_eq!(bench.get("a.scp"), scp::example::image_a());
    assert_eq!(bench.names(), ["a.scp", "b.scp", "times.txt", "words.bin"]);
}

#[test]
fn a_damaged_image_stays_damaged() {
    let bench = bench();
    bench.put("d.scp", &damaged_a());
    let out = bench.passes("patch d.scp b.scp 0 0 --duration keep --words words.bin");
    assert!(out.contains("checksum 981 -> 886\n"), "{out}");
    assert!(out.contains("the image was damaged before: stored 981, true sum 980: damaged\n"), "{out}");
    assert!(out.contains("and it still is: stored 886, true sum 885: damaged\n"), "{out}");
    assert_eq!(scp::validate(&bench.get("b.scp"), Edition::V1_6).map_err(|refusal| refusal.reason), Err(scp::Reason::Sum));
}

#[test]
fn fewer_words_and_another_duration_are_put() {
    let bench = bench();
    bench.put("none.txt", b"# no time at all\n");
    let out = bench.passes("patch a.scp b.scp 0 0 --duration 0xFFFFFFFF --times none.txt --empty");
    assert!(out.contains("duration 8000000 -> 4294967295\nwords 4 -> 0\n"), "{out}");
    let image = bench.get("b.scp");
    let found = scp::revolution(&image, Edition::V1_6, 0, 0).expect("it opens");
    assert_eq!((found.duration, found.words, scp::validate(&image, Edition::V1_6)), (u32::MAX, 0, Ok(())));
}

#[test]
fn what_read_prints_can_be_patched_back() {
    let bench = bench();
    let words: Vec<u16> = (1..2000).map(|number| if number % 50 == 0 { 0 } else { number * 31 }).chain([0, 0, 0]).collect();
    let first = with_footer(image(0, &[(0, &[(1, &[5]), (2, &[6])]), (9, &[(3, &words), (4, &words)])]), [b"x"; 6], 1, 2);
    bench.put("r.scp", &first);
    for (form, unit) in FORMS {
        let times = bench.passes(&format!("read r.scp 9 1 {form}"));
        assert!(times.lines().last().is_some_and(|line| line.starts_with("open")), "{times}");
        let run = bench.run_with(&format!("patch r.scp s.scp 9 1 --duration keep --times - --force {unit}"), times.as_bytes());
        assert_eq!((run.status, run.err.as_str()), (0, ""), "{form}");
        assert_eq!(bench.get("s.scp"), first, "{form}");
    }
}

#[test]
fn what_read_prints_of_few_intervals_can_be_patched_back() {
    let bench = bench();
    let mut late = vec![0; 65_535];
    late.extend([65_535, 0, 9]);
    let words: [&[u16]; 6] = [&[], &[0, 0], &[0, 0, 5], &[5, 0], &[1, 0, 2, 3, 0], &late];
    for (edition, words) in Edition::ALL.into_iter().flat_map(|edition| words.map(|words| (edition, words))) {
        let first = image_by(edition, 0, &[(0, &[(7, words)])]);
        bench.put("r.scp", &first);
        for (form, unit) in FORMS {
            let times = bench.passes(&format!("read r.scp 0 0 {form} --edition {edition}"));
            let line = format!("patch r.scp s.scp 0 0 --duration keep --times - --force --empty {unit} --edition {edition}");
            let run = bench.run_with(&line, times.as_bytes());
            assert_eq!((run.status, run.err.as_str()), (0, ""), "{form} {} words", words.len());
            assert!(bench.get("s.scp") == first, "{form} {} words", words.len());
        }
    }
}

#[test]
fn an_interval_that_is_too_long_is_refused_in_each_form() {
    let bench = bench();
    let mut words = vec![0; 65_536];
    words.push(7);
    bench.put("r.scp", &image(0, &[(0, &[(7, &words)])]));
    for (form, unit) in FORMS {
        let times = bench.passes(&format!("read r.scp 0 0 {form}"));
        let run = bench.run_with(&format!("patch r.scp s.scp 0 0 --duration keep --times - {unit}"), times.as_bytes());
        let line = times.lines().count();
        let due = format!("fluxproof: standard input: line {line}: refused 16 Time: 4,294,967,303 ticks, above 4,294,967,295\n");
        assert_eq!((run.status, run.err), (1, due), "{form}");
    }
}

#[test]
fn closing_words_are_not_looked_at() {
    let bench = bench();
    for (text, unit) in [
        ("320 word 0\n65537 word 2\n240 word 3\n", ""),
        ("320 word 7\n65537\n240 word 18446744073709551615\n", ""),
        ("320\tword\t1 # more\r\n  65537   word  1  \n240", ""),
        ("8 word 0\n1638.425 word 2\n6.0 word 3\n", "--us"),
        ("index,ticks,word\n0,320,0\n1,65537,2\n2,240,3\n", ""),
        ("index,ticks,word\n7,320,9\n7, 65537 , 0\n0,240,000\n", ""),
        ("\u{FEFF}index,microseconds,word\r\n0,8,0\r\n1,1638.425,2\r\n2,6.000,3\r\n", "--us"),
    ] {
        bench.put("closed.txt", text.as_bytes());
        bench.passes(&format!("patch a.scp b.scp 0 0 --duration keep --times closed.txt --force {unit}"));
        assert_eq!(bench.get("b.scp"), patched_a(), "{text}");
    }
    for rows in ["index,ticks,word\n0,160,0\nopen,131072,\n", "index,ticks,word\n0,160,0\nopen,131072\n"] {
        bench.put("open.csv", rows.as_bytes());
        bench.passes("patch a.scp b.scp 0 0 --duration keep --times open.csv --force");
        assert_eq!(bench.passes("read b.scp 0 0 --closing"), "160 word 0\nopen 131072\n");
    }
    // Words move when times change: the second interval was closed by word 2.
    let edited = bench.passes("read a.scp 0 0 --closing").replace("65537 ", "65535 ");
    let run = bench.run_with("patch a.scp b.scp 0 0 --duration keep --times - --force", edited.as_bytes());
    assert_eq!((run.status, run.err.as_str()), (0, ""));
    assert_eq!(bench.passes("read b.scp 0 0 --closing"), "160 word 0\n65535 word 1\n240 word 2\n");
}

#[test]
fn rows_of_a_spreadsheet_are_taken() {
    let bench = bench();
    bench.put("rows.csv", "\u{FEFF}index,microseconds\r\n0, 8\r\n7,1638.425\r\n2,6.0\r\n".as_bytes());
    bench.passes("patch a.scp b.scp 0 0 --duration keep --times rows.csv --us");
    assert_eq!(bench.get("b.scp"), patched_a());
}

#[test]
fn a_file_of_times_has_one_unit() {
    let bench = bench();
    bench.put("us.txt", b"8\n1638.425\n6\n");
    bench.passes("patch a.scp b.scp 0 0 --duration keep --times us.txt --us");
    assert_eq!(bench.get("b.scp"), patched_a());
    bench.put("open.txt", b"4\nopen 3276.8\n");
    bench.passes("patch a.scp c.scp 0 0 --duration keep --times open.txt --us");
    assert_eq!(bench.passes("read c.scp 0 0"), "160\nopen 131072\n");
    for (text, unit, message) in [
        ("160\n1638.425\n", "", "line 2: \"1638.425\" is no whole number of ticks; --us is for microseconds"),
        ("160\nopen 1638.4\n", "", "line 2: \"1638.4\" is no whole number of ticks; --us is for microseconds"),
        ("index,ticks\n0,4.000\n", "", "line 2: \"4.000\" is no whole number of ticks; --us is for microseconds"),
        ("index,microseconds\n0,4.000\n", "", "line 1: these are microseconds; give --us, too"),
        ("index,microseconds\n0,4\n", "", "line 1: these are microseconds; give --us, too"),
        ("index,ticks\n0,160\n", "--us", "line 1: these are ticks, but --us is given; leave it out"),
        ("160 word 0\n1638.425 word 2\n", "", "line 2: \"1638.425\" is no whole number of ticks; --us is for microseconds"),
        ("index,ticks,word\n0,4.000,0\n", "", "line 2: \"4.000\" is no whole number of ticks; --us is for microseconds"),
        ("index,microseconds,word\n0,4,0\n", "", "line 1: these are microseconds; give --us, too"),
        ("index,ticks,word\n0,160,0\n", "--us", "line 1: these are ticks, but --us is given; leave it out"),
        ("4\n\n1.01\n", "--us", "line 3: 1.01 microseconds are no whole number of ticks of 0.025"),
        ("4\nopen 4\n", "--us", "line 2: an open time of 160 ticks is no multiple of 65,536"),
    ] {
        bench.put("bad.txt", text.as_bytes());
        bench.fails(&format!("patch a.scp d.scp 0 0 --duration 1 --times bad.txt {unit}"), 2, &format!("bad.txt: {message}"));
    }
    assert!(!bench.path("d.scp").exists());
}

#[test]
fn nothing_at_all_is_refused_unless_it_is_meant() {
    let bench = bench();
    let nothing = "there is nothing in it (--empty is for a revolution without words)";
    for text in ["", "\n", "# 160\n\n  # 240\r\n", "index,ticks\n", "index,ticks,word\nopen,0,\n", "open 0\n", "\u{FEFF}"] {
        bench.put("empty.txt", text.as_bytes());
        bench.fails("patch a.scp b.scp 0 0 --duration keep --times empty.txt", 2, &format!("empty.txt: {nothing}"));
    }
    bench.put("empty.bin", b"");
    bench.fails("patch a.scp b.scp 0 0 --duration keep --words empty.bin", 2, &format!("empty.bin: {nothing}"));
    bench.fails("patch a.scp b.scp 0 0 --duration keep --times -", 2, &format!("standard input: {nothing}"));
    bench.fails("patch a.scp a.scp 0 0 --duration keep --words - --in-place", 2, &format!("standard input: {nothing}"));
    assert_eq!(bench.get("a.scp"), scp::example::image_a());
    for source in ["--times empty.txt", "--words empty.bin", "--times -"] {
        bench.passes(&format!("patch a.scp b.scp 0 0 --duration keep {source} --empty --force"));
        assert_eq!(scp::revolution(&bench.get("b.scp"), Edition::V1_6, 0, 0).map(|found| found.words), Ok(0));
    }
    bench.passes("patch a.scp b.scp 0 0 --duration keep --words words.bin --empty --force");
    assert_eq!(bench.get("b.scp"), patched_a());
}

#[test]
fn refused_patches_leave_everything() {
    let bench = bench();
    bench.put("out.scp", b"precious");
    bench.put("long.txt", b"1\n2\n3\n4\n5\n");
    bench.put("gap.txt", b"327681\n");
    bench.put("odd.bin", &[1, 2, 3]);
    bench.put("many.bin", &[1; 10]);
    bench.put("zero.txt", b"1\n# comment\n65536\n");
    let names = bench.names();
    for (arguments, status, message) in [
        ("1 0 --duration 1 --words words.bin", 1, "a.scp: refused 13 Absent: track 1 has no entry"),
        ("0 1 --duration 1 --words words.bin", 1, "a.scp: refused 14 Revolution: revolution 1 of track 0"),
        ("0 0 --duration 1 --words odd.bin", 1, "odd.bin: refused 17 Words: an odd number of bytes, 3"),
        ("0 0 --duration 1 --words many.bin", 1, "many.bin: refused 17 Words: 5 words, where the revolution has 4"),
        ("0 0 --duration 1 --words none.bin", 3, "none.bin: No such file"),
        ("0 0 --duration 1 --times long.txt", 1, "long.txt: refused 17 Words: 5 words, where the revolution has 4"),
        ("0 0 --duration 1 --times gap.txt", 1, "gap.txt: refused 17 Words: 6 words, where the revolution has 4"),
        (
            "0 0 --duration 1 --times zero.txt",
            1,
            "zero.txt: line 3: refused 16 Time: 65,536 ticks, a multiple of 65,536, which no word closes",
        ),
        ("0 0 --duration 4294967296 --words words.bin", 2, "--duration: 4294967296 is above"),
        ("0 0 --words words.bin", 2, "--duration is missing"),
        ("0 0 --duration 1", 2, "--times or --words is missing"),
        ("0 0 --duration 1 --words words.bin --times times.txt", 2, "exclude each other"),
    ] {
        bench.fails(&format!("patch a.scp out.scp {arguments} --force"), status, message);
        assert_eq!((bench.get("out.scp"), bench.names()), (b"precious".to_vec(), names.clone()), "{arguments}");
    }
    bench.put("d.scp", &bench.get("a.scp")[..700]);
    bench.fails(
        "patch d.scp e.scp 0 0 --duration 1 --words words.bin",
        1,
        "d.scp: refused 10 Track: track 0: its header of 16 bytes at 688 ends at 704, past 700",
    );
    bench.fails("patch - e.scp 0 0 --duration 1 --words words.bin", 2, "standard input");
}

#[test]
fn shared_bytes_are_refused() {
    let bench = bench();
    let mut shared = image(0, &[(0, &[(1, &[5, 6]), (2, &[7, 8])])]);
    let distance = 688 + 4 + 12 + 8;
    shared[distance] -= 2;
    store_sum(&mut shared);
    bench.put("s.scp", &shared);
    bench.put("one.txt", b"9\n");
    bench.fails(
        "patch s.scp b.scp 0 0 --duration 1 --times one.txt",
        1,
        "s.scp: refused 18 Shared: byte 718 is of its present flux and of the flux of track 0, revolution 1",
    );
    assert!(!bench.path("b.scp").exists());
}

#[test]
fn bad_lines_have_their_numbers() {
    let bench = bench();
    for (text, message) in [
        ("160\nx\n", "line 2: \"x\" is not a time"),
        ("160\n-5\n", "line 2: \"-5\" is not a time"),
        ("99999999999999999999\n", "line 1: 99999999999999999999 is too long a time"),
        ("1\nindex,ticks\n", "line 2: \"index,ticks\" is not a time"),
        ("65,537\n", "line 1: \"65,537\" is not a time"),
        ("1 2\n", "line 1: \"1 2\" is not a time"),
        ("index,ticks\n160\n", "line 2: \"160\" is no row of an index and a time"),
        ("index,ticks\n,160\n", "line 2: \",160\" is not a time"),
        ("index,ticks\n0,160,5\n", "line 2: \"160,5\" is not a time"),
        ("1\nopen 5\n", "line 2: an open time of 5 ticks is no multiple of 65,536"),
        ("open 65536\n1\n", "line 2: nothing can follow the open time"),
        ("1\nopen\n", "line 2: \"open\" is not a time"),
        ("1\n\u{7}\n", "line 2: \"\\u{7}\" is not a time"),
        ("open 5 6\n", "line 1: \"5 6\" is not a time"),
        ("160 word\n", "line 1: \"160 word\" is not a time"),
        ("word 0\n", "line 1: \"word 0\" is not a time"),
        ("x word 0\n", "line 1: \"x\" is not a time"),
        ("1 2 word 0\n", "line 1: \"1 2 word 0\" is not a time"),
        ("1 word 0 word 1\n", "line 1: \"1 word 0 word 1\" is not a time"),
        ("1 wrod 0\n", "line 1: \"1 wrod 0\" is not a time"),
        ("1word 0\n", "line 1: \"1word 0\" is not a time"),
        ("160 word 0\n\n1 word x\n", "line 3: \"x\" is not the number of a word"),
        ("1 word -1\n", "line 1: \"-1\" is not the number of a word"),
        ("1 word 18446744073709551616\n", "line 1: \"18446744073709551616\" is not the number of a word"),
        ("1\nopen 65536 word 1\n", "line 2: no word closes the open time"),
        ("1\nindex,ticks,word\n", "line 2: \"index,ticks,word\" is not a time"),
        ("index,ticks,wrod\n0,160,0\n", "line 1: \"index,ticks,wrod\" is not a time"),
        ("index,ticks\n0,160 word 0\n", "line 2: \"160 word 0\" is not a time"),
        ("index,ticks\nopen,65536,\n", "line 2: \"65536,\" is not a time"),
        ("index,ticks,word\n160\n", "line 2: \"160\" is no row of an index, a time and a word"),
        ("index,ticks,word\n0,160\n", "line 2: \"0,160\" is no row of an index, a time and a word"),
        ("index,ticks,word\n0,160,0\nopen\n", "line 3: \"open\" is no row of an index, a time and a word"),
        ("index,ticks,word\nx,160,0\n", "line 2: \"x,160,0\" is not a time"),
        ("index,ticks,word\n0,,0\n", "line 2: \"\" is not a time"),
        ("index,ticks,word\n0,160,\n", "line 2: \"\" is not the number of a word"),
        ("index,ticks,word\n0,160,x\n", "line 2: \"x\" is not the number of a word"),
        ("index,ticks,word\n0,160,1,2\n", "line 2: \"160,1\" is not a time"),
        ("index,ticks,word\nopen,65536,1\n", "line 2: no word closes the open time"),
        ("index,ticks,word\nopen,65536,\n0,160,0\n", "line 3: nothing can follow the open time"),
    ] {
        bench.put("bad.txt", text.as_bytes());
        bench.fails("patch a.scp b.scp 0 0 --duration 1 --times bad.txt", 2, &format!("bad.txt: {message}"));
    }
    bench.put("bad.txt", b"1\n\xFF\n");
    bench.fails("patch a.scp b.scp 0 0 --duration 1 --times bad.txt", 2, "bad.txt: line 2: not UTF-8");
}
