//! `fluxproof read`.

use scp::Edition;

use crate::bench::{damaged_a, image, image_by, Bench};

#[test]
fn intervals_are_printed_in_each_form() {
    let bench = Bench::new();
    assert_eq!(bench.passes("read a.scp 0 0"), "160\n65537\n240\n");
    assert_eq!(bench.passes("read a.scp 0x0 0X0 --us"), "4.000\n1638.425\n6.000\n");
    assert_eq!(bench.passes("read --csv a.scp 0 0"), "index,ticks\n0,160\n1,65537\n2,240\n");
    assert_eq!(bench.passes("read --us a.scp 0 --csv 0"), "index,microseconds\n0,4.000\n1,1638.425\n2,6.000\n");
    assert_eq!(bench.run_with("read - 0 0", &damaged_a()).out, "160\n65537\n240\n");
}

#[test]
fn open_time_comes_last() {
    let bench = Bench::new();
    bench.put("b.scp", &image(0, &[(0, &[(1, &[1, 0, 0]), (1, &[0])])]));
    assert_eq!(bench.passes("read b.scp 0 0"), "1\nopen 131072\n");
    assert_eq!(bench.passes("read b.scp 0 0 --us"), "0.025\nopen 3276.800\n");
    assert_eq!(bench.passes("read b.scp 0 1 --csv"), "index,ticks\nopen,65536\n");
    assert_eq!(bench.passes("read b.scp 0 1 --csv --us"), "index,microseconds\nopen,1638.400\n");
}

#[test]
fn the_word_that_closed_an_interval_is_printed_in_each_form() {
    let bench = Bench::new();
    let plain = "160 word 0\n65537 word 2\n240 word 3\n";
    for line in ["read a.scp 0 0 --closing", "read --closing a.scp 0 0", "read --direct a.scp 0 --closing 0"] {
        assert_eq!(bench.passes(line), plain, "{line}");
    }
    assert_eq!(bench.passes("read a.scp 0 0 --us --closing"), "4.000 word 0\n1638.425 word 2\n6.000 word 3\n");
    assert_eq!(bench.passes("read a.scp 0 0 --closing --csv"), "index,ticks,word\n0,160,0\n1,65537,2\n2,240,3\n");
    let rows = "index,microseconds,word\n0,4.000,0\n1,1638.425,2\n2,6.000,3\n";
    assert_eq!(bench.passes("read --csv a.scp 0 0 --closing --us"), rows);
    assert_eq!(bench.run_with("read - 0 0 --closing", &damaged_a()).out, plain);
    let example: String = plain.lines().map(|line| format!("  {line}\n")).collect();
    assert!(bench.passes("help read").contains(&format!("  $ fluxproof read a.scp 0 0 --closing\n{example}")));
}

#[test]
fn zero_words_close_nothing() {
    let bench = Bench::new();
    bench.put("b.scp", &image(0, &[(0, &[(1, &[0, 0, 5, 0, 7, 8, 0, 0, 0]), (1, &[0]), (1, &[])])]));
    assert_eq!(bench.passes("read b.scp 0 0 --closing"), "131077 word 2\n65543 word 4\n8 word 5\nopen 196608\n");
    let rows = "index,ticks,word\n0,131077,2\n1,65543,4\n2,8,5\nopen,196608,\n";
    assert_eq!(bench.passes("read b.scp 0 0 --closing --csv"), rows);
    let rows = "index,microseconds,word\n0,3276.925,2\n1,1638.575,4\n2,0.200,5\nopen,4915.200,\n";
    assert_eq!(bench.passes("read b.scp 0 0 --closing --csv --us"), rows);
    for (form, columns, open) in [
        ("", "", "open 65536\n"),
        ("--us", "", "open 1638.400\n"),
        ("--csv", "index,ticks,word\n", "open,65536,\n"),
        ("--csv --us", "index,microseconds,word\n", "open,1638.400,\n"),
    ] {
        assert_eq!(bench.passes(&format!("read b.scp 0 1 --closing {form}")), format!("{columns}{open}"));
        assert_eq!(bench.passes(&format!("read b.scp 0 2 --closing {form}")), columns);
    }
}

#[test]
fn closing_words_above_65535_are_printed() {
    let bench = Bench::new();
    let mut words = vec![0; 65_536];
    words.extend([7, 9, 0, 1, 0]);
    bench.put("b.scp", &image(0, &[(0, &[(8_000_000, &words)])]));
    let due = "4294967303 word 65536\n9 word 65537\n65537 word 65539\nopen 65536\n";
    assert_eq!(bench.passes("read b.scp 0 0 --closing"), due);
    let due = "index,ticks,word\n0,4294967303,65536\n1,9,65537\n2,65537,65539\nopen,65536,\n";
    assert_eq!(bench.passes("read b.scp 0 0 --closing --csv --direct"), due);
}

/// What is printed without the closing words, with the numbers of all words that are not zero put behind the lines of the intervals.
fn with_closing(printed: &str, words: &[u16]) -> String {
    let (csv, mut closing) = (printed.starts_with("index"), (0..words.len()).filter(|&word| words[word] != 0));
    let mut due = String::new();
    for line in printed.lines() {
        due += line;
        match (line.split(',').next(), csv) {
            (Some("index"), _) => due += ",word",
            (Some("open"), true) => due += ",",
            (_, true) => due += &format!(",{}", closing.next().expect("a closing word")),
            (Some(line), false) if line.starts_with("open ") => (),
            (_, false) => due += &format!(" word {}", closing.next().expect("a closing word")),
        }
        due.push('\n');
    }
    assert_eq!(closing.next(), None);
    due
}

#[test]
fn closing_words_are_those_that_are_not_zero() {
    let bench = Bench::new();
    let few: Vec<u16> = (0..3000_u16).map(|number| if number.wrapping_mul(40_503) % 7 < 2 { number } else { 0 }).collect();
    let many: Vec<u16> = (0..70_000).map(|number| if number % 9 == 4 { 0 } else { 160 }).chain([0; 3]).collect();
    for (edition, words) in [(Edition::V1_4, &few), (Edition::V1_6, &few), (Edition::V1_6, &many)] {
        bench.put("b.scp", &image_by(edition, 0, &[(3, &[(1, words)])]));
        for form in ["", "--us", "--csv", "--csv --us", "--direct", "--direct --us", "--direct --csv", "--direct --csv --us"] {
            let line = format!("read b.scp 3 0 {form} --edition {edition}");
            assert!(bench.passes(&format!("{line} --closing")) == with_closing(&bench.passes(&line), words), "{line}");
        }
    }
}

#[test]
fn refusals_and_wrong_numbers_are_said() {
    let bench = Bench::new();
    bench.put("old.scp", &scp::example::image_a_1_4());
    for option in ["", " --closing"] {
        let fails = |line: &str, status, part| bench.fails(&format!("{line}{option}"), status, part);
        fails("read a.scp 1 0", 1, "a.scp: refused 13 Absent: track 1 has no entry");
        fails("read a.scp 0 1 --csv", 1, "a.scp: refused 14 Revolution: revolution 1 of track 0");
        fails("read a.scp 0 1 --us --direct", 1, "a.scp: refused 14 Revolution: revolution 1 of track 0");
        fails("read old.scp 0 0", 1, "is below 688 (it is valid as revision 1.4: try --edition 1.4)\n");
        fails("read a.scp 4294967295 0", 1, "refused 13");
        fails("read a.scp 4294967296 0", 2, "TRACK: 4294967296 is above 4,294,967,295");
        fails("read a.scp 0 0x100000000", 2, "REV: 0x100000000 is above 4,294,967,295");
        fails("read a.scp zero 0", 2, "TRACK: \"zero\" is not a number");
        fails("read a.scp 0 -1", 2, "unknown option \"-1\"");
        fails("read a.scp 0", 2, "REV is missing");
        fails("read none.scp 0 0", 3, "none.scp: No such file");
    }
}

#[test]
fn the_closing_word_is_of_read_alone() {
    let bench = Bench::new();
    bench.put("--closing", &scp::example::image_a());
    assert_eq!(bench.passes("read -- --closing 0 0"), "160\n65537\n240\n");
    assert_eq!(bench.passes("read --closing -- --closing 0 0"), "160 word 0\n65537 word 2\n240 word 3\n");
    let help = "; see \"fluxproof help read\"\n";
    bench.fails("read a.scp 0 0 --closing --closing", 2, &format!("read: --closing is given twice{help}"));
    bench.fails("read a.scp 0 0 --closing=2", 2, &format!("read: --closing takes no value{help}"));
    bench.fails("read a.scp 0 0 --closng", 2, &format!("read: unknown option \"--closng\" (did you mean \"--closing\"?){help}"));
    for line in ["list a.scp", "validate a.scp", "show a.scp", "plot a.scp 0 0 b.svg", "patch a.scp b.scp 0 0", "replay a.scp b.txt"] {
        bench.fails(&format!("{line} --closing"), 2, "unknown option \"--closing\"");
    }
    assert_eq!(bench.names(), ["--closing", "a.scp"]);
}
