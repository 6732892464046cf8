//! `fluxproof replay --undo`: a sequence of rewrites, and the calls that take it back.

use std::fmt::Write;

use scp::Edition;

use crate::bench::{image, image_by, patched_a, with_footer, Bench, Revolution, SHORTER};

/// What is said at the head of calls that cannot all be made.
const NOT_WHOLE: &str =
    "# it cannot be taken back as a whole: replay refuses to make a revolution longer that is shorter now, and then writes nothing";

/// The call that makes image A the rewritten one of the example.
const REWRITE: &str = "rewrite 0 0 8000000 0140 0000 0001 00F0\n";

/// A bench with calls as calls.txt.
fn bench(calls: &str) -> Bench {
    let bench = Bench::new();
    bench.put("calls.txt", calls.as_bytes());
    bench
}

/// Reads a text.
fn text(bench: &Bench, name: &str) -> String {
    String::from_utf8(bench.get(name)).expect("UTF-8")
}

/// Some words and durations, always the same.
struct Numbers(u64);

impl Numbers {
    /// The next one.
    fn next(&mut self) -> u32 {
        self.0 = self.0.wrapping_mul(6_364_136_223_846_793_005).wrapping_add(1_442_695_040_888_963_407);
        (self.0 >> 32) as u32
    }

    /// A rewrite with as many words as the revolution has, as a line.
    fn rewrite(&mut self, track: u8, revolution: usize, words: usize) -> String {
        let mut line = format!("rewrite {track} {revolution} {}", self.next());
        for _ in 0..words {
            let _ = write!(line, " {:04x}", self.next() as u16);
        }
        line + if words == 0 { " -\n" } else { "\n" }
    }
}

/// Makes the calls on an image and takes them back: to other files, in place, and without --out; then takes that back, too.
fn is_taken_back(first: &[u8], calls: &str, status: i32) {
    let bench = bench(calls);
    bench.put("i.scp", first);
    let made = bench.run("replay i.scp calls.txt --out o.scp --undo undo.txt");
    assert_eq!((made.status, made.err.as_str()), (status, ""), "{calls}");
    assert!(made.out.contains("\nwritten to o.scp\nformer durations and words written to undo.txt\n"), "{}", made.out);
    let last = bench.get("o.scp");
    assert!(last != first && bench.get("i.scp") == first);
    bench.passes("replay o.scp undo.txt --out back.scp --undo again.txt");
    assert!(bench.get("back.scp") == first, "{calls}");
    bench.passes("replay back.scp again.txt --out back.scp --in-place");
    assert!(bench.get("back.scp") == last, "{calls}");
    bench.run("replay i.scp calls.txt --undo alone.txt");
    let heading = "# takes back \"fluxproof replay\": ";
    assert!(text(&bench, "undo.txt").starts_with(heading) && !text(&bench, "undo.txt").contains("shorter"));
    assert_eq!(text(&bench, "alone.txt"), text(&bench, "undo.txt").replacen(", written to o.scp\n", "\n", 1));
    bench.run("replay i.scp calls.txt --out i.scp --in-place --undo in-place.txt");
    assert!(bench.get("i.scp") == last);
    assert_eq!(text(&bench, "in-place.txt"), text(&bench, "undo.txt").replacen("o.scp\n", "i.scp\n", 1));
    bench.passes("replay i.scp in-place.txt --out i.scp --in-place");
    assert!(bench.get("i.scp") == first, "{calls}");
}

/// An image, and the same with a wrong checksum.
fn sound_and_damaged(sound: Vec<u8>, edition: Edition) -> [Vec<u8>; 2] {
    let mut damaged = sound.clone();
    damaged[0x0F] ^= 0x81;
    assert!(scp::validate(&sound, edition).is_ok() && scp::validate(&damaged, edition).is_err() && scp::header(&damaged, edition).is_ok());
    [sound, damaged]
}

#[test]
fn the_undo_file_has_the_last_rewrite_first() {
    let calls = "# first\nrewrite 0 0 5 0140 0000 0001 00F0\nrevolution 0 0\n# between\nrewrite 0 0 6 0001000200030004\n\
                 edition 1.4\nrewrite 0 0 7 FFFF 0000 0000 0A0b # last\nvalidate\n";
    let bench = bench(calls);
    let said = "2: rewrite 0 0 5 (8 bytes): ok\n3: revolution 0 0: duration 5 words 4 offset 704\n5: rewrite 0 0 6 (8 bytes): ok\n\
                6: edition 1.4\n7: rewrite 0 0 7 (8 bytes): ok\n8: validate: ok\n";
    let written = "written to b.scp\nformer durations and words written to undo.txt\nchecksum 980 -> 977\n";
    assert_eq!(bench.passes("replay a.scp calls.txt --out b.scp --undo undo.txt"), format!("{said}{written}"));
    let due = "# takes back \"fluxproof replay\": 3 rewrites of a.scp by calls.txt, written to b.scp\n\
               # line 7: track 0 revolution 0, duration 6 -> 7, words 4 -> 4\n\
               edition 1.4\n\
               rewrite 0 0 6 0001 0002 0003 0004\n\
               # line 5: track 0 revolution 0, duration 5 -> 6, words 4 -> 4\n\
               edition 1.6\n\
               rewrite 0 0 5 0140 0000 0001 00F0\n\
               # line 2: track 0 revolution 0, duration 8000000 -> 5, words 4 -> 4\n\
               rewrite 0 0 8000000 00A0 0000 0001 00F0\n";
    assert_eq!(text(&bench, "undo.txt"), due);
    assert_eq!(bench.names(), ["a.scp", "b.scp", "calls.txt", "undo.txt"]);
    bench.passes("replay b.scp undo.txt --out back.scp --edition 1.4");
    assert_eq!(bench.get("back.scp"), scp::example::image_a());
    let alone = "former durations and words written to alone.txt\n";
    assert_eq!(bench.passes("replay a.scp calls.txt --undo alone.txt"), format!("{said}{alone}"));
    assert_eq!(text(&bench, "alone.txt"), due.replace(", written to b.scp", ""));
    assert_eq!(bench.get("a.scp"), scp::example::image_a());
}

#[test]
fn the_example_of_the_help_is_what_is_printed() {
    let bench = bench("speed 0 0\nrewrite 0 0 8000000 0140 0000 0001 00F0   # 320, 65537, 240\nvalidate\n");
    bench.passes("replay a.scp calls.txt --out b.scp --undo undo.txt");
    let back = bench.passes("replay b.scp undo.txt --out back.scp");
    let shown = |text: String| text.lines().map(|line| format!("  {line}\n")).collect::<String>();
    let help = bench.passes("help replay");
    for (line, out) in [("cat undo.txt", text(&bench, "undo.txt")), ("fluxproof replay b.scp undo.txt --out back.scp", back)] {
        assert!(help.contains(&format!("\n  $ {line}\n{}", shown(out))), "{line}");
    }
}

#[test]
fn sequences_are_taken_back_byte_for_byte() {
    let words: Vec<u16> = (0..300).map(|number| if number % 40 == 7 { 0 } else { number * 17 + 1 }).collect();
    let (long, short): (Revolution, Revolution) = ((8_000_000, &words), (u32::MAX, &words[..50]));
    let many: [&[Revolution]; 3] = [&[long, short, (0, &[])], &[short, (7, &[9]), long], &[(1, &[]), (2, &[]), (3, &[1, 0, 0])]];
    let one: [&[Revolution]; 3] = [&[long], &[(7, &[])], &[short]];
    for (flags, tracks) in [(0x00, many), (0x01, one), (0x10, one)] {
        let (mut numbers, mut calls) = (Numbers(u64::from(flags)), String::from("validate\nheader\n"));
        for track in [2, 9, 167, 9, 2] {
            let revolutions = tracks[[2, 9, 167].iter().position(|&number| number == track).expect("a track")];
            for (revolution, (_, words)) in revolutions.iter().enumerate().rev() {
                calls += &numbers.rewrite(track, revolution, words.len());
                calls += &format!("# more\nflux {track} {revolution}\n\n");
            }
        }
        let sound = image(flags, &[(2, tracks[0]), (9, tracks[1]), (167, tracks[2])]);
        for (first, status) in sound_and_damaged(sound, Edition::V1_6).into_iter().zip([0, 1]) {
            is_taken_back(&first, &calls, status);
        }
    }
}

#[test]
fn each_rewrite_is_taken_back_by_its_own_edition() {
    let (one, other): (&[Revolution], &[Revolution]) = (&[(5, &[1, 2, 3]), (6, &[])], &[(7, &[4]), (8, &[5, 6])]);
    let mut numbers = Numbers(5);
    for edition in Edition::ALL {
        let sound = image_by(edition, 0, &[(0, one), (165, other)]);
        let calls = format!("edition {edition}\n{}{}", numbers.rewrite(0, 0, 3), numbers.rewrite(165, 1, 2));
        sound_and_damaged(sound, edition).iter().for_each(|first| is_taken_back(first, &calls, 0));
    }
    // The strings protect their bytes by 1.6 alone, and both editions find the tracks.
    let sound = with_footer(image(0, &[(0, one), (165, other)]), [b"a", b"", b"b", b"", b"", b"c"], 1, 2);
    for first in sound_and_damaged(sound, Edition::V1_6) {
        let mut calls = String::new();
        for (edition, (track, revolution, words)) in
            ["1.6", "1.4", "1.4", "1.6", "1.6", "1.4"].iter().zip([(0, 0, 3), (0, 0, 3), (165, 1, 2), (0, 1, 0), (165, 0, 1), (0, 0, 3)])
        {
            calls += &format!("edition {edition}\n{}footer\n", numbers.rewrite(track, revolution, words));
        }
        is_taken_back(&first, &calls, 0);
    }
    // Before the first line that names one, the edition is that of the option.
    let bench = bench("rewrite 0 0 5 0140 0000 0001 00F0\n");
    bench.put("old.scp", &scp::example::image_a_1_4());
    bench.passes("replay old.scp calls.txt --out new.scp --undo undo.txt --edition 1.4");
    assert!(text(&bench, "undo.txt").ends_with("\nedition 1.4\nrewrite 0 0 8000000 00A0 0000 0001 00F0\n"));
    bench.passes("replay new.scp undo.txt --out new.scp --in-place");
    assert_eq!(bench.get("new.scp"), scp::example::image_a_1_4());
}

#[test]
fn an_image_of_real_size_is_taken_back() {
    let words: Vec<u16> = (0..20_000_u32).map(|number| if number % 97 == 3 { 0 } else { (number * 31) as u16 | 1 }).collect();
    let revolutions: &[Revolution] = &[(8_000_000, &words), (8_000_100, &words[..9_000])];
    let tracks: Vec<(u8, &[Revolution])> = (0..60).map(|track| (track, revolutions)).collect();
    let (first, mut numbers, mut calls) = (image(0x01, &tracks), Numbers(11), String::new());
    for (track, revolution, words) in [(0, 0, 20_000), (59, 1, 9_000), (30, 0, 20_000), (0, 0, 20_000), (30, 1, 9_000)] {
        calls += &numbers.rewrite(track, revolution, words);
    }
    assert!(first.len() > 3_000_000);
    let bench = bench(&calls);
    bench.put("i.scp", &first);
    bench.passes("replay i.scp calls.txt --out o.scp --undo undo.txt");
    assert_eq!(scp::validate(&bench.get("o.scp"), Edition::V1_6), Ok(()));
    bench.passes("replay o.scp undo.txt --out o.scp --in-place");
    assert!(bench.get("o.scp") == first);
}

#[test]
fn a_shorter_revolution_is_said_to_be_for_good() {
    let calls = "rewrite 0 0 5 0001 0002 0003 0004\nrewrite 0 0 6 0005 0006\nspeed 0 0\nrewrite 0 0 7 0007 0008\nrewrite 0 0 8 -\n";
    let bench = bench(calls);
    let lost = |undo: &str| [2, 5].map(|line| format!("{line}: {SHORTER}; its former words are in {undo}\n")).concat();
    let out = bench.passes("replay a.scp calls.txt --out b.scp --undo undo.txt");
    let written = "\nwritten to b.scp\nformer durations and words written to undo.txt\n";
    assert!(out.contains(&format!("{written}{}checksum ", lost("undo.txt"))), "{out}");
    let refused = |why: &str| format!("# {why}; its former words are kept here, but replay refuses to put them back");
    let (kept, later) = (refused(SHORTER), refused("a later rewrite makes the revolution shorter"));
    let due = [
        "# takes back \"fluxproof replay\": 4 rewrites of a.scp by calls.txt, written to b.scp",
        NOT_WHOLE,
        "# line 5: track 0 revolution 0, duration 7 -> 8, words 2 -> 0",
        &kept,
        "edition 1.6",
        "rewrite 0 0 7 0007 0008",
        "# line 4: track 0 revolution 0, duration 6 -> 7, words 2 -> 2",
        &later,
        "rewrite 0 0 6 0005 0006",
        "# line 2: track 0 revolution 0, duration 5 -> 6, words 4 -> 2",
        &kept,
        "rewrite 0 0 5 0001 0002 0003 0004",
        "# line 1: track 0 revolution 0, duration 8000000 -> 5, words 4 -> 4",
        &later,
        "rewrite 0 0 8000000 00A0 0000 0001 00F0",
    ];
    assert_eq!(text(&bench, "undo.txt").lines().collect::<Vec<_>>(), due);
    let names = bench.names();
    let run = bench.run("replay b.scp undo.txt --out back.scp --undo again.txt");
    let refused = [(6, 7, 2), (9, 6, 2), (12, 5, 4), (15, 8_000_000, 4)].map(|(line, duration, words)| {
        let bytes = 2 * words;
        format!("{line}: rewrite 0 0 {duration} ({bytes} bytes): refused 17 Words: {words} words, where the revolution has 0\n")
    });
    assert_eq!((run.status, run.out), (1, format!("5: edition 1.6\n{}", refused.concat())));
    assert_eq!((run.err.as_str(), bench.names()), ("fluxproof: back.scp and again.txt: not written, since a rewrite is refused\n", names));
    assert!(bench.passes("replay a.scp calls.txt --undo alone.txt").ends_with(&lost("alone.txt")));
    let out = bench.passes("replay a.scp calls.txt --out a.scp --in-place --undo third.txt");
    assert!(out.contains(&lost("third.txt")) && bench.get("a.scp") == bench.get("b.scp"), "{out}");
}

#[test]
fn what_comes_back_beside_a_shorter_revolution_is_not_marked() {
    let bench = bench("rewrite 0 0 5 0001 0002\nrewrite 2 0 5 0003\nrewrite 2 0 6 0004\nrewrite 0 0 7 0009\n");
    bench.put("i.scp", &image(0, &[(0, &[(1, &[1, 2][..])]), (2, &[(2, &[3][..])])]));
    let out = bench.passes("replay i.scp calls.txt --out o.scp --undo undo.txt");
    assert!(out.contains(&format!("\n4: {SHORTER}; its former words are in undo.txt\n")), "{out}");
    let undo = text(&bench, "undo.txt");
    let marked = undo.lines().map(|line| line.contains("refuses to put them back")).collect::<Vec<_>>();
    // the heading's two lines, line 4 with its mark and its edition, lines 3 and 2 without, line 1 with its mark
    assert_eq!(marked, [[false, false, false, true, false, false, false].as_slice(), &[false, false, false, false, true, false]].concat());
    let run = bench.run("replay o.scp undo.txt");
    assert_eq!(run.out.lines().map(|line| line.ends_with(": ok")).collect::<Vec<_>>(), [false, false, true, true, false]);
}

#[test]
fn former_words_that_an_earlier_line_put_are_in_no_image() {
    let bench = bench("rewrite 0 0 5 0001 0002 0003 0004\nrewrite 0 0 6 0005 0006\n");
    let out = bench.passes("replay a.scp calls.txt --out b.scp");
    assert!(out.contains(&format!("\n2: {SHORTER}; its former words are those of an earlier line\n")), "{out}");
    bench.put("once.txt", b"rewrite 0 0 6 0005 0006\n");
    let out = bench.passes("replay a.scp once.txt --out c.scp");
    assert!(out.contains(&format!("\n1: {SHORTER}; its former words are still in a.scp\n")), "{out}");
}

#[test]
fn where_a_rewrite_is_refused_neither_file_is_written() {
    let bench = bench("rewrite 0 0 5 0001\nrewrite 1 0 5 0001\nvalidate\n");
    bench.put("old.scp", b"precious");
    let names = bench.names();
    for (options, files) in [
        ("--out new.scp --undo undo.txt", "new.scp and undo.txt"),
        ("--undo undo.txt --out old.scp --force", "old.scp and undo.txt"),
        ("--out ./a.scp --in-place --undo undo.txt", "./a.scp and undo.txt"),
        ("--undo undo.txt", "undo.txt"),
    ] {
        let run = bench.run(&format!("replay a.scp calls.txt {options}"));
        assert_eq!((run.status, run.err), (1, format!("fluxproof: {files}: not written, since a rewrite is refused\n")));
        assert!(run.out.starts_with("1: rewrite 0 0 5 (2 bytes): ok\n2: rewrite 1 0 5 (2 bytes): refused 13 Absent: "), "{}", run.out);
        assert!(run.out.ends_with("\n3: validate: ok\n"), "{}", run.out);
    }
    assert_eq!((bench.get("a.scp"), bench.get("old.scp"), bench.names()), (scp::example::image_a(), b"precious".to_vec(), names));
}

#[test]
fn a_refused_question_does_not_keep_the_undo_from_being_written() {
    let bench = bench(&format!("track 5\n{REWRITE}speed 0 9\n"));
    for options in ["--undo alone.txt", "--out b.scp --undo undo.txt"] {
        assert!(bench.refuses(&format!("replay a.scp calls.txt {options}")).contains("\nformer durations and words written to "));
    }
    assert_eq!(bench.get("b.scp"), patched_a());
    for undo in ["alone.txt", "undo.txt"] {
        bench.passes(&format!("replay b.scp {undo} --out back.scp --force"));
        assert_eq!(bench.get("back.scp"), scp::example::image_a());
    }
}

#[test]
fn where_nothing_is_rewritten_there_is_nothing_to_take_back() {
    for calls in ["", "# nothing\n", "validate\nedition 1.4\nspeed 0 0\n"] {
        let bench = bench(calls);
        let out = bench.passes("replay a.scp calls.txt --out b.scp --undo undo.txt");
        assert!(out.contains("written to b.scp\nnothing to take back: undo.txt says so\n"), "{out}");
        assert!(bench.passes("replay a.scp calls.txt --undo alone.txt").ends_with("nothing to take back: alone.txt says so\n"));
        let due =
            "# takes back \"fluxproof replay\": no rewrite of a.scp by calls.txt, written to b.scp, so there is nothing to take back\n";
        assert_eq!((text(&bench, "undo.txt"), text(&bench, "alone.txt")), (due.to_string(), due.replace(", written to b.scp", "")));
        assert_eq!(bench.passes("replay b.scp undo.txt"), "");
        bench.passes("replay b.scp undo.txt --out back.scp");
        assert_eq!(bench.get("back.scp"), scp::example::image_a());
    }
}

#[test]
fn calls_of_standard_input_are_taken_back() {
    let bench = Bench::new();
    let run = bench.run_with("replay a.scp - --out b.scp --undo undo.txt", REWRITE.as_bytes());
    assert_eq!((run.status, run.err.as_str(), bench.get("b.scp")), (0, "", patched_a()));
    let heading = "# takes back \"fluxproof replay\": 1 rewrite of a.scp by standard input, written to b.scp\n# line 1: ";
    assert!(text(&bench, "undo.txt").starts_with(heading), "{}", text(&bench, "undo.txt"));
    let run = bench.run_with("replay b.scp - --out back.scp", &bench.get("undo.txt"));
    assert_eq!((run.status, run.err.as_str(), bench.get("back.scp")), (0, "", scp::example::image_a()));
}

#[test]
fn an_undo_file_is_never_replaced() {
    let bench = bench(REWRITE);
    bench.put("undo.txt", b"precious");
    let names = bench.names();
    for options in ["", "--out b.scp", "--out b.scp --force", "--out a.scp --in-place"] {
        for undo in ["undo.txt", "./undo.txt", "calls.txt"] {
            let line = format!("replay a.scp calls.txt {options} --undo {undo}");
            bench.fails(&line, 3, &format!("{undo}: it exists already, and is never replaced"));
        }
        let line = format!("replay a.scp calls.txt {options} --undo");
        bench.fails(&format!("{line} -"), 2, "\"-\" names no file to write (one named - is ./-)");
        bench.fails(&format!("{line} .."), 2, "\"..\" names no file to write");
        bench.fails(&format!("{line} u.txt --undo v.txt"), 2, "--undo is given twice");
        bench.fails(&line, 2, "--undo needs a value");
    }
    assert_eq!((bench.names(), bench.get("undo.txt"), bench.get("a.scp")), (names, b"precious".to_vec(), scp::example::image_a()));
}

#[test]
fn the_undo_file_is_not_the_image() {
    let bench = bench(REWRITE);
    let (names, folder) = (bench.names(), bench.folder.file_name().expect("a name").to_string_lossy().into_owned());
    for undo in ["b.scp".to_string(), "./b.scp".to_string(), format!("../{folder}/b.scp")] {
        for force in ["", "--force"] {
            let line = format!("replay a.scp calls.txt --out b.scp --undo {undo} {force}");
            bench.fails(&line, 2, &format!("{undo} and b.scp are the same file"));
        }
    }
    bench.fails("replay a.scp calls.txt --out a.scp --in-place --undo ./a.scp", 2, "./a.scp and a.scp are the same file");
    for options in ["", "--out b.scp"] {
        bench.fails(&format!("replay a.scp calls.txt {options} --undo a.scp"), 3, "a.scp: it exists already, and is never replaced");
    }
    assert_eq!((bench.names(), bench.get("a.scp")), (names, scp::example::image_a()));
}

#[test]
fn a_file_that_cannot_be_written_leaves_none() {
    let bench = bench(REWRITE);
    let names = bench.names();
    for (options, file) in [
        ("--undo none/u.txt", "none/u.txt"),
        ("--out b.scp --undo none/u.txt", "none/u.txt"),
        ("--out a.scp --in-place --undo none/u.txt", "none/u.txt"),
        ("--out none/b.scp --undo u.txt", "none/b.scp"),
    ] {
        let run = bench.run(&format!("replay a.scp calls.txt {options}"));
        let said = format!("fluxproof: {file}: cannot be written: No such file");
        assert!(run.status == 3 && run.err.starts_with(&said) && run.out == "1: rewrite 0 0 8000000 (8 bytes): ok\n", "{run:?}");
    }
    assert_eq!((bench.names(), bench.get("a.scp")), (names, scp::example::image_a()));
    bench.fails("replay a.scp calls.txt --undo u.txt --force", 2, "--force is for --out, which is missing");
    bench.fails("replay a.scp calls.txt --undo u.txt --in-place", 2, "--in-place is for --out, which is missing");
}

#[test]
fn an_undo_file_is_no_longer_than_replay_reads() {
    let bench = bench("rewrite 0 0 1 -\n");
    let mut long = image(0x10, &[(0, &[(8_000_000, &[])])]);
    let words = 54_000_000_u32;
    long[696..700].copy_from_slice(&words.to_le_bytes());
    bench.put("long.scp", &long);
    let file = std::fs::OpenOptions::new().write(true).open(bench.path("long.scp")).expect("the image");
    file.set_len(long.len() as u64 + 2 * u64::from(words)).expect("a sparse file");
    let names = bench.names();
    let run = bench.run("replay long.scp calls.txt --out b.scp --undo undo.txt");
    let due = "fluxproof: undo.txt: it would be longer than the 268,435,456 bytes that replay reads, so nothing is written\n";
    assert_eq!((run.status, run.err.as_str(), run.out.as_str()), (3, due, "1: rewrite 0 0 1 (0 bytes): ok\n"));
    assert_eq!(bench.names(), names);
}

#[cfg(unix)]
#[test]
fn no_name_ends_a_comment() {
    use crate::bench::{Run, NEW_WORDS};
    let bench = bench(REWRITE);
    let names = ["i\nrewrite 9 9 9 -\n.scp", "c\r\nfrobnicate\u{2028}\n", "o\nvalidate\n", "p\nx"];
    bench.put(names[0], &scp::example::image_a());
    bench.put(names[1], REWRITE.as_bytes());
    bench.put("words.bin", &NEW_WORDS);
    let run = |line: &str, words: &[&str]| {
        let run = Run::of(bench.command(line).args(words).output().expect("the command runs"));
        assert_eq!((run.status, run.err.as_str()), (0, ""), "{words:?}");
    };
    run("replay", &[names[0], names[1], "--out", names[2], "--undo", "undo.txt"]);
    run("patch", &[names[0], names[3], "0", "0", "--duration", "8000000", "--words", "words.bin", "--undo", "patch.txt"]);
    let (shown, of) = ("i\\nrewrite 9 9 9 -\\n.scp", "c\\r\\nfrobnicate\\u{2028}\\n");
    let heading = format!("# takes back \"fluxproof replay\": 1 rewrite of {shown} by {of}, written to o\\nvalidate\\n\n# line 1: ");
    assert!(text(&bench, "undo.txt").starts_with(&heading), "{}", text(&bench, "undo.txt"));
    assert!(text(&bench, "patch.txt").contains(&format!(" of {shown}, rewritten in p\\nx, duration ")), "{}", text(&bench, "patch.txt"));
    for (name, undo) in [(names[2], "undo.txt"), (names[3], "patch.txt")] {
        assert_eq!(bench.get(name), patched_a());
        run("replay", &[name, undo, "--out", name, "--in-place"]);
        assert_eq!(bench.get(name), scp::example::image_a());
    }
}
