//! Images of revision 1.4, and `--edition` with each command.

use scp::Edition;

use crate::bench::{changed, damaged_a, image, image_by, with_footer, Bench, NEW_WORDS};

/// A run of each command on an image.
const LINES: [&str; 7] = [
    "list FILE",
    "validate FILE",
    "show FILE",
    "read FILE 0 0",
    "patch FILE out.scp 0 0 --duration 8000000 --words words.bin --force",
    "replay FILE calls.txt",
    "plot FILE 0 0 out.svg --force",
];

/// Why image A of revision 1.4 is refused by 1.6.
const TOO_LOW: &str = "refused 10 Track: track 0: its header at 680 is below 688 (it is valid as revision 1.4: try --edition 1.4)";

/// A bench with image A of revision 1.4 as old.scp, and with all that the lines name.
fn bench() -> Bench {
    let bench = Bench::with_words();
    bench.put("old.scp", &scp::example::image_a_1_4());
    bench.put("calls.txt", b"validate\nfooter\ntrack 0\n");
    bench
}

/// The lines on a file.
fn lines(file: &str) -> impl Iterator<Item = String> + '_ {
    LINES.into_iter().map(move |line| line.replace("FILE", file))
}

/// What the hint at an edition says.
fn hint(edition: Edition) -> String {
    format!(" (it is valid as revision {edition}: try --edition {edition})")
}

/// Image A, 1.6, with FLAGS bit 5, the maker "hi" and the footer behind the flux: 712 to 717, and 717 to 765.
fn footed() -> Vec<u8> {
    with_footer(scp::example::image_a(), [b"hi", b"", b"", b"", b"", b""], 1, 2)
}

/// An image of 1.6 whose maker, "hi", stands in its flux at 704; the footer starts at 710.
fn string_in_flux() -> Vec<u8> {
    let words: &[u16] = &[0x0200, 0x6869, 0x00F0];
    let footed = with_footer(image(0, &[(0, &[(8_000_000, words)])]), [b""; 6], 1, 2);
    changed(footed, 710, &704_u32.to_le_bytes())
}

#[test]
fn an_old_image_is_read_by_every_command() {
    let bench = bench();
    for option in ["--edition 1.4", "--edition=1.4"] {
        let passes = |line: &str| bench.passes(&format!("{line} {option}"));
        assert_eq!(passes("validate old.scp a.scp --all"), "old.scp: ok\na.scp: ok\n");
        let listed = "ok 704 tracks 1 turns 1 sum 972\ntrack 0 turn 0 ticks 8000000 words 4 intervals 3 open 0 last 3\n";
        assert_eq!(passes("list old.scp"), listed);
        assert_eq!(bench.run_with(&format!("list {option} -"), &scp::example::image_a_1_4()).out, listed);
        assert_eq!(passes("read old.scp 0 0"), "160\n65537\n240\n");
        assert_eq!(passes("read old.scp 0 0 --closing"), "160 word 0\n65537 word 2\n240 word 3\n");
        assert_eq!(passes("plot old.scp 0 0 out.svg --force"), "3 intervals drawn in out.svg\n");
        let out = passes("patch old.scp out.scp 0 0 --duration keep --words words.bin --force");
        assert!(out.ends_with("words 4 -> 4\nchecksum 972 -> 877\n"), "{out}");
        assert_eq!(bench.get("out.scp"), changed(scp::example::image_a_1_4(), 696, &NEW_WORDS));
        let out = passes("replay old.scp calls.txt");
        assert_eq!(out, "1: validate: ok\n2: footer: none\n3: track 0: cylinder 0 head 0 offset 680 revolutions 1\n");
        let out = passes("show old.scp");
        for line in ["read as             revision 1.4", "size                704 bytes", "tracks              0 to 0, 1 present"] {
            assert!(out.contains(&format!("\n{line}\n")), "{line}: {out}");
        }
        assert!(out.contains("stored 972, true sum 972: sound\n") && out.contains("    0        0    0 0x000002A8 "), "{out}");
    }
}

#[test]
fn revision_1_6_is_taken_where_none_is_named() {
    let bench = bench();
    bench.put("f.scp", &footed());
    bench.put("d.scp", &damaged_a());
    for line in ["a.scp", "old.scp", "f.scp", "d.scp"].into_iter().flat_map(lines) {
        let (without, with) = (bench.run(&line), bench.run(&format!("{line} --edition 1.6")));
        assert_eq!((with.status, with.out, with.err), (without.status, without.out, without.err), "{line}");
    }
    assert!(bench.passes("show a.scp").contains("\nread as             revision 1.6\n"));
}

#[test]
fn an_edition_that_is_none_is_wrong_usage() {
    let bench = bench();
    let names = bench.names();
    for line in lines("none.scp") {
        let name = line.split(' ').next().unwrap_or_default();
        for edition in ["1.5", "14", "1.40", "v1.4", "1,4", "4.1", "\u{7}"] {
            let said = format!("{name}: --edition: \"{}\" is neither 1.4 nor 1.6; see \"fluxproof help {name}\"\n", edition.escape_debug());
            bench.fails(&format!("{line} --edition {edition}"), 2, &said);
            bench.fails(&format!("{line} --edition={edition}"), 2, &said);
        }
        bench.fails(&format!("{line} --edition="), 2, "--edition: \"\" is neither 1.4 nor 1.6");
        bench.fails(&format!("{line} --edition"), 2, "--edition needs a value");
        bench.fails(&format!("{line} --edition 1.4 --edition 1.4"), 2, "--edition is given twice");
        bench.fails(&format!("{line} --editon 1.4"), 2, "unknown option \"--editon\" (did you mean \"--edition\"?)");
    }
    assert_eq!(bench.names(), names);
}

#[test]
fn disk_images_have_no_edition() {
    let bench = Bench::with_disk();
    for line in ["dsk list a.dsk", "dsk validate a.dsk", "dsk show a.dsk", "dsk sector a.dsk 0 0 0"] {
        bench.fails(&format!("{line} --edition 1.4"), 2, "unknown option \"--edition\"");
    }
    assert!(!bench.passes("help dsk").contains("edition"));
}

#[test]
fn the_help_tells_of_editions() {
    let bench = Bench::new();
    for line in ["--help".to_string()].into_iter().chain(LINES.map(|line| format!("help {}", line.split(' ').next().unwrap_or_default()))) {
        let help = bench.passes(&line);
        assert!(help.contains("--edition") && help.contains("1.4") && help.contains("1.6"), "{help}");
    }
    assert!(bench.passes("help validate").contains(&format!("  old.scp: {TOO_LOW}\n")));
    assert!(bench.passes("--help").contains(&format!("  {TOO_LOW}\n")));
    assert!(bench.passes("help replay").contains(&format!("  1: validate: {TOO_LOW}\n  2: edition 1.4\n  3: validate: ok\n")));
}

#[test]
fn the_other_edition_is_hinted_at_by_every_command_but_the_listing() {
    let bench = bench();
    let names = bench.names();
    assert_eq!(bench.refuses("list old.scp"), "refused 10 at 0\n");
    assert_eq!(bench.refuses("validate old.scp a.scp"), format!("old.scp: {TOO_LOW}\na.scp: ok\n"));
    assert!(bench.refuses("show old.scp").starts_with(&format!("old.scp: {TOO_LOW}\nUNCHECKED: ")));
    bench.fails("read old.scp 0 0", 1, &format!("old.scp: {TOO_LOW}\n"));
    bench.fails("plot old.scp 0 0 out.svg", 1, &format!("old.scp: {TOO_LOW}\n"));
    bench.fails("patch old.scp out.scp 0 0 --duration keep --words words.bin", 1, &format!("old.scp: {TOO_LOW}\n"));
    let replayed = format!("1: validate: {TOO_LOW}\n2: footer: {TOO_LOW}\n3: track 0: {TOO_LOW}\n");
    assert_eq!(bench.refuses("replay old.scp calls.txt"), replayed);
    assert_eq!(bench.names(), names);
}

#[test]
fn each_further_fault_is_without_the_hint() {
    let bench = bench();
    // Its track header starts where the table of 1.6 has its last two entries: "TRK", 0 and the duration.
    let due = [
        TOO_LOW,
        "also 9 Slot: track 166 has an entry, but the tracks are 0 to 0",
        "also 10 Track: track 166: its header of 16 bytes at 4,936,276 ends at 4,936,292, past 704",
        "also 9 Slot: track 167 has an entry, but the tracks are 0 to 0",
        "also 10 Track: track 167: its header of 16 bytes at 8,000,000 ends at 8,000,016, past 704",
    ];
    let out = bench.refuses("validate --all old.scp");
    assert_eq!(out.lines().collect::<Vec<_>>(), due.map(|line| format!("old.scp: {line}")));
    assert_eq!(bench.passes("validate --all old.scp --edition 1.4"), "old.scp: ok\n");
}

/// Images that one edition accepts and the other refuses, with that one and what it says, before the hint.
fn accepted_by_the_other() -> Vec<(Vec<u8>, Edition, &'static str)> {
    let track_0: &[(u32, &[u16])] = &[(7, &[5])];
    let least = |size: usize| {
        let mut least = image_by(Edition::V1_4, 0, &[]);
        least.resize(size, 0);
        least
    };
    let behind = |bytes: &[u8]| changed(scp::example::image_a(), 680, bytes);
    vec![
        (least(680), Edition::V1_6, "1 Size: 680 bytes, fewer than 688"),
        (least(687), Edition::V1_6, "1 Size: 687 bytes, fewer than 688"),
        (image(0, &[(166, track_0)]), Edition::V1_4, "5 Span: the end track 166 is above 165"),
        (image(0, &[(0, track_0), (167, track_0)]), Edition::V1_4, "5 Span: the end track 167 is above 165"),
        (behind(b"1/05"), Edition::V1_6, "9 Slot: track 166 has an entry, but the tracks are 0 to 0"),
        (behind(&[0, 0, 0, 0, 0, 0, 0, 1]), Edition::V1_6, "9 Slot: track 167 has an entry, but the tracks are 0 to 0"),
        (image_by(Edition::V1_4, 0, &[(0, track_0), (9, track_0)]), Edition::V1_6, "10 Track: track 0: its header at 680 is below 688"),
        (image_by(Edition::V1_4, 0, &[(165, track_0)]), Edition::V1_6, "10 Track: track 165: its header at 680 is below 688"),
        (changed(footed(), 696, &[7]), Edition::V1_6, "11 Flux: track 0, revolution 0: 2 x 7 bytes at 704 end at 718, past 717"),
    ]
}

#[test]
fn an_image_that_the_other_edition_accepts_gets_a_hint() {
    let bench = bench();
    for (bytes, edition, said) in accepted_by_the_other() {
        bench.put("b.scp", &bytes);
        let other = edition.other();
        let said = format!("b.scp: refused {said}{}\n", hint(other));
        assert_eq!(bench.refuses(&format!("validate b.scp --edition {edition}")), said);
        assert!(bench.refuses(&format!("show b.scp --edition {edition}")).starts_with(&said));
        bench.fails(&format!("read b.scp 0 0 --edition {edition}"), 1, &said);
        assert_eq!(bench.passes(&format!("validate b.scp --edition {other}")), "b.scp: ok\n");
    }
}

/// Images that an edition refuses, with what it says: the other edition refuses them, too, or does not look at what is at fault.
fn without_hint() -> Vec<(Vec<u8>, Edition, &'static str)> {
    let old = |offset: usize, bytes: &[u8]| changed(scp::example::image_a_1_4(), offset, bytes);
    let old_damaged = {
        let mut damaged = scp::example::image_a_1_4();
        damaged[12] += 1;
        damaged
    };
    let both_wrong = {
        let mut wrong = image(0, &[(167, &[(7, &[5])])]);
        wrong[12] ^= 1;
        wrong
    };
    vec![
        (vec![0; 679], Edition::V1_4, "1 Size: 679 bytes, fewer than 680"),
        (vec![0; 680], Edition::V1_6, "1 Size: 680 bytes, fewer than 688"),
        (old(0, b"SPC"), Edition::V1_4, "2 Sign: the first three bytes are 53 50 43, not SCP"),
        (old(9, &[8]), Edition::V1_4, "3 Width: byte 0x09 is 8, not 0 or 16"),
        (old(5, &[0]), Edition::V1_4, "4 Revolutions: byte 0x05 is 0, not 1 to 255"),
        (old(6, &[9, 3]), Edition::V1_4, "5 Span: the start track 9 is above the end track 3"),
        (old(7, &[166]), Edition::V1_4, "5 Span: the end track 166 is above 165"),
        (both_wrong, Edition::V1_4, "5 Span: the end track 167 is above 165"),
        (old(10, &[3]), Edition::V1_4, "6 Heads: byte 0x0A is 3, not 0, 1 or 2"),
        (
            changed(scp::example::image_a(), 8, &[0x21]),
            Edition::V1_6,
            "7 Footer: FLAGS 0x21 announces one, but 712 bytes are fewer than 736",
        ),
        (old(8, &[0x21]), Edition::V1_6, "7 Footer: FLAGS 0x21 announces one, but 704 bytes are fewer than 736"),
        (changed(footed(), 714, &[0]), Edition::V1_6, "8 String: maker: the byte at 714, within its 2 bytes, is 0"),
        (
            changed(footed(), 714, &[0x97]),
            Edition::V1_6,
            "19 Text: maker (string 0 at 712): not UTF-8 at 714, after 0 of its 2 bytes: 97 cannot start a character, in \"\\x97i\"",
        ),
        (old(16, &[0xA7]), Edition::V1_4, "10 Track: track 0: its header at 679 is below 680"),
        (old(16, &[0xB1]), Edition::V1_4, "10 Track: track 0: its header of 16 bytes at 689 ends at 705, past 704"),
        (old(688, &[5]), Edition::V1_4, "11 Flux: track 0, revolution 0: 2 x 5 bytes at 696 end at 706, past 704"),
        (old_damaged.clone(), Edition::V1_4, "12 Sum: stored 973, the bytes add up to 972"),
        (old_damaged, Edition::V1_6, "10 Track: track 0: its header at 680 is below 688"),
        (damaged_a(), Edition::V1_6, "12 Sum: stored 981, the bytes add up to 980"),
        (damaged_a(), Edition::V1_4, "12 Sum: stored 981, the bytes add up to 980"),
    ]
}

#[test]
fn no_other_image_gets_a_hint() {
    let bench = bench();
    for (bytes, edition, said) in without_hint() {
        bench.put("b.scp", &bytes);
        assert_eq!(bench.refuses(&format!("validate b.scp --edition {edition}")), format!("b.scp: refused {said}\n"));
        assert!(bench.refuses(&format!("show b.scp --edition {edition}")).starts_with(&format!("b.scp: refused {said}\n")));
    }
}

#[test]
fn a_track_above_the_last_of_the_edition_is_absent() {
    let bench = bench();
    bench.put("last.scp", &image_by(Edition::V1_4, 0, &[(0, &[(7, &[5])]), (165, &[(7, &[6])])]));
    assert_eq!(bench.passes("read last.scp 165 0 --edition 1.4"), "6\n");
    for (line, said) in [
        ("last.scp 166 0 --edition 1.4", "13 Absent: track 166 is above 165"),
        ("a.scp 167 0 --edition 1.4", "13 Absent: track 167 is above 165"),
        ("a.scp 167 0", "13 Absent: track 167 has no entry in the table, which has 1 track"),
        ("a.scp 168 0", "13 Absent: track 168 is above 167"),
        ("last.scp 164 0 --edition 1.4", "13 Absent: track 164 has no entry in the table, which has 2 tracks"),
        ("last.scp 0 1 --edition 1.4", "14 Revolution: revolution 1 of track 0: a track has 1 revolution, from 0 on"),
    ] {
        let (file, _) = line.split_once(' ').expect("a file");
        bench.fails(&format!("read {line}"), 1, &format!("{file}: refused {said}\n"));
        bench.fails(&format!("plot {line} out.svg"), 1, &format!("{file}: refused {said}\n"));
    }
}

#[test]
fn revolutions_and_read_write_are_the_same_by_both() {
    let bench = bench();
    let revolutions = vec![(7, &[5, 0][..]); 255];
    bench.put("word.bin", &[0, 9]);
    for edition in Edition::ALL {
        bench.put("r.scp", &image_by(edition, 0, &[(165, &revolutions)]));
        let listed = bench.passes(&format!("list r.scp --edition {edition}"));
        assert!(listed.ends_with("\ntrack 165 turn 254 ticks 7 words 2 intervals 1 open 65536 last 0\n"), "{listed}");
        assert_eq!(bench.passes(&format!("read r.scp 165 254 --edition {edition}")), "5\nopen 65536\n");
        bench.put("w.scp", &image_by(edition, 0x10, &[(0, &revolutions[..1])]));
        let out = bench.passes(&format!("patch w.scp x.scp 0 0 --duration keep --words word.bin --force --edition {edition}"));
        assert!(out.ends_with("\nchecksum 0 -> 0\n"), "{out}");
        bench.put("w.scp", &image_by(edition, 0x10, &[(0, &revolutions[..2])]));
        let said = "w.scp: refused 4 Revolutions: byte 0x05 is 2, but a read/write image (FLAGS bit 4) has 1\n";
        assert_eq!(bench.refuses(&format!("validate w.scp --edition {edition}")), said);
    }
}

#[test]
fn a_footer_is_shown_by_revision_1_6_alone() {
    let bench = bench();
    bench.put("f.scp", &footed());
    let shown = bench.passes("show f.scp");
    assert!(shown.contains("\n  footer            footer\n") && shown.contains("\nfooter              present\n"), "{shown}");
    let shown = bench.passes("show f.scp --edition 1.4");
    assert!(shown.contains("\n  footer            set, but revision 1.4 has no footer\n"), "{shown}");
    assert!(shown.contains("\nfooter              none\n") && !shown.contains("maker"), "{shown}");
    let shown = bench.passes("show old.scp --edition 1.4");
    assert!(shown.contains("\n  footer            no footer\n") && shown.contains("\nfooter              none\n"), "{shown}");
    bench.put("f.scp", &changed(footed(), 9, &[8]));
    let shown = bench.refuses("show f.scp --edition 1.4");
    assert!(shown.contains("\nfooter              none\n") && shown.contains("\nread as             revision 1.4\n"), "{shown}");
}

#[test]
fn an_old_image_that_is_cut_or_refused_is_shown_by_its_edition() {
    let bench = bench();
    let shown_cut_at = |size: usize| {
        bench.put("b.scp", &scp::example::image_a_1_4()[..size]);
        bench.refuses("show b.scp --edition 1.4")
    };
    assert!(shown_cut_at(679).contains("0 to 0, which are present is cut off\n"));
    let shown = shown_cut_at(695);
    assert!(shown.starts_with("b.scp: refused 10 Track: track 0: its header of 16 bytes at 680 ends at 696, past 695\n"), "{shown}");
    assert!(shown.contains("0 to 0, 1 present\n") && shown.contains("0x000002A8  10 Track: "), "{shown}");
    // By revision 1.6 the first bytes of its track are two more.
    let shown = bench.refuses("show old.scp");
    assert!(shown.contains("0 to 0, 3 present\n") && shown.contains("\n  166       83    0 0x004B5254  9 Slot: "), "{shown}");
}

#[test]
fn a_patch_by_revision_1_4_is_taken_back_without_naming_it_again() {
    let bench = bench();
    let first = scp::example::image_a_1_4();
    let patch = "patch old.scp out.scp 0 0 --duration 5 --words words.bin";
    bench.passes(&format!("{patch} --undo undo.txt --edition 1.4"));
    let text =
        "# takes back \"fluxproof patch\": track 0 revolution 0 of old.scp, rewritten in out.scp, duration 8000000 -> 5, words 4 -> 4\n\
                edition 1.4\n\
                rewrite 0 0 8000000 00A0 0000 0001 00F0\n";
    assert_eq!(String::from_utf8(bench.get("undo.txt")).expect("UTF-8"), text);
    let due = "2: edition 1.4\n3: rewrite 0 0 8000000 (8 bytes): ok\nwritten to back.scp\nchecksum 742 -> 972\n";
    assert_eq!(bench.passes("replay out.scp undo.txt --out back.scp"), due);
    assert!(bench.get("back.scp") == first && bench.get("out.scp") != first);
    assert_eq!(bench.passes("replay out.scp undo.txt --edition 1.6"), "2: edition 1.4\n3: rewrite 0 0 8000000 (8 bytes): ok\n");
    bench.passes("patch old.scp old.scp 0 0 --duration 5 --words words.bin --in-place --edition 1.4");
    assert_eq!(bench.get("old.scp"), bench.get("out.scp"));
    bench.passes("replay old.scp undo.txt --out old.scp --in-place");
    assert_eq!(bench.get("old.scp"), first);
}

#[test]
fn an_undo_file_names_its_edition() {
    let bench = bench();
    bench.put("short.bin", &[1, 2]);
    for edition in Edition::ALL {
        bench.passes(&format!("patch a.scp {edition}.scp 0 0 --duration 5 --words words.bin --undo {edition}.txt --edition {edition}"));
        let undo = String::from_utf8(bench.get(&format!("{edition}.txt"))).expect("UTF-8");
        let lines: Vec<&str> = undo.lines().collect();
        assert!(lines.len() == 3 && lines[1] == format!("edition {edition}") && lines[2].starts_with("rewrite 0 0 "), "{undo}");
        bench.passes(&format!("replay {edition}.scp {edition}.txt --out back.scp --force --edition {}", edition.other()));
        assert_eq!(bench.get("back.scp"), bench.get("a.scp"));
    }
    assert_eq!(bench.get("1.4.scp"), bench.get("1.6.scp"));
    bench.passes("patch old.scp short.scp 0 0 --duration 5 --words short.bin --undo short.txt --edition 1.4");
    let undo = String::from_utf8(bench.get("short.txt")).expect("UTF-8");
    let lines: Vec<&str> = undo.lines().collect();
    assert!(lines.len() == 4 && lines[1].starts_with("# the revolution is shorter now") && lines[2] == "edition 1.4", "{undo}");
}

#[test]
fn a_damaged_old_image_stays_damaged() {
    let bench = bench();
    let mut damaged = scp::example::image_a_1_4();
    damaged[12] += 1;
    bench.put("d.scp", &damaged);
    let due = "checksum 973 -> 878\nthe image was damaged before: stored 973, true sum 972: damaged\n\
               and it still is: stored 878, true sum 877: damaged\n";
    assert!(bench.passes("patch d.scp e.scp 0 0 --duration keep --words words.bin --edition 1.4").ends_with(due));
    bench.put("calls.txt", b"edition 1.4\nrewrite 0 0 8000000 0140 0000 0001 00F0\n");
    assert!(bench.passes("replay d.scp calls.txt --out f.scp").ends_with(due));
    assert_eq!(bench.get("e.scp"), bench.get("f.scp"));
}

#[test]
fn a_line_names_the_edition_of_the_calls_after_it() {
    let bench = bench();
    let ok = "cylinder 0 head 0 offset 680 revolutions 1";
    let calls = "track 0\nedition 1.4 # old\ntrack 0\n\n  edition\t1.4\nvalidate\nedition 1.6\ntrack 0\nedition 1.4\n";
    bench.put("calls.txt", calls.as_bytes());
    for (option, first) in [("", TOO_LOW), ("--edition 1.6", TOO_LOW), ("--edition 1.4", ok)] {
        let due = format!(
            "1: track 0: {first}\n2: edition 1.4\n3: track 0: {ok}\n5: edition 1.4\n6: validate: ok\n7: edition 1.6\n8: track 0: {TOO_LOW}\n\
             9: edition 1.4\n"
        );
        assert_eq!(bench.refuses(&format!("replay old.scp calls.txt {option}")), due);
    }
    bench.put("calls.txt", b"edition 1.4\n");
    assert_eq!(bench.passes("replay old.scp calls.txt"), "1: edition 1.4\n");
}

#[test]
fn a_refused_call_is_told_by_its_edition() {
    let bench = bench();
    // The flux of the second revolution starts two bytes early, at 710.
    let tracks = image_by(Edition::V1_4, 0, &[(0, &[(1, &[5, 6]), (2, &[7, 8])])]);
    bench.put("s.scp", &changed(tracks, 680 + 4 + 12 + 8, &[30]));
    bench
        .put("calls.txt", b"edition 1.4\ntrack 166\nspeed 0 2\nrewrite 0 0 1 0001 0002 0003\nrewrite 0 0 1 0001\nedition 1.6\ntrack 168\n");
    let (shared, low) = ("byte 710 is of its present flux and of the flux of track 0, revolution 1", "its header at 680 is below 688");
    let due = [
        "1: edition 1.4",
        "2: track 166: refused 13 Absent: track 166 is above 165",
        "3: speed 0 2: refused 14 Revolution: revolution 2 of track 0: a track has 2 revolutions, from 0 on",
        "4: rewrite 0 0 1 (6 bytes): refused 17 Words: 3 words, where the revolution has 2",
        &format!("5: rewrite 0 0 1 (2 bytes): refused 18 Shared: {shared}"),
        "6: edition 1.6",
        &format!("7: track 168: refused 10 Track: track 0: {low}{}", hint(Edition::V1_4)),
    ];
    assert_eq!(bench.refuses("replay s.scp calls.txt").lines().collect::<Vec<_>>(), due);
    let patch = "patch s.scp out.scp 0 0 --duration keep --words words.bin --edition 1.4";
    bench.fails(patch, 1, "words.bin: refused 17 Words: 4 words, where the revolution has 2\n");
    bench.put("words.bin", &[0, 1]);
    bench.fails(patch, 1, &format!("s.scp: refused 18 Shared: {shared}\n"));
}

#[test]
fn a_line_that_names_no_edition_stops_everything() {
    let bench = bench();
    for (line, message) in [
        ("edition", "edition takes 1.4 or 1.6"),
        ("edition 1.4 1.6", "edition takes 1.4 or 1.6"),
        ("edition 1.5", "\"1.5\" is neither 1.4 nor 1.6"),
        ("edition 14", "\"14\" is neither 1.4 nor 1.6"),
        ("edition \u{7}", "\"\\u{7}\" is neither 1.4 nor 1.6"),
        ("Edition 1.4", "unknown call \"Edition\""),
        ("1.4", "unknown call \"1.4\""),
    ] {
        bench.put("calls.txt", format!("validate\n{line}\nvalidate\n").as_bytes());
        bench.fails("replay a.scp calls.txt --out b.scp", 2, &format!("calls.txt: line 2: {message}"));
    }
    assert!(!bench.path("b.scp").exists());
}

#[test]
fn by_revision_1_4_a_string_protects_no_flux() {
    let bench = bench();
    let first = string_in_flux();
    assert_eq!(Edition::ALL.map(|edition| scp::validate(&first, edition)), [Ok(()), Ok(())]);
    bench.put("s.scp", &first);
    bench.put("new.bin", &[0x00, 0xA0, 0x00, 0x00, 0x00, 0x01]);
    let (patch, shared) = ("patch s.scp b.scp 0 0 --duration keep --words new.bin", "18 Shared: byte 704 is of its present flux and of");
    bench.fails(patch, 1, &format!("s.scp: refused {shared} the string maker\n"));
    assert!(!bench.path("b.scp").exists());
    bench.passes(&format!("{patch} --edition 1.4"));
    let patched = changed(first, 704, &bench.get("new.bin"));
    assert_eq!(bench.get("b.scp"), patched);
    assert_eq!(bench.passes("validate b.scp --edition 1.4"), "b.scp: ok\n");
    let broken = "8 String: maker: 2 + 40,960 + 1 bytes at 704 end at 41,667, past 710";
    assert_eq!(bench.refuses("validate b.scp"), format!("b.scp: refused {broken}\n"));
}

#[test]
fn a_rewrite_by_revision_1_4_can_break_a_reading_by_1_6() {
    let bench = bench();
    bench.put("s.scp", &string_in_flux());
    let rewrite = "rewrite 0 0 8000000 00A0 0000 0001";
    let mixed = format!("footer\nedition 1.4\n{rewrite}\nvalidate\nfooter\nedition 1.6\nfooter\nvalidate\n");
    bench.put("calls.txt", mixed.as_bytes());
    let broken = "refused 8 String: maker: 2 + 40,960 + 1 bytes at 704 end at 41,667, past 710";
    let due = [
        "1: footer: strings 704 0 0 0 0 0 created 1 modified 2 versions 0x11 0x12 0x13 0x16",
        "2: edition 1.4",
        "3: rewrite 0 0 8000000 (6 bytes): ok",
        "4: validate: ok",
        "5: footer: none",
        "6: edition 1.6",
        &format!("7: footer: {broken}"),
        &format!("8: validate: {broken}"),
    ];
    assert_eq!(bench.refuses("replay s.scp calls.txt").lines().collect::<Vec<_>>(), due);
    let out = bench.refuses("replay s.scp calls.txt --out b.scp --undo undo.txt");
    assert_eq!(out.lines().take(due.len()).collect::<Vec<_>>(), due);
    assert!(out.contains("\nwritten to b.scp\n") && out.contains("\nchecksum ") && !out.contains("damaged"), "{out}");
    assert_eq!(bench.get("b.scp"), changed(string_in_flux(), 704, &[0x00, 0xA0, 0x00, 0x00, 0x00, 0x01]));
    bench.passes("replay b.scp undo.txt --out back.scp");
    assert_eq!(bench.get("back.scp"), string_in_flux());
    bench.put("calls.txt", format!("{rewrite}\nfooter\n").as_bytes());
    let out = bench.refuses("replay s.scp calls.txt");
    let shared = "refused 18 Shared: byte 704 is of its present flux and of the string maker";
    assert!(out.starts_with(&format!("1: rewrite 0 0 8000000 (6 bytes): {shared}\n2: footer: strings 704 ")), "{out}");
}
