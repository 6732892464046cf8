//! Strings of a footer that are not UTF-8, with each command, and how those that are get shown.

use scp::{Edition, STRING_NAMES};

use crate::bench::{changed, image, image_by, store_sum, with_footer, Bench};

/// Image A with a footer of strings; the first one that is there starts at 712, its text at 714.
fn footed(strings: [&[u8]; 6]) -> Vec<u8> {
    with_footer(scp::example::image_a(), strings, 1, 2)
}

/// The same with one string.
fn with_string(number: usize, text: &[u8]) -> Vec<u8> {
    let mut strings: [&[u8]; 6] = [b""; 6];
    strings[number] = text;
    footed(strings)
}

/// What is said of the text of the first string that is there: its place, what is wrong with it and what is shown of it.
fn said(number: usize, place: usize, size: usize, wrong: &str, shown: &str) -> String {
    let (name, at) = (STRING_NAMES[number], 714 + place);
    let (at, place) = (grouped(at), grouped(place));
    let size = if size == 1 { "1 byte".to_string() } else { format!("{} bytes", grouped(size)) };
    format!("19 Text: {name} (string {number} at 712): not UTF-8 at {at}, after {place} of its {size}: {wrong}, in {shown}")
}

/// A number below a million as the tool writes it.
fn grouped(number: usize) -> String {
    match number {
        0..1000 => number.to_string(),
        _ => format!("{},{:03}", number / 1000, number % 1000),
    }
}

/// A line of each command that reads an image, but for the listing; `replay` has its own words.
const LINES: [&str; 5] = [
    "validate b.scp",
    "show b.scp",
    "read b.scp 0 0",
    "plot b.scp 0 0 out.svg",
    "patch b.scp out.scp 0 0 --duration keep --words words.bin",
];

/// Has an image refused with 19 by every command: the string's number, and what is said.
fn refused(bench: &Bench, bytes: &[u8], number: usize, said: &str) {
    bench.put("b.scp", bytes);
    let due = format!("b.scp: refused {said}\n");
    for line in LINES {
        let run = bench.run(line);
        let told = if run.err.is_empty() { run.out } else { run.err.trim_start_matches("fluxproof: ").to_string() };
        let first: String = told.split_inclusive('\n').take(1).collect();
        assert_eq!((run.status, &first), (1, &due), "{line}");
        assert!(!told.chars().any(|letter| letter.is_control() && letter != '\n'), "{told:?}");
    }
    assert_eq!(bench.refuses("list b.scp"), format!("refused 19 at {number}\n"));
    assert_eq!(bench.refuses("validate --all b.scp"), due);
    bench.put("calls.txt", b"validate\nheader\nfooter\ntrack 0\nrewrite 0 0 1 0001\n");
    let answers = bench.refuses("replay b.scp calls.txt");
    let answers: Vec<&str> = answers.lines().map(|line| line.splitn(3, ": ").last().unwrap_or_default()).collect();
    assert_eq!(answers, [&*format!("refused {said}"); 5]);
    assert!(!bench.path("out.svg").exists() && !bench.path("out.scp").exists());
    assert_eq!(bench.get("b.scp"), bytes);
}

/// Texts that are wrong, with their good start, what is wrong and what is shown.
const WRONG: [(&[u8], usize, &str, &str); 25] = [
    (b"\x97", 0, "97 cannot start a character", r#""\x97""#),
    (b"caf\x97 noir", 3, "97 cannot start a character", r#""caf\x97 noir""#),
    (b"end\x80", 3, "80 cannot start a character", r#""end\x80""#),
    (b"\xBFstart", 0, "BF cannot start a character", r#""\xBFstart""#),
    (b"\xFF\xFEU\x01", 0, "FF cannot start a character", r#""\xFF\xFEU\u{1}""#),
    (b"na\xF5ve", 2, "F5 cannot start a character", r#""na\xF5ve""#),
    (b"\xC0 la carte", 0, "C0 cannot start a character", r#""\xC0 la carte""#),
    (b"\xF8\x88\x80\x80\x80", 0, "F8 cannot start a character", r#""\xF8\x88\x80\x80\x80""#),
    (b"caf\xE9", 3, "E9 starts a character of 3 bytes, which the end of the string cuts off", r#""caf\xE9""#),
    (b"caf\xC3", 3, "C3 starts a character of 2 bytes, which the end of the string cuts off", r#""caf\xC3""#),
    (b"5 \xE2\x82", 2, "E2 82 starts a character of 3 bytes, which the end of the string cuts off", r#""5 \xE2\x82""#),
    (b"\xF0\x9F\x92", 0, "F0 9F 92 starts a character of 4 bytes, which the end of the string cuts off", r#""\xF0\x9F\x92""#),
    (b"caf\xE9 noir", 3, "E9 starts a character of 3 bytes, which 20 does not continue", r#""caf\xE9 noir""#),
    (b"\xE2\x82\n5", 0, "E2 82 starts a character of 3 bytes, which 0A does not continue", r#""\xE2\x82\n5""#),
    (b"a\xC2\xC2\xB5s", 1, "C2 starts a character of 2 bytes, which C2 does not continue", "\"a\\xC2\u{B5}s\""),
    (b"\xF1\x80\x80\xFF", 0, "F1 80 80 starts a character of 4 bytes, which FF does not continue", r#""\xF1\x80\x80\xFF""#),
    (b"nul\xC0\x80", 3, "C0 80 is an overlong form of U+0000", r#""nul\xC0\x80""#),
    (b"..\xE0\x80\xAF..", 2, "E0 80 AF is an overlong form of U+002F", r#""..\xE0\x80\xAF..""#),
    (b"\xF0\x82\x82\xAC5", 0, "F0 82 82 AC is an overlong form of U+20AC", r#""\xF0\x82\x82\xAC5""#),
    (b"\xE0\x9F", 0, "E0 9F starts an overlong form", r#""\xE0\x9F""#),
    (b"\xED\xA0\xBD\xED\xB2\xBE", 0, "ED A0 BD is the surrogate U+D83D, no character", r#""\xED\xA0\xBD\xED\xB2\xBE""#),
    (b"a\xED\xB2!", 1, "ED B2 starts a surrogate, no character", r#""a\xED\xB2!""#),
    (b"\xF4\x90\x80\x80", 0, "F4 90 80 80 is U+110000, above U+10FFFF", r#""\xF4\x90\x80\x80""#),
    (b"a\xF6\x80\x80\x80b", 1, "F6 80 80 80 is U+180000, above U+10FFFF", r#""a\xF6\x80\x80\x80b""#),
    (b"a\xF4\xBF", 1, "F4 BF starts a number above U+10FFFF", r#""a\xF4\xBF""#),
];

#[test]
fn every_way_to_be_wrong_is_told_in_every_string() {
    let bench = Bench::with_words();
    for (index, (text, place, wrong, shown)) in WRONG.into_iter().enumerate() {
        let number = index % 6;
        refused(&bench, &with_string(number, text), number, &said(number, place, text.len(), wrong, shown));
    }
    for number in 0..6 {
        let mut strings: [&[u8]; 6] = ["\u{B5}".as_bytes(); 6];
        strings[number] = b"bad \x97";
        let at = 712 + 5 * number;
        let due = format!(
            "19 Text: {} (string {number} at {at}): not UTF-8 at {}, after 4 of its 5 bytes: 97 cannot start a character, in \"bad \\x97\"",
            STRING_NAMES[number],
            at + 6
        );
        refused(&bench, &footed(strings), number, &due);
    }
}

#[test]
fn a_long_string_is_cut_around_the_place() {
    let bench = Bench::with_words();
    let most = 65_535;
    for (place, before) in [(0, ""), (1, "x"), (16, "xxxxxxxxxxxxxxxx"), (17, "..xxxxxxxxxxxxxxxx"), (40_000, "..xxxxxxxxxxxxxxxx")] {
        let mut text = vec![b'x'; most];
        text[place] = 0x97;
        let start = if let Some(rest) = before.strip_prefix("..") { format!("..\"{rest}") } else { format!("\"{before}") };
        let shown = format!("{start}\\x97{}\"..", "x".repeat(16));
        refused(&bench, &with_string(5, &text), 5, &said(5, place, most, "97 cannot start a character", &shown));
    }
    let mut text = vec![b'x'; most];
    text[most - 1] = 0xC3;
    let wrong = "C3 starts a character of 2 bytes, which the end of the string cuts off";
    refused(&bench, &with_string(2, &text), 2, &said(2, most - 1, most, wrong, &format!("..\"{}\\xC3\"", "x".repeat(16))));
    // Nothing but wrong bytes, and characters of several bytes on both sides.
    let shown = format!("\"{}\"..", "\\x80".repeat(20));
    refused(&bench, &with_string(0, &vec![0x80; most]), 0, &said(0, 0, most, "80 cannot start a character", &shown));
    let disks = "\u{1F4BE}".repeat(10);
    let text = [disks.as_bytes(), b"\xFF", disks.as_bytes()].concat();
    let shown = format!("..\"{0}\\xFF{0}\"..", "\u{1F4BE}".repeat(4));
    refused(&bench, &with_string(0, &text), 0, &said(0, 40, 81, "FF cannot start a character", &shown));
    let line = bench.run("validate b.scp").out;
    assert!(line.len() < 300, "{line}");
}

#[test]
fn what_is_shown_of_a_wrong_text_is_escaped() {
    let bench = Bench::with_words();
    for (text, place, shown) in [
        (&b"\x1B[31mred\x97\x1B[0m"[..], 8, r#""\u{1b}[31mred\x97\u{1b}[0m""#),
        (b"a\r\nb\x97\tc\x07", 4, r#""a\r\nb\x97\tc\u{7}""#),
        (b"\"\\\x97'", 2, r#""\"\\\x97'""#),
        (b"\xE2\x80\xAEtxt\x97\xE2\x80\xAC", 6, r#""\u{202e}txt\x97\u{202c}""#),
    ] {
        refused(&bench, &with_string(1, text), 1, &said(1, place, text.len(), "97 cannot start a character", shown));
    }
}

#[test]
fn all_that_is_utf_8_passes() {
    let bench = Bench::new();
    let edges = "\u{1}\u{7F}\u{80}\u{7FF}\u{800}\u{D7FF}\u{E000}\u{FFFD}\u{FFFE}\u{FFFF}\u{10000}\u{10FFFF}\u{FEFF}";
    let long = "\u{20AC}".repeat(21_845);
    for text in ["a", "caf\u{E9}", "e\u{301}", "\u{65E5}\u{672C}\u{8A9E}", "\u{1F4BE}", edges, &long] {
        for number in 0..6 {
            bench.put("b.scp", &with_string(number, text.as_bytes()));
            assert_eq!(bench.passes("validate --all b.scp"), "b.scp: ok\n");
            assert_eq!(bench.passes("read b.scp 0 0"), "160\n65537\n240\n");
        }
    }
    // A string without text, which only an offset makes present.
    let empty = changed(with_string(0, b"a"), 712, &[0, 0, 0, 0]);
    bench.put("b.scp", &empty);
    assert!(bench.passes("show b.scp").contains("\n  maker             \"\" (at 0x000002C8)\n"));
}

#[test]
fn strings_are_shown_as_text() {
    let bench = Bench::new();
    for (texts, shown) in [
        (
            ["Caf\u{E9} 4 \u{B5}s", "Jean's \"disk\" \\1", "\u{65E5}\u{672C}", "\u{1F4BE}e\u{301}", "\u{5E9}\u{5DC}", "fine"],
            ["Caf\u{E9} 4 \u{B5}s", "Jean's \\\"disk\\\" \\\\1", "\u{65E5}\u{672C}", "\u{1F4BE}e\u{301}", "\u{5E9}\u{5DC}", "fine"],
        ),
        (
            ["\x1B[31mred\x1B[0m", "\u{9B}2J", "\u{202E}txt.scp\u{202C}", "a\r\nb\t\x07\x7F", "\u{2028}\u{FEFF}\u{200B}", "\u{61C}\u{A0}"],
            [
                "\\u{1b}[31mred\\u{1b}[0m",
                "\\u{9b}2J",
                "\\u{202e}txt.scp\\u{202c}",
                "a\\r\\nb\\t\\u{7}\\u{7f}",
                "\\u{2028}\\u{feff}\\u{200b}",
                "\\u{61c}\\u{a0}",
            ],
        ),
    ] {
        bench.put("b.scp", &footed(texts.map(str::as_bytes)));
        let out = bench.passes("show b.scp");
        for (name, shown) in STRING_NAMES.into_iter().zip(shown) {
            assert!(out.contains(&format!("\n  {name:<18}\"{shown}\" (at 0x")), "{name} {shown}: {out}");
        }
        // An image that does not open has them beside its faults, alike.
        bench.put("b.scp", &changed(bench.get("b.scp"), 9, &[8]));
        let strings =
            |out: &str| out.lines().skip_while(|line| !line.starts_with("footer")).take(7).map(str::to_string).collect::<Vec<_>>();
        assert_eq!(strings(&bench.refuses("show b.scp")), strings(&out));
    }
}

#[test]
fn a_wrong_text_is_shown_whole_beside_its_fault() {
    let bench = Bench::new();
    let long = [b"x".repeat(300), b"\x97".to_vec(), "\u{B5}".repeat(300).into_bytes()].concat();
    bench.put("b.scp", &footed([b"J\x97ne", "Caf\u{E9}".as_bytes(), b"", b"", &long, b"\xC3\x1B"]));
    let run = bench.run("show b.scp");
    let (first, rest) = run.out.split_once("\n\n").expect("the refusal, then what can be read");
    let maker = said(0, 1, 4, "97 cannot start a character", r#""J\x97ne""#);
    assert_eq!(first, format!("b.scp: refused {maker}\nUNCHECKED: the image does not open; what follows is what its bytes say:"));
    assert_eq!((run.status, run.err.as_str()), (1, ""));
    assert!(
        rest.contains(&format!("\nfooter              present\n  maker             \"J\\x97ne\" (at 0x000002C8), but {maker}\n")),
        "{rest}"
    );
    assert!(rest.contains("\n  model             \"Caf\u{E9}\" (at 0x000002CF)\n  serial            -\n  creator           -\n"), "{rest}");
    let whole = format!("\"{}\\x97{}\" (at 0x000002D7), but 19 Text: application ", "x".repeat(300), "\u{B5}".repeat(300));
    assert!(rest.contains(&format!("\n  application       {whole}")), "{rest}");
    assert!(rest.contains("\n  comments          \"\\xC3\\u{1b}\" (at 0x"), "{rest}");
    assert!(rest.contains("\n  created           1970-01-01 00:00:01 UTC (1 s)\n") && rest.contains("0x000002B0  -\n"), "{rest}");
}

#[test]
fn faults_of_strings_are_listed_in_the_order_of_the_strings() {
    let bench = Bench::new();
    // Seven bytes for each string, from 712 on.
    let strings: [&[u8]; 6] = [b"aa\x97a", b"bb\x97b", b"cccc", b"dd\xC3\xA9", b"ee\xE9e", b"ffff"];
    let text = |number: usize, wrong: &str, shown: &str| {
        let (name, at) = (STRING_NAMES[number], 712 + 7 * number);
        format!("19 Text: {name} (string {number} at {at}): not UTF-8 at {}, after 2 of its 4 bytes: {wrong}, in {shown}", at + 4)
    };
    let maker = text(0, "97 cannot start a character", r#""aa\x97a""#);
    let model = text(1, "97 cannot start a character", r#""bb\x97b""#);
    let application = text(4, "E9 starts a character of 3 bytes, which 65 does not continue", r#""ee\xE9e""#);
    let zero = |name: &str, at: usize| format!("8 String: {name}: the byte at {at}, within its 4 bytes, is 0");
    let (zero_maker, zero_serial, zero_comments) = (zero("maker", 714), zero("serial", 730), zero("comments", 751));
    let flux = "11 Flux: track 0, revolution 0: 2 x 65,540 bytes at 704 end at 131,784, past 754";
    for (changes, listed, due) in [
        (&[][..], "19 at 0", vec![&maker, &model, &application]),
        // A string whose form is wrong has no text.
        (&[(714, 0)], "8 at 0", vec![&zero_maker, &model, &application]),
        // 8 of one string before 19 of the next, and the other way round.
        (&[(716, b'a'), (723, b'b'), (730, 0)], "8 at 2", vec![&zero_serial, &application]),
        (&[(716, b'a'), (723, b'b'), (751, 0)], "19 at 4", vec![&application, &zero_comments]),
        (&[(730, 0), (751, 0)], "19 at 0", vec![&maker, &model, &zero_serial, &application, &zero_comments]),
        (&[(698, 1)], "19 at 0", vec![&maker, &model, &application, &flux.to_string()]),
        (
            &[(754 + 0x2B, 0x15)],
            "7 at 0",
            vec![&"7 Footer: the format version 0x15 is below 0x16".to_string(), &maker, &model, &application],
        ),
        (&[(754 + 0x2C, b'f')], "7 at 0", vec![&"7 Footer: the last four bytes are 66 50 43 53, not FPCS".to_string()]),
        (&[(10, 3)], "6 at 0", vec![&"6 Heads: byte 0x0A is 3, not 0, 1 or 2".to_string(), &maker, &model, &application]),
    ] {
        let mut bytes = footed(strings);
        changes.iter().for_each(|&(offset, byte)| bytes[offset] = byte);
        store_sum(&mut bytes);
        bench.put("b.scp", &bytes);
        let lines =
            due.iter().enumerate().map(|(index, fault)| format!("b.scp: {} {fault}\n", if index == 0 { "refused" } else { "also" }));
        assert_eq!(bench.refuses("validate --all b.scp"), lines.collect::<String>());
        assert_eq!(bench.refuses("list b.scp"), format!("refused {listed}\n"));
    }
    // Two names of one string.
    let mut shared = with_string(1, b"\x97");
    shared.copy_within(716 + 4..716 + 8, 716 + 20);
    store_sum(&mut shared);
    bench.put("b.scp", &shared);
    let wrong = "at 712): not UTF-8 at 714, after 0 of its 1 byte: 97 cannot start a character, in \"\\x97\"\n";
    let due = format!("b.scp: refused 19 Text: model (string 1 {wrong}b.scp: also 19 Text: comments (string 5 {wrong}");
    assert_eq!(bench.refuses("validate --all b.scp"), due);
}

#[test]
fn revision_1_4_does_not_look_and_is_not_hinted_at() {
    let bench = Bench::with_words();
    let bytes = with_string(3, b"J\x97ne");
    let due = said(3, 1, 4, "97 cannot start a character", r#""J\x97ne""#);
    refused(&bench, &bytes, 3, &due);
    let run = bench.run("validate b.scp");
    assert!(!run.out.contains("revision") && !run.out.contains("--edition"), "{run:?}");
    let passes = |line: &str| bench.passes(&format!("{line} --edition 1.4"));
    assert_eq!(passes("validate --all b.scp"), "b.scp: ok\n");
    assert_eq!(passes("list b.scp").lines().next(), Some(&*format!("ok {} tracks 1 turns 1 sum {}", bytes.len(), sum(&bytes))));
    assert_eq!(passes("read b.scp 0 0"), "160\n65537\n240\n");
    assert_eq!(passes("plot b.scp 0 0 out.svg"), "3 intervals drawn in out.svg\n");
    let shown = passes("show b.scp");
    assert!(shown.contains("\nfooter              none\n") && !shown.contains("19 Text") && !shown.contains("creator"), "{shown}");
    passes("patch b.scp out.scp 0 0 --duration 5 --words words.bin --undo undo.txt");
    bench.passes("replay out.scp undo.txt --out back.scp");
    assert_eq!(bench.get("back.scp"), bytes);
    // By 1.4 its end track is too high, by 1.6 its text is wrong: neither edition is named.
    let high = with_footer(image(0, &[(0, &[(7, &[5])]), (167, &[(7, &[6])])]), [b"\x97", b"", b"", b"", b"", b""], 1, 2);
    bench.put("b.scp", &high);
    assert_eq!(bench.refuses("validate b.scp --edition 1.4"), "b.scp: refused 5 Span: the end track 167 is above 165\n");
    let wrong = "19 Text: maker (string 0 at 724): not UTF-8 at 726, after 0 of its 1 byte: 97 cannot start a character, in \"\\x97\"";
    assert_eq!(bench.refuses("validate b.scp"), format!("b.scp: refused {wrong}\n"));
    // Of its tracks alone the other edition can be named.
    let hint = "(the track is valid as revision 1.6: try --edition 1.6)";
    bench.fails("read b.scp 0 0 --direct --edition 1.4", 1, &format!("b.scp: refused 5 Span: the end track 167 is above 165 {hint}\n"));
    assert_eq!(bench.passes("read b.scp 0 0 --direct --edition 1.6"), "5\n");
    // An old image whose flags announce a footer, with anything at its end.
    let old = image_by(Edition::V1_4, 0x20, &[(0, &[(7, &[5])])]);
    bench.put("b.scp", &with_footer(old, [b"\x97\xFF", b"", b"", b"", b"", b""], 1, 2));
    assert_eq!(passes("read b.scp 0 0"), "5\n");
    assert!(bench.refuses("validate b.scp").starts_with("b.scp: refused 19 Text: maker (string 0 at 698): "));
}

/// The sum that an image stores.
fn sum(image: &[u8]) -> u32 {
    u32::from_le_bytes([image[12], image[13], image[14], image[15]])
}

#[test]
fn a_direct_reading_looks_at_no_text() {
    let bench = Bench::new();
    let sound = with_string(5, b"good");
    for (index, (text, _, wrong, _)) in WRONG.into_iter().enumerate() {
        bench.put("b.scp", &with_string(index % 6, text));
        bench.fails("read b.scp 0 0", 1, wrong);
        assert_eq!(bench.passes("read b.scp 0 0 --direct"), "160\n65537\n240\n");
        assert_eq!(bench.passes("plot b.scp 0 0 b.svg --direct --force"), "3 intervals drawn in b.svg\n");
    }
    bench.put("b.scp", &sound);
    let drawn = bench.get("b.svg");
    bench.passes("plot b.scp 0 0 b.svg --force");
    assert_eq!(bench.get("b.svg"), drawn);
}

#[test]
fn a_rewrite_of_such_an_image_is_refused_and_writes_nothing() {
    let bench = Bench::with_words();
    let bytes = with_string(4, b"\xED\xA0\x80");
    let due = said(4, 0, 3, "ED A0 80 is the surrogate U+D800, no character", r#""\xED\xA0\x80""#);
    bench.put("b.scp", &bytes);
    bench.put("old.scp", b"precious");
    bench.put("calls.txt", b"rewrite 0 0 8000000 0140 0000 0001 00F0\n");
    let names = bench.names();
    let patch = "0 0 --duration keep --words words.bin";
    for line in [
        format!("patch b.scp new.scp {patch}"),
        format!("patch b.scp new.scp {patch} --undo undo.txt"),
        format!("patch b.scp old.scp {patch} --force"),
        format!("patch b.scp b.scp {patch} --in-place --undo undo.txt"),
    ] {
        bench.fails(&line, 1, &format!("b.scp: refused {due}\n"));
    }
    for (line, files) in [
        ("--out new.scp", "new.scp"),
        ("--out new.scp --undo undo.txt", "new.scp and undo.txt"),
        ("--undo undo.txt", "undo.txt"),
        ("--out old.scp --force", "old.scp"),
        ("--out b.scp --in-place --undo undo.txt", "b.scp and undo.txt"),
    ] {
        let run = bench.run(&format!("replay b.scp calls.txt {line}"));
        assert_eq!((run.status, run.out), (1, format!("1: rewrite 0 0 8000000 (8 bytes): refused {due}\n")));
        assert_eq!(run.err, format!("fluxproof: {files}: not written, since a rewrite is refused\n"));
    }
    assert_eq!((bench.get("b.scp"), bench.get("old.scp"), bench.names()), (bytes, b"precious".to_vec(), names));
}

#[test]
fn a_rewrite_by_revision_1_4_can_make_a_text_wrong() {
    let bench = Bench::new();
    // The maker, "hi", stands in the flux at 704; the footer starts at 710.
    let tracks = image(0, &[(0, &[(8_000_000, &[0x0200, 0x6869, 0x00F0])])]);
    let first = changed(with_footer(tracks, [b""; 6], 1, 2), 710, &704_u32.to_le_bytes());
    bench.put("b.scp", &first);
    let calls = "validate\nedition 1.4\nrewrite 0 0 8000000 0200 6897 00F0\nvalidate\nedition 1.6\nvalidate\nspeed 0 0\n";
    bench.put("calls.txt", calls.as_bytes());
    let wrong =
        "refused 19 Text: maker (string 0 at 704): not UTF-8 at 707, after 1 of its 2 bytes: 97 cannot start a character, in \"h\\x97\"";
    let due = [
        "1: validate: ok",
        "2: edition 1.4",
        "3: rewrite 0 0 8000000 (6 bytes): ok",
        "4: validate: ok",
        "5: edition 1.6",
        &format!("6: validate: {wrong}"),
        &format!("7: speed 0 0: {wrong}"),
    ];
    assert_eq!(bench.refuses("replay b.scp calls.txt").lines().collect::<Vec<_>>(), due);
    let out = bench.refuses("replay b.scp calls.txt --out c.scp --undo undo.txt");
    assert!(out.contains("\nwritten to c.scp\n"), "{out}");
    assert_eq!(bench.refuses("validate c.scp"), format!("c.scp: {wrong}\n"));
    bench.passes("replay c.scp undo.txt --out back.scp");
    assert_eq!(bench.get("back.scp"), first);
}

#[test]
fn the_help_tells_of_text() {
    let bench = Bench::new();
    bench.put("e.scp", &with_string(3, b"J\x97ne"));
    let said = bench.refuses("validate e.scp");
    assert!(bench.passes("help validate").contains(&format!("  $ fluxproof validate e.scp\n  {said}")), "{said}");
    for line in ["--help", "help validate"] {
        assert!(bench.passes(line).contains("not after 7 Footer, 8 String and 19 Text,"), "{line}");
    }
    for line in ["--help", "help validate", "help show"] {
        assert!(bench.passes(line).contains("UTF-8"), "{line}");
    }
    assert!(bench.passes("help show").contains(r#""J\x97ne""#) && bench.refuses("show e.scp").contains(r#""J\x97ne" (at "#));
    let help = bench.passes("help list");
    for (number, name) in STRING_NAMES.into_iter().enumerate() {
        assert!(help.contains(&format!("{number} {name}")), "{help}");
    }
}
