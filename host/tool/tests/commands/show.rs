//! `fluxproof show`.

use crate::bench::{damaged_a, image, with_footer, Bench};

/// Whether a line of the output starts with a name and then has a value.
fn has(out: &str, name: &str, value: &str) -> bool {
    out.lines().any(|line| line.trim_start().strip_prefix(name).is_some_and(|rest| rest.trim() == value))
}

/// The words of the first line that starts with the given ones.
fn row(out: &str, start: &[&str]) -> Vec<String> {
    let rows = out.lines().map(|line| line.split_whitespace().map(str::to_string).collect::<Vec<String>>());
    rows.into_iter().find(|row| row.len() >= start.len() && row.iter().zip(start).all(|(word, wanted)| word == wanted)).unwrap_or_default()
}

#[test]
fn image_a_is_shown() {
    let bench = Bench::new();
    let out = bench.passes("show a.scp");
    for (name, value) in [
        ("image", "a.scp"),
        ("size", "712 bytes"),
        ("version", "1.6 (0x16)"),
        ("disk type", "0x00 (Commodore 64)"),
        ("revolutions", "1 for each track"),
        ("tracks", "0 to 0, 1 present"),
        ("flags", "0x01"),
        ("index", "flux starts at the index"),
        ("TPI", "48 TPI drive"),
        ("RPM", "300 rpm drive"),
        ("type", "flux as read"),
        ("read/write", "read-only"),
        ("heads", "0 (both)"),
        ("checksum", "stored 980, true sum 980: sound"),
        ("footer", "none"),
    ] {
        assert!(has(&out, name, value), "{name} {value}: {out}");
    }
    assert_eq!(row(&out, &["0", "0", "0", "0x000002B0"]), ["0", "0", "0", "0x000002B0", "1", "300.000", "300.000"]);
    assert_eq!(row(&out, &["0", "0", "8000000"]), ["0", "0", "8000000", "200.000000", "4", "3", "0", "300.000"]);
}

#[test]
fn damage_is_said() {
    let bench = Bench::new();
    bench.put("d.scp", &damaged_a());
    let run = bench.run("show d.scp");
    let (first, rest) = run.out.split_once("\n\n").expect("the refusal, then the image");
    assert_eq!(first, "d.scp: refused 12 Sum: stored 981, the bytes add up to 980\nThe image opens, so that all of it can be read:");
    assert!(has(rest, "checksum", "stored 981, true sum 980: damaged"), "{rest}");
    assert_eq!((run.status, run.err.as_str()), (1, ""));
    assert_eq!(
        rest.replace("981, true sum 980: damaged", "980, true sum 980: sound").replace("d.scp", "a.scp"),
        bench.passes("show a.scp")
    );
}

#[test]
fn a_read_write_image_stores_0() {
    let bench = Bench::new();
    let mut read_write = image(0x1E, &[(11, &[(0, &[0])])]);
    bench.put("w.scp", &read_write);
    let out = bench.passes("show w.scp");
    for value in ["96 TPI drive", "360 rpm drive", "flux normalized", "read/write", "flux starts anywhere on the track"] {
        assert!(out.contains(value), "{value}: {out}");
    }
    assert!(out.contains("stored 0, on a read/write image 0 is due: sound"), "{out}");
    assert_eq!(row(&out, &["11", "5", "1"])[5..], ["-", "-"]);
    assert_eq!(row(&out, &["11", "0", "0"])[3..], ["0.000000", "1", "0", "65536", "-"]);
    read_write[0x0C] = 1;
    bench.put("w.scp", &read_write);
    assert!(bench.run("show w.scp").out.contains("stored 1, on a read/write image 0 is due: damaged"));
}

#[test]
fn the_footer_is_printed_safely() {
    let bench = Bench::new();
    let strings: [&[u8]; 6] = [b"Maker", b"Model\n", b"", b"\x1b[31m\"\\", "é".as_bytes(), b"fine"];
    let first = image(0, &[(0, &[(8_000_000, &[160])])]);
    bench.put("f.scp", &with_footer(first.clone(), strings, 1_512_432_000, -1));
    let out = bench.passes("show f.scp");
    assert!(!out.chars().any(|letter| letter.is_control() && letter != '\n'), "{out}");
    for text in [r#""Maker" (at 0x"#, r#""Model\n" (at"#, r#""\u{1b}[31m\"\\" (at"#, r#""é" (at"#, r#""fine" (at"#] {
        assert!(out.contains(text), "{text}: {out}");
    }
    assert!(has(&out, "serial", "-"), "{out}");
    assert!(has(&out, "created", "2017-12-05 00:00:00 UTC (1512432000 s)"), "{out}");
    assert!(has(&out, "modified", "1969-12-31 23:59:59 UTC (-1 s)"), "{out}");
    assert!(has(&out, "software version", "1.1 (0x11)") && has(&out, "format version", "1.6 (0x16)"), "{out}");
    bench.put("f.scp", &with_footer(first, strings, i64::MIN, i64::MAX));
    let out = bench.passes("show f.scp");
    assert!(out.contains("-292277022657-01-27 08:29:52 UTC") && out.contains("+292277026596-12-04 15:30:07 UTC"), "{out}");
}

#[test]
fn what_can_be_read_of_an_image_that_does_not_open_is_shown() {
    let bench = Bench::new();
    let revolutions: &[(u32, &[u16])] = &[(8_000_000, &[160, 0, 1]), (7_000_000, &[5, 0])];
    let tracks = image(0x01, &[(0, revolutions), (1, revolutions), (2, revolutions), (3, revolutions)]);
    let mut wrong = with_footer(tracks, [b"Maker", b"", b"", b"", b"", b""], 1_512_432_000, -1);
    let size = 4 + 12 * 2 + 10;
    wrong[9] = 8; // the width
    wrong[688 + size + 1] = b'X'; // track 1: no "TRK"
    wrong[688 + 2 * size + 3] = 9; // track 2: another number
    wrong[688 + 3 * size + 4 + 12 + 6] = 1; // track 3: 65,536 words more in revolution 1
    bench.put("w.scp", &wrong);
    let run = bench.run("show w.scp");
    let (first, rest) = run.out.split_once("\n\n").expect("the refusal, then what can be read");
    let said =
        "w.scp: refused 3 Width: byte 0x09 is 8, not 0 or 16\nUNCHECKED: the image does not open; what follows is what its bytes say:";
    assert_eq!((run.status, run.err.as_str(), first), (1, "", said));
    for (name, value) in [
        ("image", "w.scp"),
        ("size", "896 bytes"),
        ("revolutions", "2 for each track"),
        ("tracks", "0 to 3, 4 present"),
        ("word width", "8 (neither 0 nor 16)"),
        ("maker", "\"Maker\" (at 0x00000348)"),
        ("created", "2017-12-05 00:00:00 UTC (1512432000 s)"),
        ("0        0    0 0x000002B0", "-"),
        ("1        0    1 0x000002D6", "10 Track: track 1: the three bytes at 726 are 54 58 4B, not TRK"),
        ("2        1    0 0x000002FC", "10 Track: track 2: its header at 764 is that of track 9"),
        ("3        1    1 0x00000322", "11 Flux: track 3, revolution 1: 2 x 65,538 bytes at 836 end at 131,912, past 848"),
    ] {
        assert!(has(rest, name, value), "{name} {value}: {rest}");
    }
    for due in [["0", "0", "8000000", "200.000000", "3", "2", "0"], ["0", "1", "7000000", "175.000000", "2", "1", "65536"]] {
        assert_eq!(row(rest, &due[..3]), due, "{rest}");
    }
    assert_eq!(row(rest, &["1", "0", "8000000"]), [""; 0], "{rest}");
    assert_eq!(row(rest, &["2", "0", "8000000"])[3..], ["200.000000", "3", "2", "0"], "{rest}");
    assert_eq!(row(rest, &["3", "1", "7000000"])[3..], ["175.000000", "65538", "-", "-"], "{rest}");
}

#[test]
fn files_that_are_hardly_images_are_shown() {
    let bench = Bench::new();
    let mut footer_cut = scp::example::image_a();
    footer_cut[8] = 0x21;
    for (bytes, due) in [(&[][..], "header              not there"), (&[0; 15], "header              not there"), (&[0; 16], "none")] {
        bench.put("s.scp", bytes);
        let run = bench.run("show s.scp");
        assert_eq!((run.status, run.err.as_str()), (1, ""));
        assert!(run.out.contains(due) && run.out.contains(&format!("{} bytes", bytes.len())), "{}", run.out);
    }
    bench.put("s.scp", &footer_cut);
    let due = "7 Footer: FLAGS 0x21 announces one, but 712 bytes are fewer than 736";
    assert!(has(&bench.refuses("show s.scp"), "footer", due));
}

#[test]
fn faults_of_a_footer_stand_beside_its_fields() {
    let bench = Bench::new();
    let sound = with_footer(scp::example::image_a(), [b"Maker", b"", b"Serial", b"", b"", b""], 1, 2);
    let strings = sound.len() - 48;
    let changed = |offset: usize, bytes: &[u8]| {
        let mut image = sound.clone();
        image[offset..offset + bytes.len()].copy_from_slice(bytes);
        bench.put("s.scp", &image);
        bench.refuses("show s.scp")
    };
    for (offset, bytes, name, value) in [
        (strings, &[10, 0][..], "maker", "8 String: maker: its offset 10 is below 688"),
        (strings + 4, &[0xFF, 0xFF], "model", "8 String: model: its length at 65,535 ends past 729"),
        (712 + 3, &[0], "maker", "8 String: maker: the byte at 715, within its 5 bytes, is 0"),
        (
            712 + 3,
            &[0x97],
            "maker",
            "\"M\\x97ker\" (at 0x000002C8), but 19 Text: maker (string 0 at 712): not UTF-8 at 715, after 1 of its 5 bytes: \
             97 cannot start a character, in \"M\\x97ker\"",
        ),
        (strings + 0x2B, &[0x10], "footer", "present, but 7 Footer: the format version 0x10 is below 0x16"),
        (strings + 0x2C, b"fpcs", "footer", "7 Footer: the last four bytes are 66 70 63 73, not FPCS"),
    ] {
        let shown = changed(offset, bytes);
        assert!(has(&shown, name, value), "{name} {value}: {shown}");
        assert_eq!(has(&shown, "serial", "\"Serial\" (at 0x000002D0)"), bytes != b"fpcs", "{shown}");
    }
}
