//! `fluxproof patch --undo`: a patch, and the calls that take it back.

use scp::Edition;

use crate::bench::{image, patched_a, store_sum, Bench, SHORTER};

/// The end of a patch of image A.
const TAIL: &str = "0 0 --duration 5 --words words.bin";

#[test]
fn the_undo_file_is_a_call_of_replay() {
    let bench = Bench::with_words();
    bench.passes(&format!("patch a.scp b.scp {TAIL} --undo undo.txt"));
    let text = "# takes back \"fluxproof patch\": track 0 revolution 0 of a.scp, rewritten in b.scp, duration 8000000 -> 5, words 4 -> 4\n\
                edition 1.6\n\
                rewrite 0 0 8000000 00A0 0000 0001 00F0\n";
    assert_eq!(String::from_utf8(bench.get("undo.txt")).expect("UTF-8"), text);
    assert_eq!(bench.names(), ["a.scp", "b.scp", "undo.txt", "words.bin"]);
}

#[test]
fn a_revolution_without_words_has_a_dash() {
    let bench = Bench::new();
    let first = image(0, &[(0, &[(7, &[][..])])]);
    bench.put("e.scp", &first);
    bench.put("empty.bin", b"");
    let out = bench.passes("patch e.scp f.scp 0 0 --duration 8 --words empty.bin --empty --undo undo.txt");
    assert!(!out.contains("shorter") && bench.get("undo.txt").ends_with(b"\nrewrite 0 0 7 -\n"), "{out}");
    bench.passes("replay f.scp undo.txt --out f.scp --in-place");
    assert_eq!(bench.get("f.scp"), first);
}

#[test]
fn patches_are_taken_back_byte_for_byte() {
    let words: Vec<u16> = (0..3000).map(|number| if number % 40 == 7 { 0 } else { number * 17 + 1 }).collect();
    for flags in [0x00, 0x10] {
        let mut sound = image(flags, &[(2, &[(8_000_000, &words)]), (9, &[(u32::MAX, &words[..50])])]);
        store_sum(&mut sound);
        assert_eq!(scp::validate(&sound, Edition::V1_6), Ok(()));
        let mut damaged = sound.clone();
        damaged[0x0F] ^= 0x81;
        assert!(scp::validate(&damaged, Edition::V1_6).is_err() && scp::header(&damaged, Edition::V1_6).is_ok());
        for first in [sound, damaged] {
            for (track, count) in [(2, 3000), (9, 50)] {
                let bench = Bench::new();
                bench.put("i.scp", &first);
                bench.put("new.bin", &vec![0xFE; 2 * count]);
                let patch = format!("{track} 0 --duration 77 --words new.bin --undo undo.txt");
                bench.passes(&format!("patch i.scp o.scp {patch}"));
                assert!(bench.get("o.scp") != first && bench.get("i.scp") == first);
                let out = bench.passes("replay o.scp undo.txt --out back.scp");
                assert!(out.starts_with("2: edition 1.6\n3: rewrite ") && out.contains(": ok\n"), "{out}");
                assert!(bench.get("back.scp") == first, "flags {flags} track {track}");
                std::fs::remove_file(bench.path("undo.txt")).expect("the undo file removed");
                bench.passes(&format!("patch i.scp i.scp {patch} --in-place"));
                assert!(bench.get("i.scp") == bench.get("o.scp"));
                bench.passes("replay i.scp undo.txt --out i.scp --in-place");
                assert!(bench.get("i.scp") == first);
            }
        }
    }
}

#[test]
fn a_shorter_revolution_is_said_to_be_for_good() {
    let bench = Bench::with_words();
    bench.put("short.bin", &[1, 2]);
    let tail = "0 0 --duration keep --words short.bin";
    let out = bench.passes(&format!("patch a.scp b.scp {tail}"));
    assert!(out.contains(&format!("words 4 -> 1\n{SHORTER}; its former words are still in a.scp\n")), "{out}");
    let out = bench.passes(&format!("patch a.scp b.scp {tail} --force --undo undo.txt"));
    assert!(out.contains(&format!("words 4 -> 1\n{SHORTER}; its former words are in undo.txt\n")), "{out}");
    let undo = String::from_utf8(bench.get("undo.txt")).expect("UTF-8");
    let lines: Vec<&str> = undo.lines().collect();
    assert_eq!(lines[1], format!("# {SHORTER}; its former words are kept here, but replay refuses to put them back"));
    assert_eq!(lines[2..], ["edition 1.6", "rewrite 0 0 8000000 00A0 0000 0001 00F0"]);
    assert!(bench
        .refuses("replay b.scp undo.txt")
        .starts_with("3: edition 1.6\n4: rewrite 0 0 8000000 (8 bytes): refused 17 Words: 4 words, where the revolution has "));
    let out = bench.passes(&format!("patch a.scp a.scp {tail} --in-place"));
    assert!(out.contains(&format!("words 4 -> 1\n{SHORTER}; its former words were not kept\n")), "{out}");
    assert!(!bench.passes(&format!("patch a.scp c.scp {tail}")).contains("shorter"));
}

#[test]
fn an_undo_file_is_never_replaced() {
    let bench = Bench::with_words();
    bench.put("undo.txt", b"precious");
    for (out, force) in [("b.scp", ""), ("b.scp", "--force"), ("a.scp", "--in-place")] {
        for undo in ["undo.txt", "words.bin"] {
            let line = format!("patch a.scp {out} {TAIL} {force} --undo {undo}");
            bench.fails(&line, 3, &format!("{undo}: it exists already, and is never replaced"));
        }
    }
    assert_eq!((bench.get("undo.txt"), bench.get("a.scp")), (b"precious".to_vec(), scp::example::image_a()));
    assert_eq!(bench.names(), ["a.scp", "undo.txt", "words.bin"]);
    bench.fails(&format!("patch a.scp b.scp {TAIL} --undo -"), 2, "\"-\" names no file to write");
    bench.fails(&format!("patch a.scp b.scp {TAIL} --undo none/u.txt"), 3, "none/u.txt: cannot be written: No such file");
    assert_eq!(bench.names(), ["a.scp", "undo.txt", "words.bin"]);
}

#[test]
fn the_undo_file_is_not_the_image() {
    let bench = Bench::with_words();
    let folder = bench.folder.file_name().expect("a name").to_string_lossy().into_owned();
    for undo in ["b.scp".to_string(), "./b.scp".to_string(), format!("../{folder}/b.scp")] {
        bench.fails(&format!("patch a.scp b.scp {TAIL} --undo {undo}"), 2, &format!("{undo} and b.scp are the same file"));
        bench.fails(&format!("patch a.scp b.scp {TAIL} --undo {undo} --force"), 2, &format!("{undo} and b.scp are the same file"));
    }
    bench.fails(&format!("patch a.scp a.scp {TAIL} --undo a.scp --in-place"), 2, "a.scp and a.scp are the same file");
    bench.fails(&format!("patch a.scp b.scp {TAIL} --undo a.scp"), 3, "a.scp: it exists already, and is never replaced");
    assert_eq!((bench.names().len(), bench.get("a.scp")), (2, scp::example::image_a()));
}

#[test]
fn a_refused_patch_leaves_no_undo_file() {
    let bench = Bench::with_words();
    bench.put("odd.bin", &[1, 2, 3]);
    let names = bench.names();
    bench.fails("patch a.scp b.scp 0 0 --duration 1 --words odd.bin --undo undo.txt", 1, "refused 17 Words");
    bench.fails("patch a.scp b.scp 9 0 --duration 1 --words words.bin --undo undo.txt", 1, "refused 13 Absent");
    bench.fails("patch a.scp none/b.scp 0 0 --duration 1 --words words.bin --undo undo.txt", 3, "none/b.scp: cannot be written");
    assert_eq!(bench.names(), names);
    bench.passes("patch a.scp a.scp 0 0 --duration 8000000 --words words.bin --in-place --undo undo.txt");
    assert_eq!(bench.get("a.scp"), patched_a());
}
