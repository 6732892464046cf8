//! Images of many revolutions, up to 255 for each track, with each command.

use crate::bench::{changed, image, Bench, Revolution};

/// How many revolutions are tried: nine, as a mill captured them, and the most.
const COUNTS: [u8; 2] = [9, 255];

/// Tracks 3 and 167 of so many revolutions. Revolution N lasts 8,000,000 + N ticks, and has two intervals, of as many ticks as the
/// track's number and of N + 1, then a zero word.
fn two_tracks(count: u8) -> Vec<u8> {
    let words = [3, 167].map(|track| (1..=u16::from(count)).map(|number| [track, number, 0]).collect::<Vec<_>>());
    let tracks = words.each_ref().map(|words| (8_000_000..).zip(words.iter().map(|words| &words[..])).collect::<Vec<Revolution>>());
    image(0, &[(3, &tracks[0]), (167, &tracks[1])])
}

/// Where these have the header of track 167, and in that track the record and the flux of a revolution.
fn places(count: u8, revolution: u8) -> [usize; 3] {
    let (count, revolution) = (usize::from(count), usize::from(revolution));
    let header = 688 + 4 + (12 + 6) * count;
    [header, header + 4 + 12 * revolution, header + 4 + 12 * count + 6 * revolution]
}

/// The first, the middle and the last of so many revolutions.
fn some_of(count: u8) -> [u8; 3] {
    [0, count / 2, count - 1]
}

/// The rows of a table that is shown, without its heading; they are as wide as that.
fn rows(table: &str) -> Vec<&str> {
    let (heading, rows) = table.split_once('\n').expect("a heading");
    assert!(rows.lines().all(|row| row.len() == heading.len()), "{table}");
    rows.lines().collect()
}

#[test]
fn many_revolutions_are_listed_and_shown() {
    for count in COUNTS {
        let bench = Bench::new();
        bench.put("b.scp", &two_tracks(count));
        assert_eq!(bench.passes("validate b.scp"), "b.scp: ok\n");
        let (listed, shown) = (bench.passes("list b.scp"), bench.passes("show b.scp"));
        let (lines, both) = (listed.lines().collect::<Vec<_>>(), 2 * usize::from(count));
        let tables: Vec<Vec<&str>> = shown.split("\n\n").skip(1).map(rows).collect();
        assert_eq!((lines.len(), tables[0].len(), tables[1].len()), (1 + both, 2, both));
        assert!(lines[0].contains(&format!(" tracks 2 turns {count} sum ")), "{listed}");
        assert!(shown.contains(&format!("\nrevolutions         {count} for each track\n")), "{shown}");
        for (index, track) in [3, 167].into_iter().enumerate() {
            assert_eq!(tables[0][index].split_whitespace().nth(4), Some(&*count.to_string()), "{shown}");
            for revolution in some_of(count) {
                let row = index * usize::from(count) + usize::from(revolution);
                let ticks = 8_000_000 + u32::from(revolution);
                let (ms, rpm) = (f64::from(ticks) / 40_000.0, 2.4e9 / f64::from(ticks));
                let line = format!("track {track} turn {revolution} ticks {ticks} words 3 intervals 2 open 65536 last 1");
                assert_eq!(lines[1 + row], line);
                let due = format!("{track} {revolution} {ticks} {ms:.6} 3 2 65536 {rpm:.3}");
                assert_eq!(tables[1][row].split_whitespace().collect::<Vec<_>>().join(" "), due);
            }
        }
    }
}

#[test]
fn many_revolutions_are_read_and_drawn() {
    for count in COUNTS {
        let bench = Bench::new();
        bench.put("b.scp", &two_tracks(count));
        for revolution in some_of(count) {
            assert_eq!(bench.passes(&format!("read b.scp 167 {revolution}")), format!("167\n{}\nopen 65536\n", revolution + 1));
            assert_eq!(bench.passes(&format!("plot b.scp 167 {revolution} b.svg --force")), "2 intervals drawn in b.svg\n");
            let svg = String::from_utf8(bench.get("b.svg")).expect("UTF-8");
            assert!(svg.contains(&format!("track 167 (cylinder 83, head 1), revolution {revolution}<")), "{svg}");
        }
        let said = format!("b.scp: refused 14 Revolution: revolution {count} of track 3: a track has {count} revolutions, from 0 on\n");
        bench.fails(&format!("read b.scp 3 {count}"), 1, &said);
    }
}

#[test]
fn many_revolutions_are_patched_and_taken_back() {
    for count in COUNTS {
        let bench = Bench::new();
        let first = two_tracks(count);
        bench.put("b.scp", &first);
        bench.put("new.bin", &[0x12, 0x34, 0, 0, 0, 7]);
        for revolution in some_of(count) {
            let ([header, record, flux], place) = (places(count, revolution), format!("167 {revolution}"));
            let put = |numbers: &[u8], words: &[u8]| changed(changed(first.clone(), record, numbers), flux, words);
            let undo = format!("undo{revolution}.txt");
            bench.passes(&format!("patch b.scp p.scp {place} --duration 77 --words new.bin --undo {undo} --force"));
            assert!(bench.get("p.scp") == put(&[77, 0, 0, 0], &bench.get("new.bin")), "{count} {place}");
            assert_eq!(bench.passes(&format!("read p.scp {place}")), "4660\n65543\n");
            assert!(bench
                .passes(&format!("replay p.scp {undo} --out p.scp --in-place"))
                .starts_with(&format!("2: edition 1.6\n3: rewrite {place} ")));
            assert!(bench.get("p.scp") == first, "{count} {place}");
            let calls = format!("rewrite {place} 9 0007\nrevolution {place}\nflux {place}\ntrack 167\nvalidate\n");
            bench.put("calls.txt", calls.as_bytes());
            let due = [
                format!("1: rewrite {place} 9 (2 bytes): ok"),
                format!("2: revolution {place}: duration 9 words 1 offset {flux}"),
                format!("3: flux {place}: offset {flux} bytes 2 sum 7"),
                format!("4: track 167: cylinder 83 head 1 offset {header} revolutions {count}"),
                "5: validate: ok".to_string(),
            ];
            let out = bench.passes("replay b.scp calls.txt --out s.scp --force");
            assert_eq!(out.lines().take(due.len()).collect::<Vec<_>>(), due);
            assert!(bench.get("s.scp") == put(&[9, 0, 0, 0, 1], &[0, 7]), "{count} {place}");
        }
    }
}

#[test]
fn faults_of_the_last_of_255_revolutions_are_told() {
    let bench = Bench::new();
    let ([header, record, _], first) = (places(255, 254), two_tracks(255));
    bench.put("new.bin", &[0, 1]);
    for (offset, number, said, last_row) in [
        (
            record + 4,
            4_u32,
            "11 Flux: track 167, revolution 254: 2 x 4 bytes at 9,870 end at 9,878, past 9,876",
            "  167 254    8000254    200.006350          4          -             -",
        ),
        (
            16 + 4 * 167,
            6_813,
            "10 Track: track 167: its header of 3,064 bytes at 6,813 ends at 9,877, past 9,876",
            "    3 254    8000254    200.006350          3          2         65536",
        ),
    ] {
        bench.put("b.scp", &changed(first.clone(), offset, &number.to_le_bytes()));
        assert_eq!(bench.refuses("validate --all b.scp"), format!("b.scp: refused {said}\n"));
        let shown = bench.refuses("show b.scp");
        let (_, table) = shown.rsplit_once("\n\n").expect("a table of revolutions");
        assert_eq!(rows(table).last(), Some(&last_row));
    }
    // Revolution 100 of track 167 with the flux of revolution 254.
    let same = (4 + 12 * 255 + 6 * 254_u32).to_le_bytes();
    bench.put("b.scp", &changed(first, header + 4 + 12 * 100 + 8, &same));
    for (revolution, other) in [(100, 254), (254, 100)] {
        let said = format!("18 Shared: byte 9,870 is of its present flux and of the flux of track 167, revolution {other}");
        let line = format!("patch b.scp c.scp 167 {revolution} --duration keep --words new.bin");
        bench.fails(&line, 1, &format!("b.scp: refused {said}\n"));
    }
    assert!(!bench.path("c.scp").exists());
}
