//! `fluxproof plot`.

use crate::bench::{image, Bench};

/// Checks that text is XML of one element: tags balanced, attributes quoted, nothing unescaped; gives the text between tags.
fn well_formed(text: &str) -> Vec<String> {
    let body = text.strip_prefix("<?xml version=\"1.0\" encoding=\"UTF-8\"?>\n").expect("a declaration");
    let mut open: Vec<&str> = Vec::new();
    let mut between = Vec::new();
    for piece in body.split('<').skip(1) {
        let (tag, after) = piece.split_once('>').expect("a tag that ends");
        assert!(!after.contains('>') && !tag.contains('<'), "{piece}");
        let entities = after.split('&').skip(1).all(|rest| ["amp;", "lt;", "gt;"].iter().any(|name| rest.starts_with(name)));
        assert!(entities && !after.chars().any(|letter| letter.is_control() && letter != '\n'), "{after}");
        if let Some(name) = tag.strip_prefix('/') {
            assert_eq!(open.pop(), Some(name));
        } else {
            let (tag, alone) = tag.strip_suffix('/').map_or((tag, false), |tag| (tag, true));
            assert_eq!(tag.matches('"').count(), 2 * tag.matches('=').count(), "{tag}");
            open.extend((!alone).then(|| tag.split(' ').next().unwrap_or_default()));
        }
        assert!(!open.is_empty() || after.trim().is_empty(), "text outside: {after}");
        between.extend((!after.trim().is_empty()).then(|| after.trim().to_string()));
    }
    assert!(open.is_empty() && body.starts_with("<svg ") && !body.contains("NaN") && !body.contains("inf"), "{body}");
    between
}

/// Draws a revolution and gives the texts of the drawing.
fn texts(bench: &Bench, file: &str, track: u32) -> Vec<String> {
    bench.passes(&format!("plot {file} {track} 0 out.svg --force"));
    well_formed(&String::from_utf8(bench.get("out.svg")).expect("UTF-8"))
}

#[test]
fn image_a_is_drawn() {
    let bench = Bench::new();
    assert_eq!(bench.passes("plot a.scp 0 0 a.svg"), "3 intervals drawn in a.svg\n");
    let texts = well_formed(&String::from_utf8(bench.get("a.svg")).expect("UTF-8"));
    for text in [
        "a.scp: track 0 (cylinder 0, head 0), revolution 0",
        "duration 8,000,000 ticks (200.000000 ms), 300.000 rpm, 3 intervals, no open time",
        "1 clipped: longer than 9.000 µs, up to 1638.425 µs",
        "interval (µs)",
        "time within the revolution (ms)",
    ] {
        assert!(texts.iter().any(|found| found == text), "{text}: {texts:?}");
    }
    assert_eq!(bench.names(), ["a.scp", "a.svg"]);
}

#[test]
fn empty_and_extreme_revolutions_are_drawn() {
    let bench = Bench::new();
    let tracks: [(u8, &[_]); 6] = [
        (0, &[(8_000_000, &[][..])]),
        (1, &[(0, &[])]),
        (2, &[(0, &[0, 0])]),
        (3, &[(0, &[1])]),
        (4, &[(u32::MAX, &[65_535, 1, 0])]),
        (5, &[(1, &[1, 1, 1])]),
    ];
    bench.put("e.scp", &image(0, &tracks));
    let has = |track, text: &str| texts(&bench, "e.scp", track).iter().any(|found| found.contains(text));
    assert!(has(0, "no intervals") && has(1, "no intervals") && has(1, "no speed") && has(2, "open time 131,072 ticks"));
    assert!(has(3, "1 interval,") && has(4, "2 intervals") && has(4, "open time") && has(5, "3 intervals"));
}

#[test]
fn a_dense_revolution_makes_a_drawing_of_sane_size() {
    let bench = Bench::new();
    let mut state = 1_u32;
    let mut random = || {
        state = state.wrapping_mul(1_664_525).wrapping_add(1_013_904_223);
        (state >> 16) as u16
    };
    let words: Vec<u16> = (0..100_000).map(|_| 80 + 40 * (random() % 3) + random() % 9).collect();
    bench.put("d.scp", &image(1, &[(80, &[(8_000_000, &words)])]));
    let texts = texts(&bench, "d.scp", 80);
    assert!(texts.iter().any(|text| text.contains("100,000 intervals")), "{texts:?}");
    assert!(bench.get("out.svg").len() < 1_000_000);
}

#[cfg(unix)]
#[test]
fn names_are_escaped() {
    let bench = Bench::new();
    let name = "<&>\"'\u{1}.scp";
    bench.put(name, &scp::example::image_a());
    let titles = texts(&bench, name, 0);
    assert!(titles.iter().any(|text| text.starts_with("&lt;&amp;&gt;\"'\\u{1}.scp: track 0")), "{titles:?}");
}

#[test]
fn existing_files_and_the_image_are_kept() {
    let bench = Bench::new();
    bench.put("a.svg", b"precious");
    bench.fails("plot a.scp 0 0 a.svg", 3, "a.svg: it exists already; --force replaces it");
    bench.fails("plot a.scp 0 0 a.scp --force", 3, "a.scp: this is the image itself");
    bench.fails("plot a.scp 9 0 b.svg", 1, "a.scp: refused 13 Absent: track 9 has no entry");
    bench.fails("plot a.scp 0 0", 2, "OUT.svg is missing");
    assert_eq!((bench.get("a.svg"), bench.get("a.scp")), (b"precious".to_vec(), scp::example::image_a()));
    let run = bench.run_with("plot - 0 0 b.svg", &scp::example::image_a());
    assert_eq!((run.status, run.out.as_str()), (0, "3 intervals drawn in b.svg\n"));
    assert_eq!(bench.names(), ["a.scp", "a.svg", "b.svg"]);
}
