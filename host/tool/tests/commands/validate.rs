//! `fluxproof validate`.

use crate::bench::{damaged_a, Bench};

#[test]
fn valid_images_pass() {
    let bench = Bench::new();
    assert_eq!(bench.passes("validate a.scp ./a.scp"), "a.scp: ok\n./a.scp: ok\n");
    let run = bench.run_with("validate -", &scp::example::image_a());
    assert_eq!((run.status, run.out.as_str()), (0, "standard input: ok\n"));
}

#[test]
fn every_file_has_its_line() {
    let bench = Bench::new();
    bench.put("d.scp", &damaged_a());
    let run = bench.run("validate d.scp none.scp . a.scp");
    let lines: Vec<&str> = run.out.lines().collect();
    assert_eq!((run.status, lines.len(), run.err.as_str()), (3, 4, ""), "{run:?}");
    assert_eq!(lines[0], "d.scp: refused 12 Sum: stored 981, the bytes add up to 980");
    assert!(lines[1].starts_with("none.scp: No such file"), "{}", lines[1]);
    assert!(lines[2].starts_with(".: Is a directory"), "{}", lines[2]);
    assert_eq!(lines[3], "a.scp: ok");
}

#[test]
fn standard_input_can_be_named_once() {
    let bench = Bench::new();
    bench.fails("validate - a.scp -", 2, "only once");
    bench.fails("validate", 2, "FILE is missing");
}
