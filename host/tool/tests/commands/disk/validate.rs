//! `fluxproof dsk validate`.

use super::{edited, image};
use crate::bench::Bench;

#[test]
fn valid_images_pass() {
    let bench = Bench::with_disk();
    assert_eq!(bench.passes("dsk validate a.dsk ./a.dsk"), "a.dsk: ok\n./a.dsk: ok\n");
    let run = bench.run_with("dsk validate --all -", &dsk::example::image());
    assert_eq!((run.status, run.out.as_str()), (0, "standard input: ok\n"));
}

#[test]
fn what_no_rule_looks_at_is_accepted() {
    let bench = Bench::with_disk();
    let mut longer = dsk::example::image();
    longer.extend([0xFF; 1000]);
    let entries = [[200, 100, 255, 6, 0xFF, 0xFF]];
    for image in [
        longer,
        edited(&[(8, &[0xFF; 0x28]), (0x34, &[0xFF; 204])]),
        edited(&[(256 + 12, &[0xFF; 4]), (256 + 0x12, &[0xFF; 2]), (256 + 0x16, &[0xFF; 2]), (256 + 0x1E, &[0xFF; 2])]),
        edited(&[(256 + 0x28, &[0xFF; 216])]),
        image((1, 1, 256), 6, &[]),
        image((255, 2, 256), 0, &[]),
        image((2, 1, 256 + 0x1800), 6, &entries),
        image((1, 2, 256 + 29 * 128), 0, &[[0; 6]; 29]),
    ] {
        bench.put("b.dsk", &image);
        assert_eq!(bench.passes("dsk validate b.dsk"), "b.dsk: ok\n");
    }
}

#[test]
fn every_file_has_its_line() {
    let bench = Bench::with_disk();
    bench.put("d.dsk", &edited(&[(256 + 512 + 0x11, &[0])]));
    let run = bench.run("dsk validate d.dsk none.dsk . a.scp a.dsk");
    let lines: Vec<&str> = run.out.lines().collect();
    assert_eq!((run.status, lines.len(), run.err.as_str()), (3, 5, ""), "{run:?}");
    assert_eq!(lines[0], "d.dsk: refused 33 Block: track 0, side 1 (block 1 at 768): the byte at 785 is side 0, not 1");
    assert!(lines[1].starts_with("none.dsk: No such file"), "{}", lines[1]);
    assert!(lines[2].starts_with(".: Is a directory"), "{}", lines[2]);
    assert!(lines[3].starts_with("a.scp: refused 30 Sign: "), "{}", lines[3]);
    assert_eq!(lines[4], "a.dsk: ok");
    assert_eq!(bench.run("dsk validate a.dsk d.dsk").status, 1);
}

#[test]
fn standard_input_can_be_named_once() {
    let bench = Bench::with_disk();
    bench.fails("dsk validate - a.dsk -", 2, "dsk validate: standard input (-) can be read only once; see \"fluxproof help dsk validate\"");
    bench.fails("dsk validate", 2, "dsk validate: FILE is missing; see \"fluxproof help dsk validate\"");
}
