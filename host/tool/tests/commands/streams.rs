//! What all commands do alike: bad input, a full disk and closed pipes.

use std::fs::OpenOptions;
use std::process::{Command, Stdio};

use crate::bench::{damaged_a, image, Bench, Run};
use crate::disk::{self, edited};

/// A run of each command on an image.
const LINES: [&str; 7] = [
    "list FILE",
    "validate FILE",
    "show FILE",
    "read FILE 0 0",
    "patch FILE out.scp 0 0 --duration keep --words words.bin --force",
    "replay FILE calls.txt --out out.scp --force",
    "plot FILE 0 0 out.svg --force",
];

/// A run of each command on a DSK image.
const DISK_LINES: [&str; 6] = [
    "dsk list FILE",
    "dsk validate FILE",
    "dsk show FILE",
    "dsk sector FILE 0 0 0",
    "dsk sector FILE 0 0 0 --raw",
    "dsk sector FILE 0 0 0 --data out.bin --force",
];

/// A run of the command that makes a DSK image, on data.
const MAKE_LINE: &str = "dsk make FILE out.dsk --tracks 1 --sectors 1 --force";

/// A bench with all that the lines name.
fn bench() -> Bench {
    let bench = Bench::with_words();
    bench.put("a.dsk", &dsk::example::image());
    bench.put("a.bin", &[7; 512]);
    bench.put("calls.txt", b"validate\nheader\n");
    bench
}

/// The lines on a file.
fn lines(file: &str) -> impl Iterator<Item = String> + '_ {
    LINES.into_iter().map(move |line| line.replace("FILE", file))
}

/// The lines for DSK images on a file.
fn disk_lines(file: &str) -> impl Iterator<Item = String> + '_ {
    DISK_LINES.into_iter().map(move |line| line.replace("FILE", file))
}

/// All lines, each on its image or its data.
fn all_lines() -> impl Iterator<Item = String> {
    lines("a.scp").chain(disk_lines("a.dsk")).chain([MAKE_LINE.replace("FILE", "a.bin")])
}

#[test]
fn a_file_that_cannot_be_read_gives_3() {
    let bench = bench();
    let names = bench.names();
    for (file, message) in [("none.scp", "none.scp: No such file"), (".", ".: Is a directory"), ("a.scp/b", "a.scp/b: Not a directory")] {
        for line in lines(file).chain(disk_lines(file)).chain([MAKE_LINE.replace("FILE", file)]) {
            let run = bench.run(&line);
            assert!(run.status == 3 && (run.out + &run.err).contains(message), "{line}: {}", run.status);
        }
    }
    assert_eq!(bench.names(), names);
}

#[test]
fn an_image_that_is_refused_gives_1() {
    let bench = bench();
    let mut wide = scp::example::image_a();
    wide[9] = 8;
    let bad: [(&[u8], &str); 5] = [
        (b"", "refused 1 "),
        (b"SCP", "refused 1 "),
        (&[0; 688], "refused 2 "),
        (&wide, "refused 3 "),
        (&scp::example::image_a()[..711], "refused 11 "),
    ];
    for (bytes, refusal) in bad {
        bench.put("bad.scp", bytes);
        for line in lines("bad.scp") {
            let run = bench.run(&line);
            assert!(run.status == 1 && (run.out.clone() + &run.err).contains(refusal), "{line}: {run:?}");
        }
    }
    assert_eq!(bench.get("out.scp"), bench.get("bad.scp"));
    assert!(!bench.path("out.svg").exists());
    let disk = dsk::example::image();
    let bad: [(&[u8], &str); 7] = [
        (b"", "refused 30 "),
        (b"MV - CPC", "refused 32 "),
        (&edited(&[(0x31, &[3])]), "refused 31 "),
        (&disk[..disk.len() - 1], "refused 32 "),
        (&edited(&[(256, b"t")]), "refused 33 "),
        (&edited(&[(256 + 0x15, &[30])]), "refused 34 "),
        (&edited(&[(256 + 0x15, &[3])]), "refused 35 "),
    ];
    for (bytes, refusal) in bad {
        bench.put("bad.dsk", bytes);
        for line in disk_lines("bad.dsk") {
            let run = bench.run(&line);
            assert!(run.status == 1 && (run.out.clone() + &run.err).contains(refusal), "{line}: {run:?}");
        }
    }
    assert!(!bench.path("out.bin").exists());
}

#[test]
fn a_wrong_command_line_gives_2() {
    let bench = bench();
    let names = bench.names();
    for line in all_lines() {
        let name = line.split(" a.").next().unwrap_or_default();
        let (first, hint) = (if name == "dsk make" { "DATA" } else { "FILE" }, format!("; see \"fluxproof help {name}\""));
        bench.fails(name, 2, &format!("{name}: {first} is missing{hint}"));
        bench.fails(&format!("{line} --frobnicate"), 2, &format!("unknown option \"--frobnicate\"{hint}"));
        if !name.ends_with("validate") {
            bench.fails(&format!("{line} one two"), 2, &format!("{name}: unexpected argument \"one\" after "));
        }
    }
    assert_eq!(bench.names(), names);
}

#[test]
fn a_closed_pipe_is_no_failure() {
    let bench = bench();
    let words = vec![160; 100_000];
    bench.put("big.scp", &image(1, &[(0, &[(8_000_000, &words)])]));
    bench.put("big.dsk", &disk::image((40, 2, 256 + 29 * 128), 0, &[[0; 6]; 29]));
    for line in ["dsk list big.dsk", "dsk show big.dsk"] {
        assert!(bench.passes(line).len() > 1 << 16, "{line}: it fits in a pipe");
    }
    bench.put("bad.scp", &damaged_a());
    let help = ["--help", "--version", "help patch"].map(String::from);
    let big = lines("big.scp").chain(disk_lines("big.dsk"));
    for line in big.chain(all_lines()).chain(help).chain(["list bad.scp".to_string()]) {
        let (reader, writer) = std::io::pipe().expect("a pipe");
        drop(reader);
        let run = Run::of(bench.command(&line).stdout(writer).output().expect("the command runs"));
        assert_eq!((run.status, run.err.as_str()), (i32::from(line == "list bad.scp"), ""), "{line}");
    }
}

#[cfg(target_os = "linux")]
#[test]
fn a_full_standard_output_gives_3() {
    let bench = bench();
    bench.put("bad.scp", &damaged_a());
    let others = ["--help", "--version", "help patch", "list bad.scp", "validate none.scp"].map(String::from);
    for line in all_lines().chain(others) {
        let full = OpenOptions::new().write(true).open("/dev/full").expect("the full device");
        let run = Run::of(bench.command(&line).stdout(full).output().expect("the command runs"));
        let message = "fluxproof: standard output: No space left on device (os error 28)\n";
        assert_eq!((run.status, run.err.as_str()), (3, message), "{line}");
    }
}

#[cfg(target_os = "linux")]
#[test]
fn a_stream_that_cannot_be_used_gives_3() {
    let bench = bench();
    let message = ": Bad file descriptor (os error 9)\n";
    for line in all_lines() {
        let reading = OpenOptions::new().read(true).open("/dev/null").expect("the empty device");
        let run = Run::of(bench.command(&line).stdout(reading).output().expect("the command runs"));
        assert_eq!((run.status, run.err), (3, format!("fluxproof: standard output{message}")), "{line}");
    }
    let writing = OpenOptions::new().write(true).open("/dev/null").expect("the empty device");
    let run = Run::of(bench.command("validate -").stdin(writing).output().expect("the command runs"));
    assert_eq!((run.status, run.out), (3, format!("standard input{message}")));
}

/// Runs a line of the shell in the folder, in which "$0" is the command.
#[cfg(unix)]
pub fn shell(bench: &Bench, program: &str, options: &[&str], script: &str) -> Run {
    let mut shell = Command::new(program);
    shell.args(options).args(["-c", script, env!("CARGO_BIN_EXE_fluxproof")]).current_dir(&bench.folder);
    Run::of(shell.stdin(Stdio::null()).output().expect("a shell"))
}

#[cfg(unix)]
#[test]
fn a_file_that_grows_too_long_changes_nothing() {
    let bench = bench();
    bench.put("out.scp", b"precious");
    bench.put("out.svg", b"precious");
    let names = bench.names();
    let in_place = ["patch a.scp a.scp 0 0 --duration 1 --words words.bin --in-place", "replay a.scp calls.txt --out a.scp --in-place"];
    let fresh = [
        "patch a.scp new.scp 0 0 --duration 1 --words words.bin --undo undo.txt",
        "replay a.scp calls.txt --out new.scp --undo undo.txt",
        "plot a.scp 0 0 new.svg",
    ];
    let writing = LINES[4..].iter().map(|line| line.replace("FILE", "a.scp"));
    for line in writing.chain(in_place.map(String::from)).chain(fresh.map(String::from)) {
        let run = shell(&bench, "sh", &[], &format!("ulimit -f 1; exec \"$0\" {line}"));
        assert!(run.status == 3 && run.err.contains(": cannot be written: File too large"), "{line}: {run:?}");
        assert_eq!((bench.get("out.scp"), bench.get("out.svg")), (b"precious".to_vec(), b"precious".to_vec()), "{line}");
        assert_eq!((bench.get("a.scp"), bench.names()), (scp::example::image_a(), names.clone()), "{line}");
    }
}

#[cfg(unix)]
#[test]
fn an_undo_file_that_grows_too_long_changes_nothing() {
    let bench = bench();
    let words = [160; 150];
    let small = image(1, &[(0, &[(8_000_000, &words)])]);
    bench.put("a.scp", &small);
    bench.put("twice.txt", format!("rewrite 0 0 1 {0}\nrewrite 0 0 2 {0}\n", "00A0".repeat(150)).as_bytes());
    let (names, out) = (bench.names(), "o".repeat(150));
    // The image has less than 1024 bytes, the text to undo has more.
    for line in [
        &*format!("patch a.scp {out} 0 0 --duration keep --words words.bin --undo undo.txt"),
        "replay a.scp twice.txt --out b.scp --undo undo.txt",
        "replay a.scp twice.txt --undo undo.txt",
    ] {
        let run = shell(&bench, "sh", &[], &format!("ulimit -f 2; exec \"$0\" {line}"));
        assert!(run.status == 3 && run.err.contains("undo.txt: cannot be written: File too large"), "{run:?}");
        assert_eq!((bench.get("a.scp"), bench.names()), (small.clone(), names.clone()));
    }
}

#[cfg(target_os = "linux")]
#[test]
fn a_full_disk_changes_nothing() {
    let bench = bench();
    std::fs::create_dir(bench.path("full")).expect("a folder");
    let script = "mount -t tmpfs -o size=4k none full 2>/dev/null || exit 99
        printf precious > full/old
        \"$0\" patch a.scp full/old 0 0 --duration 1 --words words.bin --force; echo $?
        \"$0\" replay a.scp calls.txt --out full/old --force > /dev/null; echo $?
        \"$0\" plot a.scp 0 0 full/old --force; echo $?
        \"$0\" dsk sector a.dsk 0 0 0 --data full/old --force; echo $?
        \"$0\" dsk sector a.dsk 0 0 0 --data full/new; echo $?
        \"$0\" dsk make a.bin full/old --tracks 1 --sectors 1 --force; echo $?
        \"$0\" dsk make a.bin full/new --tracks 1 --sectors 1; echo $?
        \"$0\" patch a.scp full/new 0 0 --duration 1 --words words.bin --undo undo.txt; echo $?
        \"$0\" patch a.scp new.scp 0 0 --duration 1 --words words.bin --undo full/undo.txt; echo $?
        \"$0\" replay a.scp calls.txt --out full/new --undo undo.txt > /dev/null; echo $?
        \"$0\" replay a.scp calls.txt --undo full/undo.txt > /dev/null; echo $?
        ls -A full; cat full/old";
    let run = shell(&bench, "unshare", &["-rm", "sh"], script);
    // Where mounting is not allowed, the limit on the size of files is all that is tested.
    if run.status == 0 {
        assert_eq!(run.out, "3\n".repeat(11) + "old\nprecious", "{run:?}");
        assert_eq!(run.err.matches(": cannot be written: No space left on device").count(), 11, "{run:?}");
        assert_eq!(bench.names(), ["a.bin", "a.dsk", "a.scp", "calls.txt", "full", "words.bin"]);
    } else {
        println!("no disk can be mounted: {run:?}");
    }
}
