//! Help, versions and wrong command lines.

use crate::bench::{Bench, Run};

/// All commands.
const COMMANDS: [&str; 12] =
    ["list", "validate", "show", "read", "patch", "replay", "plot", "dsk list", "dsk validate", "dsk show", "dsk sector", "dsk make"];

#[test]
fn help_is_there_for_all() {
    let bench = Bench::new();
    let whole = bench.passes("--help");
    for line in ["help", "-h", "help help", "help --help"] {
        assert_eq!(bench.passes(line), whole, "{line}");
    }
    for command in COMMANDS {
        assert!(whole.contains(&format!("\n  {command} ")), "{command}");
        let help = bench.passes(&format!("help {command}"));
        assert!(
            help.starts_with(&format!("Usage: fluxproof {command} ")) && help.contains("\nExample") && help.contains("Exit status"),
            "{help}"
        );
        assert_eq!(bench.passes(&format!("{command} --help")), help);
        assert_eq!(bench.passes(&format!("{command} a.scp -h")), help);
    }
}

#[test]
fn help_is_there_for_all_of_a_kind() {
    let bench = Bench::new();
    let whole = bench.passes("help dsk");
    for line in ["dsk --help", "dsk -h", "dsk help", "dsk help help", "help dsk help", "help dsk --help"] {
        assert_eq!(bench.passes(line), whole, "{line}");
    }
    for command in COMMANDS.iter().filter_map(|command| command.strip_prefix("dsk ")) {
        assert!(whole.contains(&format!("\n  {command} ")), "{command}");
        assert_eq!(bench.passes(&format!("dsk help {command}")), bench.passes(&format!("help dsk {command}")));
    }
    for number in dsk::Reason::ALL.into_iter().filter(|reason| *reason != dsk::Reason::Places) {
        assert!(whole.contains(&format!("\n  {} {number:?} ", number.number())), "{number:?}");
    }
}

#[test]
fn the_version_names_the_judge() {
    let bench = Bench::new();
    let said = bench.passes("--version");
    assert_eq!(bench.passes("-V"), said);
    let lines: Vec<(&str, &str)> = said.lines().filter_map(|line| line.split_once(' ')).collect();
    let names: Vec<&str> = lines.iter().map(|(name, _)| *name).collect();
    assert_eq!(names, ["fluxproof", "commit", "toolchain", "logic"], "{said}");
    assert_eq!(lines[0].1, env!("CARGO_PKG_VERSION"));
    let digits = |text: &str, count: usize| text.len() == count && text.bytes().all(|digit| digit.is_ascii_hexdigit());
    let commit = lines[1].1.strip_suffix(", with changes").unwrap_or(lines[1].1);
    assert!(commit == "unknown" || digits(commit, 40), "{said}");
    // One for both archives, or where they differ one for each.
    let logics: Vec<&str> = lines[3].1.split(", ").map(|logic| logic.trim_end_matches(" (SCP)").trim_end_matches(" (DSK)")).collect();
    assert!(logics.len() <= 2 && logics.iter().all(|logic| *logic == "unknown" || digits(logic, 16)), "{said}");
}

#[test]
fn wrong_command_lines_name_the_help() {
    let bench = Bench::new();
    bench.fails("", 2, "see \"fluxproof --help\"");
    bench.fails("lst a.scp", 2, "unknown command \"lst\" (did you mean \"list\"?); see \"fluxproof --help\"");
    bench.fails("frobnicate", 2, "unknown command \"frobnicate\"; see \"fluxproof --help\"");
    bench.fails("--frobnicate", 2, "unknown option \"--frobnicate\"; see \"fluxproof --help\"");
    bench.fails("help frobnicate", 2, "unknown command \"frobnicate\"");
    bench.fails("help list show", 2, "help takes one command; see \"fluxproof --help\"");
    bench.fails("dks list a.scp", 2, "unknown command \"dks\" (did you mean \"dsk\"?); see \"fluxproof --help\"");
    bench.fails("dsk", 2, "dsk: no command is given; see \"fluxproof help dsk\"");
    bench.fails("dsk lst a.dsk", 2, "dsk: unknown command \"lst\" (did you mean \"list\"?); see \"fluxproof help dsk\"");
    bench.fails("dsk read a.dsk", 2, "dsk: unknown command \"read\"; see \"fluxproof help dsk\"");
    bench.fails("dsk dsk list a.dsk", 2, "dsk: unknown command \"dsk\"; see \"fluxproof help dsk\"");
    bench.fails("dsk --version", 2, "dsk: unknown option \"--version\"; see \"fluxproof help dsk\"");
    bench.fails("help dsk read", 2, "dsk: unknown command \"read\"; see \"fluxproof help dsk\"");
    bench.fails("help dsk list show", 2, "dsk: help takes one command; see \"fluxproof help dsk\"");
    bench.fails("read a.scp 0 0 --cvs", 2, "read: unknown option \"--cvs\" (did you mean \"--csv\"?); see \"fluxproof help read\"");
    bench.fails("list a.scp b.scp", 2, "list: unexpected argument \"b.scp\" after FILE; see \"fluxproof help list\"");
    bench.fails("read a.scp 0 0 --us --us", 2, "--us is given twice");
    bench.fails("read a.scp 0 0 --us=1", 2, "--us takes no value");
    bench.fails("patch a.scp b.scp 0 0 --duration", 2, "--duration needs a value");
    bench.fails("patch a.scp b.scp 0 0 --duration 1 --words a.scp --us", 2, "--us is for --times, which is missing");
    bench.fails("patch a.scp - 0 0 --duration 1 --words a.scp", 2, "\"-\" names no file to write (one named - is ./-)");
    bench.fails("patch a.scp a.scp 0 0 --duration 1 --words a.scp --in-place --force", 2, "--in-place and --force exclude each other");
}

#[cfg(unix)]
#[test]
fn names_are_shown_so_that_they_can_be_told_apart() {
    use std::os::unix::ffi::OsStrExt;
    let bench = Bench::new();
    for (name, shown) in [
        (&b"x\xFFy.scp"[..], "x\\xFFy.scp"),
        ("\u{202E}a\u{2028}.scp".as_bytes(), "\\u{202e}a\\u{2028}.scp"),
        (b"a\nb\x1B.scp", "a\\nb\\u{1b}.scp"),
        ("\u{E9}e\u{301} \"'\\.scp".as_bytes(), "\u{E9}e\u{301} \"'\\.scp"),
    ] {
        let name = std::ffi::OsStr::from_bytes(name);
        std::fs::write(bench.folder.join(name), scp::example::image_a()).expect("a file");
        let done = bench.command("validate").arg(name).output().expect("the command runs");
        assert_eq!(String::from_utf8_lossy(&done.stdout), format!("{shown}: ok\n"));
    }
    let option = std::ffi::OsStr::from_bytes(b"--times=x\xFF");
    let run = Run::of(bench.command("patch a.scp b.scp 0 0 --duration 1").arg(option).output().expect("the command runs"));
    assert!(run.status == 2 && run.err.contains("\"--times=x\\xFF\" is not UTF-8: give a value as a word of its own"), "{run:?}");
}

#[test]
fn a_double_dash_ends_the_options() {
    let bench = Bench::new();
    bench.put("--us", &scp::example::image_a());
    assert_eq!(bench.passes("read -- --us 0 0"), "160\n65537\n240\n");
}
