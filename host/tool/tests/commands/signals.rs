//! Signals that end the command while it writes.

use std::fs;
use std::os::unix::process::ExitStatusExt;
use std::process::{Child, Command, ExitStatus, Output};
use std::time::{Duration, Instant};

use crate::bench::{patched_a, Bench, Run};

/// Hang-up, interrupt, quit, termination and the end of the processor's time.
const SIGNALS: [i32; 5] = [1, 2, 3, 15, 24];

/// Stops a process until it goes on.
const STOP: i32 = 19;
const GO_ON: i32 = 18;

/// How long the file is that takes a while to be written.
const LONG: u64 = 12 << 20;

/// How often a moment between making and naming the temporary file is tried for.
const ATTEMPTS: usize = 50;

extern "C" {
    fn kill(process: i32, signal: i32) -> i32;
}

/// Sends a signal to a process that is not waited for yet.
fn send(child: &Child, signal: i32) {
    // SAFETY: it takes numbers alone.
    assert_eq!(unsafe { kill(child.id() as i32, signal) }, 0);
}

/// Whether a process is stopped or has ended.
fn is_still(child: &Child) -> bool {
    let line = fs::read_to_string(format!("/proc/{}/stat", child.id())).unwrap_or_default();
    let state = line.rsplit(") ").next().and_then(|rest| rest.chars().next());
    matches!(state, None | Some('T' | 'Z' | 'X'))
}

/// Whether the folder has a temporary file.
fn has_temporary(bench: &Bench) -> bool {
    bench.names().iter().any(|name| name.starts_with(".fluxproof-"))
}

/// A bench with a long file, which replay copies.
fn bench() -> Bench {
    let bench = Bench::with_words();
    let file = fs::File::create(bench.path("long.scp")).expect("a file");
    file.set_len(LONG).expect("a sparse file");
    bench.put("calls.txt", b"\n");
    bench
}

/// Runs a command, stops it while it has a temporary file, does something to it and lets it go on; nothing if it was too fast.
fn interrupted(bench: &Bench, command: &mut Command, act: impl Fn(&Child)) -> Option<Output> {
    let child = command.spawn().expect("the command runs");
    while !has_temporary(bench) && !is_still(&child) {}
    send(&child, STOP);
    while !is_still(&child) {}
    let hit = has_temporary(bench);
    act(&child);
    send(&child, GO_ON);
    let output = child.wait_with_output().expect("the command ends");
    hit.then_some(output)
}

/// The same with a signal, until it was not too fast; between the attempts the file to write is removed.
fn surely_interrupted(bench: &Bench, mut command: impl FnMut() -> Command, signal: i32, out: &str) -> ExitStatus {
    for _ in 0..ATTEMPTS {
        match interrupted(bench, &mut command(), |child| send(child, signal)) {
            Some(output) => return output.status,
            None => fs::remove_file(bench.path(out)).expect("the file written"),
        }
    }
    panic!("the command was too fast each time");
}

#[test]
fn an_image_that_others_change_meanwhile_is_not_replaced() {
    let bench = bench();
    let others_write = |_: &Child| {
        let file = fs::OpenOptions::new().write(true).open(bench.path("long.scp")).expect("the image");
        std::os::unix::fs::FileExt::write_all_at(&file, b"other", 0).expect("a change");
    };
    let mut attempts = (0..ATTEMPTS).map(|_| {
        let mut command = bench.command("replay long.scp calls.txt --out long.scp --in-place");
        interrupted(&bench, &mut command, others_write)
    });
    let run = Run::of(attempts.find_map(|output| output).expect("the command is once not too fast"));
    assert_eq!((run.status, run.err.as_str()), (3, "fluxproof: long.scp: it was changed meanwhile, so it is not replaced\n"));
    assert!(bench.get("long.scp").starts_with(b"other") && !has_temporary(&bench));
}

#[test]
fn a_signal_leaves_no_temporary_file() {
    let bench = bench();
    let names = bench.names();
    for signal in SIGNALS {
        let command = || bench.command("replay long.scp calls.txt --out new.scp");
        let status = surely_interrupted(&bench, command, signal, "new.scp");
        assert_eq!((status.signal(), bench.names()), (Some(signal), names.clone()));
    }
}

#[test]
fn a_signal_leaves_the_old_file() {
    let bench = bench();
    for signal in SIGNALS {
        let command = || {
            bench.put("old.scp", b"precious");
            bench.command("replay long.scp calls.txt --out old.scp --force")
        };
        let status = surely_interrupted(&bench, command, signal, "old.scp");
        assert_eq!((status.signal(), bench.get("old.scp")), (Some(signal), b"precious".to_vec()));
        assert!(!has_temporary(&bench));
    }
}

#[test]
fn an_ignored_signal_stays_ignored() {
    let bench = bench();
    let command = || {
        let mut shell = Command::new("sh");
        let script = "trap '' HUP; exec \"$0\" replay long.scp calls.txt --out new.scp > said.txt";
        shell.args(["-c", script, env!("CARGO_BIN_EXE_fluxproof")]).current_dir(&bench.folder);
        shell
    };
    let status = surely_interrupted(&bench, command, SIGNALS[0], "new.scp");
    assert_eq!(status.code(), Some(0), "{status:?}");
    assert!(fs::metadata(bench.path("new.scp")).expect("the file").len() == LONG && !has_temporary(&bench));
}

#[test]
fn a_signal_while_the_words_are_awaited_ends_the_command() {
    let bench = bench();
    for signal in SIGNALS {
        let command = bench.command("patch a.scp a.scp 0 0 --duration 1 --words - --in-place --undo undo.txt").spawn();
        let mut child = command.expect("the command runs");
        let input = child.stdin.take();
        send(&child, signal);
        let status = child.wait().expect("the command ends");
        drop(input);
        assert_eq!((status.signal(), bench.get("a.scp")), (Some(signal), scp::example::image_a()));
        assert!(!has_temporary(&bench) && !bench.path("undo.txt").exists());
    }
}

#[test]
fn at_any_moment_an_image_and_its_undo_are_both_there_or_neither() {
    let bench = bench();
    bench.put("rewrite.txt", b"rewrite 0 0 8000000 0140 0000 0001 00F0\n");
    let lines = ["patch a.scp a.scp 0 0 --duration 8000000 --words words.bin", "replay a.scp rewrite.txt --out a.scp"];
    let start = Instant::now();
    for attempt in 0..200_u64 {
        bench.put("a.scp", &scp::example::image_a());
        let _ = fs::remove_file(bench.path("undo.txt"));
        let line = format!("{} --in-place --undo undo.txt", lines[attempt as usize % 2]);
        let mut child = bench.command(&line).spawn().expect("the command runs");
        let moment = Instant::now() + Duration::from_micros(attempt * 37 % 5000);
        while Instant::now() < moment {}
        send(&child, SIGNALS[attempt as usize % 5]);
        child.wait().expect("the command ends");
        let done = bench.path("undo.txt").exists();
        assert_eq!(bench.get("a.scp"), if done { patched_a() } else { scp::example::image_a() });
        assert!(!has_temporary(&bench));
        if start.elapsed() > Duration::from_millis(700) {
            break;
        }
    }
}
