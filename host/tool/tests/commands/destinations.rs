//! What the commands write, and what they never replace.

use std::fs;
use std::process::Child;

use scp::Edition;

use crate::bench::{image, patched_a, Bench, Revolution, Run};

/// The options of a DSK image of 512 bytes of data.
const MAKE: &str = "--tracks 1 --sectors 1";

/// The end of a patch of image A.
const TAIL: &str = "0 0 --duration 8000000 --words words.bin";

#[test]
fn an_existing_file_is_replaced_only_by_force() {
    let bench = Bench::with_words();
    bench.put("b.scp", b"precious");
    bench.fails(&format!("patch a.scp b.scp {TAIL}"), 3, "b.scp: it exists already; --force replaces it");
    assert_eq!(bench.get("b.scp"), b"precious");
    bench.passes(&format!("patch a.scp b.scp {TAIL} --force"));
    assert_eq!(bench.get("b.scp"), patched_a());
    fs::create_dir(bench.path("folder")).expect("a folder");
    bench.fails(&format!("patch a.scp folder {TAIL} --force"), 3, "folder: this is not a regular file");
    bench.fails(&format!("patch a.scp none/b.scp {TAIL}"), 3, "none/b.scp: cannot be written: No such file");
    bench.fails(&format!("patch a.scp - {TAIL}"), 2, "\"-\" names no file");
    bench.fails(&format!("patch a.scp . {TAIL} --force"), 2, "\".\" names no file");
}

#[cfg(unix)]
#[test]
fn a_failed_write_leaves_no_temporary_file() {
    let bench = Bench::with_words();
    bench.put("calls.txt", b"\n");
    let names = bench.names();
    // The temporary file can be made, but no file can have a name that ends like a folder's.
    for force in ["", "--force", "--undo undo.txt"] {
        for out in ["new.scp/", "a.scp/"] {
            bench.fails(&format!("patch a.scp {out} {TAIL} {force}"), 3, &format!("{out}: cannot be written: "));
            bench.fails(&format!("replay a.scp calls.txt --out {out} {force}"), 3, &format!("{out}: cannot be written: "));
        }
    }
    bench.fails("replay a.scp calls.txt --undo undo.txt/", 3, "undo.txt/: cannot be written: ");
    assert_eq!((bench.names(), bench.get("a.scp")), (names, scp::example::image_a()));
}

#[test]
fn the_image_is_replaced_only_in_place() {
    let bench = Bench::with_words();
    for force in ["", "--force"] {
        for out in ["a.scp", "./a.scp", "../{}/a.scp"] {
            let out = out.replace("{}", &bench.folder.file_name().expect("a name").to_string_lossy());
            bench.fails(&format!("patch a.scp {out} {TAIL} {force}"), 3, "this is the image itself; --in-place replaces it");
        }
    }
    bench.fails(&format!("patch a.scp b.scp {TAIL} --in-place"), 3, "--in-place is given, but this is not the image");
    bench.fails(&format!("patch a.scp words.bin {TAIL} --in-place"), 3, "--in-place is given, but this is not the image");
    bench.fails(&format!("patch a.scp a.scp {TAIL} --in-place --force"), 2, "--in-place and --force exclude each other");
    assert_eq!(bench.get("a.scp"), scp::example::image_a());
    let out = bench.passes(&format!("patch a.scp ./a.scp {TAIL} --in-place"));
    assert!(out.contains("checksum 980 -> 885"), "{out}");
    assert_eq!((bench.get("a.scp"), bench.names().len()), (patched_a(), 2));
}

#[cfg(unix)]
#[test]
fn links_do_not_hide_the_image() {
    let bench = Bench::with_words();
    std::os::unix::fs::symlink("a.scp", bench.path("soft.scp")).expect("a symbolic link");
    std::os::unix::fs::symlink("nowhere.scp", bench.path("broken.scp")).expect("a symbolic link");
    fs::hard_link(bench.path("a.scp"), bench.path("hard.scp")).expect("a hard link");
    for (file, out) in [("a.scp", "soft.scp"), ("soft.scp", "a.scp"), ("a.scp", "hard.scp"), ("hard.scp", "soft.scp")] {
        bench.fails(&format!("patch {file} {out} {TAIL} --force"), 3, "this is the image itself");
        bench.fails(&format!("plot {file} 0 0 {out} --force"), 3, "this is the image itself");
    }
    bench.fails(&format!("patch a.scp broken.scp {TAIL} --force"), 3, "broken.scp: this is a link that leads to no file");
    assert_eq!(bench.get("hard.scp"), scp::example::image_a());
    bench.passes(&format!("patch soft.scp soft.scp {TAIL} --in-place"));
    assert_eq!((bench.get("a.scp"), bench.get("hard.scp")), (patched_a(), scp::example::image_a()));
    assert!(fs::symlink_metadata(bench.path("soft.scp")).expect("the link").is_symlink());
}

#[cfg(unix)]
#[test]
fn no_file_that_is_read_is_replaced() {
    let bench = Bench::with_words();
    bench.put("times.txt", b"320\n65537\n240\n");
    bench.put("calls.txt", b"validate\n");
    bench.put("data.bin", &[7; 512]);
    let read = "the command reads this file, so it is not replaced";
    let names = bench.names();
    for (name, line) in [
        ("words.bin", "patch a.scp OUT 0 0 --duration keep --words words.bin"),
        ("times.txt", "patch a.scp OUT 0 0 --duration keep --times times.txt"),
        ("calls.txt", "replay a.scp calls.txt --out OUT"),
        ("data.bin", &format!("dsk make data.bin OUT {MAKE}")),
    ] {
        let before = bench.get(name);
        std::os::unix::fs::symlink(name, bench.path("soft")).expect("a symbolic link");
        fs::hard_link(bench.path(name), bench.path("hard")).expect("a hard link");
        for out in [name, "soft", "hard"] {
            for force in ["", " --force"] {
                bench.fails(&(line.replace("OUT", out) + force), 3, &format!("{out}: {read}"));
            }
        }
        for link in ["soft", "hard"] {
            fs::remove_file(bench.path(link)).expect("a link removed");
        }
        assert_eq!((bench.get(name), bench.names()), (before, names.clone()));
    }
}

#[cfg(unix)]
#[test]
fn a_file_that_is_standard_input_is_not_replaced() {
    let bench = Bench::with_words();
    bench.put("calls.txt", b"validate\n");
    bench.put("data.bin", &[7; 512]);
    for (name, line, message) in [
        ("data.bin", &*format!("dsk make - data.bin --force {MAKE}"), "the command reads this file"),
        ("words.bin", "patch a.scp words.bin 0 0 --duration keep --words - --force", "the command reads this file"),
        ("calls.txt", "replay a.scp - --out calls.txt --force", "the command reads this file"),
        ("a.scp", "plot - 0 0 a.scp --force", "this is the image itself"),
    ] {
        let before = bench.get(name);
        let input = fs::File::open(bench.path(name)).expect("a file to read");
        let run = Run::of(bench.command(line).stdin(input).output().expect("the command runs"));
        assert!(run.status == 3 && run.err.contains(message) && bench.get(name) == before, "{line}: {run:?}");
    }
}

#[test]
fn patches_in_place_at_once_are_all_made() {
    let bench = Bench::new();
    let revolutions: &[Revolution] = &[(1, &[5])];
    bench.put("t.scp", &image(0, &std::array::from_fn::<_, 8, _>(|track| (track as u8, revolutions))));
    bench.put("word.bin", &[0, 9]);
    let patches = (0..8).map(|track| format!("patch t.scp t.scp {track} 0 --duration {} --words word.bin --in-place", 100 + track));
    let children: Vec<Child> = patches.map(|line| bench.command(&line).spawn().expect("the command runs")).collect();
    for child in children {
        let run = Run::of(child.wait_with_output().expect("the command ends"));
        assert_eq!((run.status, run.err.as_str()), (0, ""), "{run:?}");
    }
    let patched = bench.get("t.scp");
    for track in 0..8 {
        assert_eq!(scp::revolution(&patched, Edition::V1_6, track, 0).map(|found| found.duration), Ok(100 + track));
    }
    assert_eq!(scp::validate(&patched, Edition::V1_6), Ok(()));
}

#[cfg(unix)]
mod rights {
    use std::io::Write;
    use std::os::fd::OwnedFd;
    use std::os::unix::fs::{chown, MetadataExt, PermissionsExt};
    use std::os::unix::net::UnixStream;
    use std::os::unix::process::CommandExt;

    use super::*;
    use crate::streams::shell;

    /// An owner and a group that no test runs as.
    const NOBODY: u32 = 65_534;

    /// What each command does to a file that it replaces.
    const LINES: [(&str, &str); 7] = [
        ("b", "patch a.scp b 0 0 --duration keep --words words.bin --force"),
        ("b", "replay a.scp calls.txt --out b --force"),
        ("b", "plot a.scp 0 0 b --force"),
        ("b", "dsk sector a.dsk 0 0 0 --data b --force"),
        ("b", "dsk make data.bin b --tracks 1 --sectors 1 --force"),
        ("a.scp", "patch a.scp a.scp 0 0 --duration 1 --words words.bin --in-place"),
        ("a.scp", "replay a.scp calls.txt --out a.scp --in-place"),
    ];

    /// A bench with all that the lines name.
    fn bench() -> Bench {
        let bench = Bench::with_words();
        bench.put("calls.txt", b"rewrite 0 0 1 -\n");
        bench.put("a.dsk", &dsk::example::image());
        bench.put("data.bin", &[7; 512]);
        bench.put("b", b"precious");
        bench.names().iter().for_each(|name| set_mode(&bench, name, 0o644));
        bench
    }

    /// Sets the mode of a file.
    fn set_mode(bench: &Bench, name: &str, mode: u32) {
        fs::set_permissions(bench.path(name), fs::Permissions::from_mode(mode)).expect("permissions set");
    }

    /// Owner, group and mode of a file.
    fn rights(bench: &Bench, name: &str) -> (u32, u32, u32) {
        let found = fs::metadata(bench.path(name)).expect("a file");
        (found.uid(), found.gid(), found.mode() & 0o7777)
    }

    /// Whether the tests run as the superuser, who may give files away.
    fn is_root(bench: &Bench) -> bool {
        rights(bench, "a.scp").0 == 0
    }

    #[test]
    fn a_new_file_has_the_mode_of_the_image() {
        let bench = bench();
        for (index, mode) in [0o600, 0o444, 0o640, 0o4755, 0o2755].into_iter().enumerate() {
            ["a.scp", "a.dsk", "data.bin"].iter().for_each(|name| set_mode(&bench, name, mode));
            bench.passes(&format!("patch a.scp p{index} 0 0 --duration keep --words words.bin --undo u{index}"));
            bench.passes(&format!("replay a.scp calls.txt --out r{index} --undo v{index}"));
            bench.passes(&format!("replay a.scp calls.txt --undo w{index}"));
            bench.passes(&format!("dsk sector a.dsk 0 0 0 --data s{index}"));
            bench.passes(&format!("dsk make data.bin m{index} {MAKE}"));
            for name in ["p", "u", "r", "v", "w", "s", "m"] {
                assert_eq!(rights(&bench, &format!("{name}{index}")).2, mode & 0o777, "{name}");
            }
        }
    }

    #[test]
    fn a_new_file_has_the_usual_mode_where_the_image_is_no_regular_file() {
        let bench = bench();
        set_mode(&bench, "a.dsk", 0o604);
        set_mode(&bench, "data.bin", 0o604);
        let script = "umask 027
            cat a.dsk | \"$0\" dsk sector - 0 0 0 --data piped && \"$0\" dsk sector - 0 0 0 --data regular < a.dsk || exit
            cat data.bin | \"$0\" dsk make - m --tracks 1 --sectors 1 && \"$0\" dsk make - n --tracks 1 --sectors 1 < data.bin || exit
            mkfifo pipe && { cat a.scp > pipe 2> /dev/null & } && \"$0\" patch pipe p 0 0 --duration keep --words words.bin --undo u";
        let run = shell(&bench, "sh", &[], script);
        assert_eq!((run.status, run.err.as_str()), (0, ""), "{run:?}");
        for (name, mode) in [("piped", 0o640), ("regular", 0o604), ("m", 0o640), ("n", 0o604), ("p", 0o640), ("u", 0o640)] {
            assert_eq!(rights(&bench, name).2, mode, "{name}");
        }
        let (input, mut far) = UnixStream::pair().expect("two sockets");
        far.write_all(&dsk::example::image()).expect("an image sent");
        drop(far);
        let run = Run::of(bench.command("dsk sector - 0 0 0 --data sent").stdin(OwnedFd::from(input)).output().expect("the command runs"));
        bench.put("plain", b"");
        assert_eq!((run.status, rights(&bench, "sent").2), (0, rights(&bench, "plain").2), "{run:?}");
    }

    #[test]
    fn a_replaced_file_keeps_its_rights() {
        for (name, line) in LINES {
            let bench = bench();
            let before = bench.get(name);
            set_mode(&bench, name, 0o646);
            if is_root(&bench) {
                chown(bench.path(name), Some(NOBODY), Some(NOBODY - 1)).expect("a file given away");
            }
            let kept = rights(&bench, name);
            bench.passes(line);
            assert!(bench.get(name) != before, "{line}");
            assert_eq!(rights(&bench, name), kept, "{line}");
        }
    }

    #[test]
    fn a_write_protected_file_is_not_replaced() {
        for (name, line) in LINES {
            let bench = bench();
            let (before, names) = (bench.get(name), bench.names());
            set_mode(&bench, name, 0o444);
            bench.fails(line, 3, &format!("{name}: it is write-protected, so it is not replaced"));
            assert_eq!((bench.get(name), bench.names(), rights(&bench, name).2), (before, names, 0o444));
        }
    }

    #[test]
    fn a_folder_that_may_not_be_written_gets_nothing() {
        let bench = bench();
        fs::create_dir(bench.path("closed")).expect("a folder");
        set_mode(&bench, "closed", 0o555);
        for line in ["dsk sector a.dsk 0 0 0 --data closed/new", "dsk make data.bin closed/new --tracks 1 --sectors 1"] {
            let mut command = bench.command(line);
            if is_root(&bench) {
                command.uid(NOBODY).gid(NOBODY);
            }
            let Ok(done) = command.output() else { return }; // The folder of the command is closed to others.
            let run = Run::of(done);
            assert!(run.status == 3 && run.err.contains("closed/new: cannot be written: Permission denied"), "{line}: {run:?}");
            assert_eq!(fs::read_dir(bench.path("closed")).expect("the folder").count(), 0, "{line}");
        }
    }

    #[test]
    fn others_files_are_not_replaced() {
        for (name, line) in LINES {
            let bench = bench();
            if !is_root(&bench) {
                return;
            }
            let (before, names) = (bench.get(name), bench.names());
            fs::set_permissions(&bench.folder, fs::Permissions::from_mode(0o777)).expect("permissions set");
            // The first may not be written; the second may be, but its owner cannot be kept.
            for (mode, message) in [(0o644, "it may not be written, so it is not replaced"), (0o666, "its owner and group cannot be kept")]
            {
                set_mode(&bench, name, mode);
                let ended = bench.command(line).uid(NOBODY).gid(NOBODY).output();
                let Ok(done) = ended else { return }; // The folder of the command is closed to others.
                let run = Run::of(done);
                assert!(run.status == 3 && run.err.contains(message), "{line}: {run:?}");
                assert_eq!((bench.get(name), bench.names(), rights(&bench, name)), (before.clone(), names.clone(), (0, 0, mode)));
            }
        }
    }
}
