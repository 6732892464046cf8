//! For the build script of a wrapper: finds an archive of the proved library, or has `rt lib` build it.
//!
//! `SCP_ARCHIVE_DIR` names a folder that holds built archives, such as `libscp_c.a`; then nothing is built. A package that depends on the
//! wrapper gets the identity of the toolchain that proved its archive, such as `DEP_SCP_C_TOOLCHAIN`.
#![forbid(unsafe_code)]
#![warn(missing_docs)]

use std::collections::{BTreeSet, HashMap};
use std::fs::File;
use std::io;
use std::path::{Path, PathBuf};
use std::process::{exit, Command};
use std::time::SystemTime;

/// Links the wrapper with the archive of a crate, such as `scp_c`.
pub fn link(crate_name: &str) {
    println!("cargo:rerun-if-env-changed=SCP_ARCHIVE_DIR");
    let archive = Archive { crate_name };
    match std::env::var_os("SCP_ARCHIVE_DIR") {
        Some(folder) => archive.link_named(Path::new(&folder)),
        None => archive.link_built(),
    }
}

/// An archive, by its crate.
struct Archive<'a> {
    crate_name: &'a str,
}

impl Archive<'_> {
    /// The name of its file.
    fn file(&self) -> String {
        format!("lib{}.a", self.crate_name)
    }

    /// Beside it: the identity of the toolchain that built it, as `rt version` prints it.
    fn identity_file(&self) -> String {
        format!("lib{}.toolchain", self.crate_name)
    }

    /// The identity beside the archive in a folder; nothing where the archive is newer, for another toolchain may have renewed it.
    fn identity(&self, folder: &Path) -> Option<String> {
        let identity = folder.join(self.identity_file());
        if changed(&identity) < changed(&folder.join(self.file())) {
            return None;
        }
        Some(std::fs::read_to_string(identity).ok()?.trim().to_string())
    }

    /// Links the one in the folder that the variable names, which may be renewed at any time.
    fn link_named(&self, folder: &Path) {
        println!("cargo:rerun-if-changed={}", folder.join(self.file()).display());
        println!("cargo:rerun-if-changed={}", folder.join(self.identity_file()).display());
        let toolchain = self.identity(folder).unwrap_or("unknown (nothing as new as the archive of SCP_ARCHIVE_DIR says it)".to_string());
        self.link_copy(folder, &toolchain);
    }

    /// Links the one that `rt` builds: as it is where this `rt` built it of these sources, else renewed.
    fn link_built(&self) {
        let manifest = std::env::var("CARGO_MANIFEST_DIR").expect("cargo names the package's folder");
        let root = Path::new(&manifest).join("../..");
        let sources = self.sources(&root);
        for source in &sources {
            println!("cargo:rerun-if-changed={}", source.display());
        }
        let _turn = turn(&root);
        let crate_folder = root.join("crates").join(self.crate_name);
        let folder = crate_folder.join("out");
        let toolchain = self.rt(&root, &["version"]).trim().to_string();
        if !self.is_built(&folder, &sources, &toolchain) {
            let start = SystemTime::now();
            self.rt(&crate_folder, &["lib"]);
            if let Err(error) = self.mark(&folder, start, &toolchain) {
                fail(&format!("{} in {} cannot be marked: {error}", self.file(), folder.display()));
            }
        }
        self.link_copy(&folder, &toolchain);
    }

    /// Whether the archive in a folder is there, built by this toolchain of these sources.
    fn is_built(&self, folder: &Path, sources: &[PathBuf], toolchain: &str) -> bool {
        let built = changed(&folder.join(self.file()));
        let same = self.identity(folder).is_some_and(|builder| builder == toolchain);
        built.is_some() && same && sources.iter().all(|source| newest(source) <= built)
    }

    /// Says of an archive when its build started, as its own time, so that a source changed since is newer; and beside it who built it.
    fn mark(&self, folder: &Path, start: SystemTime, toolchain: &str) -> io::Result<()> {
        File::options().append(true).open(folder.join(self.file()))?.set_modified(start)?;
        std::fs::write(folder.join(self.identity_file()), toolchain)
    }

    /// Links a copy, since `rt` may renew it meanwhile.
    fn link_copy(&self, folder: &Path, toolchain: &str) {
        println!("cargo:toolchain={toolchain}");
        let out = PathBuf::from(std::env::var_os("OUT_DIR").expect("cargo names the folder for what is built"));
        let archive = folder.join(self.file());
        if let Err(error) = std::fs::copy(&archive, out.join(self.file())) {
            fail(&format!("the archive {} cannot be read: {error}", archive.display()));
        }
        println!("cargo:rustc-link-search=native={}", out.display());
        println!("cargo:rustc-link-lib=static={}", self.crate_name);
    }

    /// What it is made of: the list of the crates, and the parts of its own and of those below it.
    fn sources(&self, root: &Path) -> Vec<PathBuf> {
        let list = root.join("crates.txt");
        let crates = self.crates(&std::fs::read_to_string(&list).unwrap_or_default());
        let mut sources = vec![list];
        for crate_name in crates {
            sources.extend(["src", "specs", "proofs"].map(|part| root.join("crates").join(&crate_name).join(part)));
        }
        // A crate need not have all parts, and cargo takes a source that is not there for changed.
        sources.retain(|source| source.exists());
        sources
    }

    /// The crates below it, at any remove, and its own: a line of the list is `NAME: DEP DEP ..` or `NAME staticlib: DEP ..`.
    fn crates(&self, list: &str) -> Vec<String> {
        let lines = list.lines().filter_map(|line| line.split('#').next()?.split_once(':'));
        let uses: HashMap<_, _> = lines.filter_map(|(head, names)| Some((head.split_whitespace().next()?, names))).collect();
        let (mut found, mut left) = (BTreeSet::from([self.crate_name]), vec![self.crate_name]);
        while let Some(name) = left.pop() {
            let below = uses.get(name).into_iter().flat_map(|names| names.split_whitespace());
            left.extend(below.filter(|name| found.insert(*name)));
        }
        found.into_iter().map(str::to_string).collect()
    }

    /// What a command of the toolchain prints that runs in a folder.
    fn rt(&self, folder: &Path, words: &[&str]) -> String {
        match Command::new("rt").args(words).current_dir(folder).output() {
            Ok(done) if done.status.success() => String::from_utf8_lossy(&done.stdout).into_owned(),
            Ok(done) => fail(&format!(
                "`rt {}` failed ({}):\n{}{}",
                words.join(" "),
                done.status,
                String::from_utf8_lossy(&done.stdout),
                String::from_utf8_lossy(&done.stderr)
            )),
            Err(error) => fail(&format!(
                "the command `rt` of the Rattle toolchain cannot be run ({error}). It proves and builds the library: put it on the \
                 PATH, or name the folder of a built {} by SCP_ARCHIVE_DIR",
                self.file()
            )),
        }
    }
}

/// Waits until no other build script has its turn: cargo runs those of two wrappers side by side, and `rt` proves the crates that both
/// archives have. The turn ends where the file is dropped. Where no lock is to be had, as on
/// some file systems, it says so and goes on.
fn turn(root: &Path) -> Option<File> {
    let locked = File::open(root.join("crates.txt")).and_then(|list| list.lock().map(|()| list));
    if let Err(error) = &locked {
        println!("cargo:warning=crates.txt cannot be locked ({error}): nothing else may run `rt lib` meanwhile");
    }
    locked.ok()
}

/// When a file was last changed; nothing where there is none.
fn changed(file: &Path) -> Option<SystemTime> {
    std::fs::metadata(file).and_then(|found| found.modified()).ok()
}

/// When a file, or a folder or the newest file or folder in it, was changed. A folder is changed where something in it comes or goes.
fn newest(path: &Path) -> Option<SystemTime> {
    let entries = std::fs::read_dir(path).into_iter().flatten().flatten();
    entries.map(|entry| newest(&entry.path())).chain([changed(path)]).max().flatten()
}

/// Says what is wrong with the build of the wrapper, and ends it.
fn fail(message: &str) -> ! {
    eprintln!("{}: {message}", std::env::var("CARGO_PKG_NAME").expect("cargo names the package"));
    exit(1)
}

#[cfg(test)]
mod tests {
    use super::{newest, Archive};
    use std::fs::{create_dir_all, remove_dir_all, remove_file, write, File};
    use std::path::{Path, PathBuf};
    use std::time::{Duration, SystemTime};

    const LIST: &str =
        "# NAME: the crates it depends on\nflux:\nscp: flux\nscp_c staticlib: flux scp # both\nscp_all staticlib: scp\ndsk_c: dsk";

    #[test]
    fn an_archive_is_made_of_the_crates_below_and_its_own() {
        let crates = |crate_name| Archive { crate_name }.crates(LIST);
        assert_eq!(crates("scp_c"), ["flux", "scp", "scp_c"]);
        assert_eq!(crates("dsk_c"), ["dsk", "dsk_c"]);
        assert_eq!(crates("scp"), ["flux", "scp"]);
        assert_eq!(crates("dsk"), ["dsk"]); // not listed
    }

    #[test]
    fn what_a_crate_below_stands_on_is_below_too() {
        assert_eq!(Archive { crate_name: "scp_all" }.crates(LIST), ["flux", "scp", "scp_all"]);
    }

    #[test]
    fn files_bear_the_name_of_the_crate() {
        let archive = Archive { crate_name: "scp_c" };
        assert_eq!((archive.file(), archive.identity_file()), ("libscp_c.a".to_string(), "libscp_c.toolchain".to_string()));
    }

    const ARCHIVE: Archive = Archive { crate_name: "scp_c" };

    /// A folder with one source, in two folders: changed at 1, and they at 2. It goes where it is dropped.
    struct Built(PathBuf);

    impl Drop for Built {
        fn drop(&mut self) {
            let _ = remove_dir_all(&self.0);
        }
    }

    /// So many seconds after some time.
    fn time(seconds: u64) -> SystemTime {
        SystemTime::UNIX_EPOCH + Duration::from_secs(1_000_000_000 + seconds)
    }

    fn set_time(path: &Path, seconds: u64) {
        File::open(path).unwrap().set_modified(time(seconds)).unwrap();
    }

    impl Built {
        fn new(name: &str) -> Built {
            let built = Built(std::env::temp_dir().join(format!("archive-{}-{name}", std::process::id())));
            create_dir_all(built.source().parent().unwrap()).unwrap();
            write(built.source(), "").unwrap();
            set_time(&built.source(), 1);
            set_time(&built.0.join("src/part"), 2);
            set_time(&built.0.join("src"), 2);
            built
        }

        fn source(&self) -> PathBuf {
            self.0.join("src/part/source")
        }

        /// Has the archive built by one toolchain, started at 3 and written at 5.
        fn build(&self) {
            write(self.0.join(ARCHIVE.file()), "").unwrap();
            set_time(&self.0.join(ARCHIVE.file()), 5);
            ARCHIVE.mark(&self.0, time(3), "one").unwrap();
        }

        fn is_built_by(&self, toolchain: &str) -> bool {
            ARCHIVE.is_built(&self.0, &[self.0.join("src")], toolchain)
        }
    }

    #[test]
    fn an_archive_of_these_sources_by_this_toolchain_is_kept() {
        let built = Built::new("kept");
        assert!(!built.is_built_by("one"));
        built.build();
        assert!(built.is_built_by("one") && !built.is_built_by("other"));
        remove_file(built.0.join(ARCHIVE.file())).unwrap();
        assert!(!built.is_built_by("one"));
    }

    #[test]
    fn a_source_that_changes_while_the_archive_is_built_is_newer() {
        let built = Built::new("meanwhile");
        set_time(&built.source(), 4);
        built.build();
        assert!(!built.is_built_by("one"));
        set_time(&built.source(), 3);
        assert!(built.is_built_by("one"));
    }

    #[test]
    fn a_source_that_goes_is_noticed() {
        let built = Built::new("gone");
        built.build();
        assert_eq!(newest(&built.0.join("src")), Some(time(2)));
        remove_file(built.source()).unwrap();
        assert!(!built.is_built_by("one"));
    }

    #[test]
    fn an_identity_older_than_its_archive_is_not_trusted() {
        let built = Built::new("older");
        built.build();
        assert_eq!(ARCHIVE.identity(&built.0).as_deref(), Some("one"));
        set_time(&built.0.join(ARCHIVE.identity_file()), 2);
        assert_eq!(ARCHIVE.identity(&built.0), None);
        assert!(!built.is_built_by("one"));
    }
}
