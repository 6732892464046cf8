//! Says what `fluxproof --version` names: the commit, and the toolchain and logic that proved the library.

use std::process::Command;

/// What the tool and its verdicts are made of, from the tool's folder.
const SOURCES: [&str; 15] = [
    "build.rs",
    "src",
    "Cargo.toml",
    "../Cargo.toml",
    "../Cargo.lock",
    "../archive/src",
    "../archive/Cargo.toml",
    "../scp/build.rs",
    "../scp/src",
    "../scp/Cargo.toml",
    "../dsk/build.rs",
    "../dsk/src",
    "../dsk/Cargo.toml",
    "../../crates",
    "../../crates.txt",
];

fn main() {
    for source in SOURCES {
        println!("cargo:rerun-if-changed={source}");
    }
    let log = git(&["rev-parse", "--git-path", "logs/HEAD"]);
    println!("cargo:rerun-if-changed={}", log.as_deref().unwrap_or("build.rs"));
    println!("cargo:rustc-env=FLUXPROOF_COMMIT={}", commit());
    let (scp, dsk) = (identity("SCP_C"), identity("DSK_C"));
    println!("cargo:rustc-env=FLUXPROOF_TOOLCHAIN={}", both(&scp.0, &dsk.0));
    println!("cargo:rustc-env=FLUXPROOF_LOGIC={}", both(&scp.1, &dsk.1));
}

/// The toolchain and the logic that proved an archive, as the build of its wrapper says them: "NAME logic SUM", as `rt version` prints it.
fn identity(archive: &str) -> (String, String) {
    let identity = std::env::var(format!("DEP_{archive}_TOOLCHAIN")).unwrap_or("unknown".to_string());
    let (toolchain, logic) = identity.split_once(" logic ").unwrap_or((&identity, "unknown"));
    (toolchain.to_string(), logic.to_string())
}

/// What is said of both archives where it is the same, else of each.
fn both(scp: &str, dsk: &str) -> String {
    if scp == dsk {
        scp.to_string()
    } else {
        format!("{scp} (SCP), {dsk} (DSK)")
    }
}

/// The commit that is checked out, if these are its files, and whether the sources differ from it.
fn commit() -> String {
    let commit = git(&["ls-files", "--error-unmatch", "build.rs"]).and_then(|_| git(&["rev-parse", "HEAD"]));
    let Some(commit) = commit else { return "unknown".to_string() };
    let arguments = ["status", "--porcelain", "--"];
    match git(&[&arguments[..], &SOURCES].concat()) {
        Some(changes) if changes.is_empty() => commit,
        _ => format!("{commit}, with changes"),
    }
}

/// What git says, without the line's end; nothing where it fails.
fn git(arguments: &[&str]) -> Option<String> {
    let done = Command::new("git").args(arguments).output().ok().filter(|done| done.status.success())?;
    Some(String::from_utf8_lossy(&done.stdout).trim().to_string())
}
