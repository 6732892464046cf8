//! A temporary folder with images, and runs of the command in it.

use std::fs;
use std::io::Write;
use std::path::PathBuf;
use std::process::{Command, Output, Stdio};
use std::sync::atomic::{AtomicU32, Ordering};

use scp::Edition;

/// A folder that is removed at the end.
pub struct Bench {
    pub folder: PathBuf,
}

/// What a run gave.
#[derive(Debug)]
pub struct Run {
    pub status: i32,
    pub out: String,
    pub err: String,
}

impl Run {
    /// What an ended process gave.
    pub fn of(done: Output) -> Run {
        let text = |bytes| String::from_utf8(bytes).expect("UTF-8");
        Run { status: done.status.code().expect("an exit status"), out: text(done.stdout), err: text(done.stderr) }
    }
}

/// Folders made so far by this process.
static FOLDERS: AtomicU32 = AtomicU32::new(0);

impl Bench {
    /// A new folder with image A as a.scp.
    pub fn new() -> Bench {
        let number = FOLDERS.fetch_add(1, Ordering::Relaxed);
        let folder = std::env::temp_dir().join(format!("fluxproof-test-{}-{number}", std::process::id()));
        fs::create_dir_all(&folder).expect("a temporary folder");
        let bench = Bench { folder };
        bench.put("a.scp", &scp::example::image_a());
        bench
    }

    /// The same, with the new words of the example as words.bin.
    pub fn with_words() -> Bench {
        let bench = Bench::new();
        bench.put("words.bin", &NEW_WORDS);
        bench
    }

    /// The same, with the example of a DSK image as a.dsk.
    pub fn with_disk() -> Bench {
        let bench = Bench::new();
        bench.put("a.dsk", &dsk::example::image());
        bench
    }

    /// The path of a file.
    pub fn path(&self, name: &str) -> PathBuf {
        self.folder.join(name)
    }

    /// Writes a file.
    pub fn put(&self, name: &str, bytes: &[u8]) {
        fs::write(self.path(name), bytes).expect("a file written");
    }

    /// Reads a file.
    pub fn get(&self, name: &str) -> Vec<u8> {
        fs::read(self.path(name)).expect("a file to read")
    }

    /// The names of all files, in order.
    pub fn names(&self) -> Vec<String> {
        let entries = fs::read_dir(&self.folder).expect("the folder");
        let mut names: Vec<String> = entries.map(|entry| entry.expect("an entry").file_name().to_string_lossy().into_owned()).collect();
        names.sort();
        names
    }

    /// Runs the command with the words of a line.
    pub fn run(&self, line: &str) -> Run {
        self.run_with(line, &[])
    }

    /// The command with the words of a line, ready to run in the folder.
    pub fn command(&self, line: &str) -> Command {
        let mut command = Command::new(env!("CARGO_BIN_EXE_fluxproof"));
        command.args(line.split_whitespace()).current_dir(&self.folder);
        command.stdin(Stdio::piped()).stdout(Stdio::piped()).stderr(Stdio::piped());
        command
    }

    /// Runs the command with the words of a line and some standard input.
    pub fn run_with(&self, line: &str, input: &[u8]) -> Run {
        let mut child = self.command(line).spawn().expect("the command runs");
        // A command that does not read its input closes it.
        let _ = child.stdin.take().expect("standard input").write_all(input);
        Run::of(child.wait_with_output().expect("the command ends"))
    }

    /// Runs the command and expects it to fail with a status, nothing on standard output and a message that holds a part.
    pub fn fails(&self, line: &str, status: i32, part: &str) {
        let run = self.run(line);
        assert_eq!((run.status, run.out.as_str()), (status, ""), "{line}: {run:?}");
        assert!(run.err.starts_with("fluxproof: ") && run.err.contains(part) && run.err.lines().count() == 1, "{line}: {run:?}");
    }

    /// Runs the command and expects it to succeed silently on standard error; gives its output.
    pub fn passes(&self, line: &str) -> String {
        self.says(line, 0)
    }

    /// Runs the command and expects it to say a refusal on standard output; gives that.
    pub fn refuses(&self, line: &str) -> String {
        self.says(line, 1)
    }

    /// Runs the command and expects a status, and nothing on standard error; gives its output.
    fn says(&self, line: &str, status: i32) -> String {
        let run = self.run(line);
        assert_eq!((run.status, run.err.as_str()), (status, ""), "{line}: {run:?}");
        run.out
    }
}

impl Drop for Bench {
    fn drop(&mut self) {
        let _ = fs::remove_dir_all(&self.folder);
    }
}

/// The new words of the example: 320, 65,537 and 240 ticks.
pub const NEW_WORDS: [u8; 8] = [0x01, 0x40, 0x00, 0x00, 0x00, 0x01, 0x00, 0xF0];

/// What is said of a shorter revolution.
pub const SHORTER: &str =
    "the revolution is shorter now, and this tool cannot make it longer again (a rewrite has at most as many words as are there)";

/// Image A rewritten by the example: 885 is stored.
pub fn patched_a() -> Vec<u8> {
    let mut image = scp::example::image_a();
    image[0x0C..0x0E].copy_from_slice(&885_u16.to_le_bytes());
    image[704..].copy_from_slice(&NEW_WORDS);
    image
}

/// Image A with 981 stored.
pub fn damaged_a() -> Vec<u8> {
    let mut image = scp::example::image_a();
    image[0x0C] += 1;
    image
}

/// A revolution: its duration and words.
pub type Revolution<'a> = (u32, &'a [u16]);

/// An image of revision 1.6 of tracks with their revolutions, all as many; it stores its sum.
pub fn image(flags: u8, tracks: &[(u8, &[Revolution])]) -> Vec<u8> {
    image_by(Edition::V1_6, flags, tracks)
}

/// The same by an edition: the tracks start where its table ends.
pub fn image_by(edition: Edition, flags: u8, tracks: &[(u8, &[Revolution])]) -> Vec<u8> {
    let mut image = vec![0; edition.table_end()];
    let number = |index: usize| tracks.get(index).map_or(0, |track| track.0);
    let count = tracks.first().map_or(1, |track| track.1.len());
    image[..3].copy_from_slice(b"SCP");
    image[5..9].copy_from_slice(&[count as u8, number(0), number(tracks.len().max(1) - 1), flags]);
    for (track, revolutions) in tracks {
        let (start, entry) = (image.len(), 16 + 4 * usize::from(*track));
        image[entry..entry + 4].copy_from_slice(&(start as u32).to_le_bytes());
        image.extend([b'T', b'R', b'K', *track]);
        let mut distance = 4 + 12 * count;
        for (duration, words) in *revolutions {
            let numbers = [*duration, words.len() as u32, distance as u32];
            image.extend(numbers.iter().flat_map(|number| number.to_le_bytes()));
            distance += 2 * words.len();
        }
        image.extend(revolutions.iter().flat_map(|(_, words)| words.iter()).flat_map(|word| word.to_be_bytes()));
    }
    store_sum(&mut image);
    image
}

/// The image with a footer of six strings, of which empty ones are absent, two times and versions 1.1 to 1.6.
pub fn with_footer(mut image: Vec<u8>, strings: [&[u8]; 6], created: i64, modified: i64) -> Vec<u8> {
    image[8] |= 0x20;
    let mut offsets = Vec::new();
    for string in strings {
        let offset = if string.is_empty() { 0 } else { image.len() as u32 };
        offsets.extend(offset.to_le_bytes());
        if offset != 0 {
            image.extend((string.len() as u16).to_le_bytes());
            image.extend(string);
            image.push(0);
        }
    }
    image.extend(offsets);
    image.extend(created.to_le_bytes());
    image.extend(modified.to_le_bytes());
    image.extend(b"\x11\x12\x13\x16FPCS");
    store_sum(&mut image);
    image
}

/// An image with a change: the bytes from an offset on. It stores its sum.
pub fn changed(mut image: Vec<u8>, offset: usize, bytes: &[u8]) -> Vec<u8> {
    image[offset..offset + bytes.len()].copy_from_slice(bytes);
    store_sum(&mut image);
    image
}

/// Stores the true sum, or 0 in a read/write image.
pub fn store_sum(image: &mut [u8]) {
    let sum: u32 = image[16..].iter().map(|&byte| u32::from(byte)).sum();
    let stored = if image[8] & 0x10 == 0 { sum } else { 0 };
    image[12..16].copy_from_slice(&stored.to_le_bytes());
}
