//! The texts of calls that take rewrites back.

use std::collections::{BTreeMap, TryReserveError};

use scp::Edition;

use crate::arguments::Arguments;
use crate::failure::Failure;
use crate::files::{shown, Input, GREATEST};
use crate::numbers::counted;

/// A rewrite of a revolution: what it was before and what it is now.
pub struct Change {
    /// The edition that the image is read by.
    pub edition: Edition,
    /// The track.
    pub track: u32,
    /// The revolution of the track.
    pub revolution: u32,
    /// The duration in ticks, before and now.
    pub duration: (u32, u32),
    /// How many words there are, before and now.
    pub words: (usize, usize),
}

/// Where the former words of a revolution are once its image is written again.
pub fn kept(arguments: &Arguments, input: &Input) -> String {
    match arguments.value("--undo") {
        Some(undo) => format!("are in {}", shown(undo)),
        None if arguments.has("--in-place") || !input.is_regular() => "were not kept".to_string(),
        None => format!("are still in {}", input.name),
    }
}

impl Change {
    /// What is said where words are lost for good.
    pub const SHORTER: &str =
        "the revolution is shorter now, and this tool cannot make it longer again (a rewrite has at most as many words as are there)";

    /// Whether the revolution has fewer words now.
    pub fn is_shorter(&self) -> bool {
        self.words.1 < self.words.0
    }

    /// Writes the call that takes a patch back, after comments that say so, and after its edition.
    pub fn undo(&self, former: &[u8], from: &str, to: &str, text: &mut Text) -> Result<(), Failure> {
        let (place, numbers) = (self.place(), self.numbers());
        text.add(&format!("# takes back \"fluxproof patch\": {place} of {from}, rewritten in {to}, {numbers}\n"))?;
        self.put_back(former, self.words.1, None, text)
    }

    /// The revolution, as a comment names it.
    fn place(&self) -> String {
        format!("track {} revolution {}", self.track, self.revolution)
    }

    /// What changed, as a comment says it.
    fn numbers(&self) -> String {
        let Change { duration, words, .. } = self;
        format!("duration {} -> {}, words {} -> {}", duration.0, duration.1, words.0, words.1)
    }

    /// Writes the call that puts the former duration and words back into a revolution of so many words, after its edition where another one
    /// is in force, or none yet. Where these are too few, a comment before it says that it will be refused.
    fn put_back(&self, former: &[u8], left: usize, in_force: Option<Edition>, text: &mut Text) -> Result<(), Failure> {
        let Change { edition, track, revolution, duration, .. } = self;
        if self.words.0 > left {
            let why = if self.is_shorter() { Change::SHORTER } else { "a later rewrite makes the revolution shorter" };
            text.add(&format!("# {why}; its former words are kept here, but replay refuses to put them back\n"))?;
        }
        if in_force != Some(*edition) {
            text.add(&format!("edition {edition}\n"))?;
        }
        text.add(&format!("rewrite {track} {revolution} {}", duration.0))?;
        text.add_words(former)
    }
}

/// What takes a sequence of rewrites back.
pub struct Undo {
    /// The name of its file, to be shown.
    name: String,
    /// The rewrites in order, each with its line in the file of calls.
    changes: Vec<(usize, Change)>,
    /// The words that were there before each, one after the other.
    former: Vec<u8>,
}

impl Undo {
    /// What is said at the head where some rewrite cannot be taken back.
    const NOT_WHOLE: &str =
        "# it cannot be taken back as a whole: replay refuses to make a revolution longer that is shorter now, and then writes nothing\n";

    /// Nothing to take back yet.
    pub fn new(name: String) -> Undo {
        Undo { name, changes: Vec::new(), former: Vec::new() }
    }

    /// Takes a rewrite down, with the words that were there before it.
    pub fn add(&mut self, line: usize, change: Change, former: &[u8]) -> Result<(), Failure> {
        let room = self.former.try_reserve(former.len()).and_then(|()| self.changes.try_reserve(1));
        room.map_err(|error| no_room(&self.name, error))?;
        self.former.extend_from_slice(former);
        self.changes.push((line, change));
        Ok(())
    }

    /// Writes the calls that take the sequence back, the last rewrite first, after comments that say so, and of what.
    pub fn write(&self, what: &str, text: &mut Text) -> Result<(), Failure> {
        text.add(&self.heading(what))?;
        let (mut former, mut in_force) = (&self.former[..], None);
        // How many words each revolution has at the end: no rewrite makes it longer, so one that got shorter keeps to these.
        let mut left = BTreeMap::new();
        for (line, change) in self.changes.iter().rev() {
            let (before, words) = former.split_at(former.len() - 2 * change.words.0);
            let left = *left.entry((change.track, change.revolution)).or_insert(change.words.1);
            text.add(&format!("# line {line}: {}, {}\n", change.place(), change.numbers()))?;
            change.put_back(words, left, in_force, text)?;
            (former, in_force) = (before, Some(change.edition));
        }
        Ok(())
    }

    /// The comments at the head: how many rewrites there are, and whether all can be taken back.
    fn heading(&self, what: &str) -> String {
        let (count, end) = match self.changes.len() as u64 {
            0 => ("no rewrite".to_string(), ", so there is nothing to take back"),
            count => (counted(count, "rewrite"), ""),
        };
        let is_shorter = self.changes.iter().any(|(_, change)| change.is_shorter());
        format!("# takes back \"fluxproof replay\": {count} {what}{end}\n{}", if is_shorter { Undo::NOT_WHOLE } else { "" })
    }
}

/// A text for replay, no longer than that reads, and only as long as there is memory for it.
pub struct Text {
    /// The name of its file, to be shown.
    name: String,
    /// What is written so far.
    pub bytes: Vec<u8>,
}

impl Text {
    /// An empty text.
    pub fn new(name: String) -> Text {
        Text { name, bytes: Vec::new() }
    }

    /// Makes room for more.
    fn grow(&mut self, more: usize) -> Result<(), Failure> {
        if (self.bytes.len() + more) as u64 > GREATEST {
            let message = "it would be longer than the 268,435,456 bytes that replay reads, so nothing is written";
            return Err(Failure::file(format!("{}: {message}", self.name)));
        }
        self.bytes.try_reserve(more).map_err(|error| no_room(&self.name, error))
    }

    /// Adds a part.
    fn add(&mut self, part: &str) -> Result<(), Failure> {
        self.grow(part.len())?;
        self.bytes.extend_from_slice(part.as_bytes());
        Ok(())
    }

    /// Adds words in hexadecimal digits, a dash where there are none, and ends the line.
    fn add_words(&mut self, words: &[u8]) -> Result<(), Failure> {
        self.grow(words.len() / 2 * " 0000".len())?;
        let digit = |number: u8| b"0123456789ABCDEF"[usize::from(number)];
        for word in words.chunks_exact(2) {
            self.bytes.push(b' ');
            self.bytes.extend(word.iter().flat_map(|byte| [digit(byte >> 4), digit(byte & 15)]));
        }
        self.add(if words.is_empty() { " -\n" } else { "\n" })
    }
}

/// The failure to have memory for what a file is to hold.
fn no_room(name: &str, error: TryReserveError) -> Failure {
    Failure::file(format!("{name}: {error}"))
}

#[cfg(test)]
mod tests {
    use super::*;
    use crate::failure::Status;

    #[test]
    fn a_text_is_no_longer_than_replay_reads() {
        let mut text = Text { name: "u.txt".to_string(), bytes: vec![0; GREATEST as usize - 6] };
        let is_too_long =
            |ended| matches!(ended, Err(Failure::Told(Status::File, message)) if message.starts_with("u.txt: it would be longer"));
        assert!(is_too_long(text.add_words(&[0x12, 0xAF, 0, 1])));
        assert!(text.add_words(&[0x12, 0xAF]).is_ok() && text.bytes.ends_with(b"\0 12AF\n"));
        assert!(text.bytes.len() as u64 == GREATEST && text.add("").is_ok() && is_too_long(text.add("#")));
    }
}
