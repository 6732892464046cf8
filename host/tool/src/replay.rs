//! `fluxproof replay`: a sequence of calls on an image, run by the library in one go.

use std::collections::BTreeSet;
use std::io::{self, Write};

use scp::{Answer, Call, Edition, Refusal};

use crate::arguments::{Arguments, Command};
use crate::checksum::{say_change, Checksum};
use crate::editions;
use crate::failure::{Failure, Status};
use crate::files::{shown, Input};
use crate::layout::Layout;
use crate::numbers::number;
use crate::reasons::{self, Asked};
use crate::results::Results;
use crate::undo::{kept, Change, Undo};

/// The command.
pub const COMMAND: Command = Command {
    name: "replay",
    flags: &["--force", "--in-place"],
    values: &["--edition", "--out", "--undo"],
    help: include_str!("help/replay.txt"),
    run,
};

/// A line of a file of calls.
enum Line {
    /// The edition of the calls after it.
    Edition(Edition),
    /// A call, by the edition named last.
    Call(Edition, Call),
}

impl Line {
    /// The call and its edition, if it is one.
    fn call(&self) -> Option<(Edition, &Call)> {
        match self {
            Line::Edition(_) => None,
            Line::Call(edition, call) => Some((*edition, call)),
        }
    }
}

/// What became of the calls.
#[derive(Default)]
struct Outcome {
    /// Whether some call is refused.
    refused: bool,
    /// Whether some rewrite is.
    unmade: bool,
    /// The revolutions that were rewritten, by their track and number.
    rewritten: BTreeSet<(u32, u32)>,
    /// The lines of the rewrites that made their revolution shorter, and whether no line before had rewritten it.
    shorter: Vec<(usize, bool)>,
    /// What takes the rewrites back, where that is asked for.
    undo: Option<Undo>,
}

/// Runs all calls on the image in memory, prints their answers, and writes the image and what takes the calls back where that is asked for.
fn run(arguments: &Arguments, out: &mut dyn Write) -> Result<(), Failure> {
    let [file, calls] = arguments.operands(["FILE", "CALLS"])?;
    let (target, edition) = (arguments.value("--out"), arguments.edition()?);
    for flag in ["--force", "--in-place"] {
        if target.is_none() && arguments.has(flag) {
            return Err(Failure::usage(format!("{flag} is for --out, which is missing")));
        }
    }
    let source = Input::read_all(calls)?;
    let mut input = Input::read_image(file, arguments.has("--in-place"))?;
    let results = Results::new(target, &input, &source, arguments)?;
    if target.is_some() {
        input = input.uncut()?;
    }
    let lines = read_lines(&source, edition)?;
    let (before, mut singly) = (Checksum::of_any(&input.bytes), input.copy()?);
    let answers = scp::replay_mixed(&mut input.bytes, lines.iter().filter_map(|(_, line)| line.call()));
    let mut outcome = Outcome { undo: arguments.value("--undo").map(|undo| Undo::new(shown(undo))), ..Outcome::default() };
    outcome.say_answers(&mut singly, &lines, answers, out)?;
    assert!(singly == input.bytes, "the calls leave one image, made in one go or singly");
    if let Some(names) = results.names() {
        if outcome.unmade {
            return Err(Failure::refused(format!("{names}: not written, since a rewrite is refused")));
        }
        let to = target.map_or(String::new(), |target| format!(", written to {}", shown(target)));
        let what = format!("of {} by {}{to}", input.name, source.name);
        results.write(&input.bytes, |text| outcome.undo.as_ref().map_or(Ok(()), |undo| undo.write(&what, text)))?;
        outcome.say_written(arguments, &input, before, out)?;
    }
    match outcome.refused {
        true => Err(Failure::Said(Status::Refused)),
        false => Ok(()),
    }
}

impl Outcome {
    /// Prints each line, with the answer where it is a call. The rewrites are made once more on the first image, so that the reason of a
    /// refusal is looked up in the bytes that it is about, and what takes them back is taken down.
    fn say_answers(
        &mut self,
        image: &mut [u8],
        lines: &[(usize, Line)],
        answers: Vec<Result<Answer, Refusal>>,
        out: &mut dyn Write,
    ) -> Result<(), Failure> {
        let mut answers = answers.into_iter();
        for (number, line) in lines {
            let (edition, call) = match line {
                Line::Edition(edition) => {
                    writeln!(out, "{number}: edition {edition}")?;
                    continue;
                }
                Line::Call(edition, call) => (*edition, call),
            };
            // Each call has one.
            let Some(answer) = answers.next() else { break };
            let accepted = answer.is_ok();
            let layout = Layout { bytes: image, edition };
            let answer = answer.map_or_else(|refusal| reasons::of_asked(layout, asked(call), refusal), say_answer);
            writeln!(out, "{number}: {}: {answer}", say_call(call))?;
            match accepted {
                true => self.follow(image, *number, edition, call)?,
                false => self.note_refused(call),
            }
        }
        Ok(())
    }

    /// Takes down that a call is refused.
    fn note_refused(&mut self, call: &Call) {
        self.refused = true;
        self.unmade |= matches!(call, Call::Rewrite { .. });
    }

    /// Makes an accepted call once more, if it is a rewrite, and takes down what it changes.
    fn follow(&mut self, image: &mut [u8], line: usize, edition: Edition, call: &Call) -> Result<(), Failure> {
        let Call::Rewrite { track, revolution, duration, words } = call else { return Ok(()) };
        let (track, revolution) = (*track, *revolution);
        // What is rewritten is there.
        let Ok(old) = scp::revolution(image, edition, track, revolution) else { return Ok(()) };
        let (duration, count) = ((old.duration, *duration), old.words as usize);
        let change = Change { edition, track, revolution, duration, words: (count, words.len() / 2) };
        let first = self.rewritten.insert((track, revolution));
        if change.is_shorter() {
            self.shorter.push((line, first));
        }
        if let Some(undo) = &mut self.undo {
            undo.add(line, change, &image[old.offset as usize..][..2 * count])?;
        }
        let _ = scp::rewrite(image, edition, track, revolution, duration.1, words);
        Ok(())
    }

    /// Says what is written, what cannot be taken back, and what became of the checksum.
    fn say_written(&self, arguments: &Arguments, input: &Input, before: Option<Checksum>, out: &mut dyn Write) -> io::Result<()> {
        let target = arguments.value("--out");
        if let Some(target) = target {
            writeln!(out, "written to {}", shown(target))?;
        }
        if let Some(undo) = arguments.value("--undo") {
            match self.rewritten.is_empty() {
                true => writeln!(out, "nothing to take back: {} says so", shown(undo))?,
                false => writeln!(out, "former durations and words written to {}", shown(undo))?,
            }
        }
        for (line, first) in &self.shorter {
            let kept = match *first || arguments.value("--undo").is_some() {
                true => kept(arguments, input),
                false => "are those of an earlier line".to_string(),
            };
            writeln!(out, "{line}: {}; its former words {kept}", Change::SHORTER)?;
        }
        match (before, target.and_then(|_| Checksum::of_any(&input.bytes))) {
            (Some(before), Some(after)) => say_change(out, &before, &after),
            _ => Ok(()),
        }
    }
}

/// What a call asks of an image.
fn asked(call: &Call) -> Asked {
    let (track, revolution, size) = match call {
        Call::Validate | Call::Header | Call::Footer => (0, 0, 0),
        Call::Track { track } | Call::TrackSpeed { track } => (*track, 0, 0),
        Call::Revolution { track, revolution } | Call::Flux { track, revolution } | Call::Speed { track, revolution } => {
            (*track, *revolution, 0)
        }
        Call::Rewrite { track, revolution, words, .. } => (*track, *revolution, words.len()),
    };
    Asked { track, revolution, size }
}

/// The lines of a file with their numbers; the calls before the first line that names an edition are by the one given.
fn read_lines(input: &Input, mut edition: Edition) -> Result<Vec<(usize, Line)>, Failure> {
    let mut lines = Vec::new();
    for (number, line) in input.lines() {
        let line = read_line(line?, edition).map_err(|message| input.bad_line(number, message))?;
        if let Line::Edition(named) = line {
            edition = named;
        }
        lines.push((number, line));
    }
    Ok(lines)
}

/// A line; a call is by the edition given.
fn read_line(line: &str, edition: Edition) -> Result<Line, String> {
    let words: Vec<&str> = line.split_whitespace().collect();
    match words[..] {
        ["edition", name] => editions::named(name).map(Line::Edition),
        _ => read_call(&words).map(|call| Line::Call(edition, call)),
    }
}

/// The call of a line's words.
fn read_call(words: &[&str]) -> Result<Call, String> {
    Ok(match *words {
        ["validate"] => Call::Validate,
        ["header"] => Call::Header,
        ["footer"] => Call::Footer,
        ["track", track] => Call::Track { track: number(track)? },
        ["track-speed", track] => Call::TrackSpeed { track: number(track)? },
        ["revolution", track, revolution] => Call::Revolution { track: number(track)?, revolution: number(revolution)? },
        ["flux", track, revolution] => Call::Flux { track: number(track)?, revolution: number(revolution)? },
        ["speed", track, revolution] => Call::Speed { track: number(track)?, revolution: number(revolution)? },
        ["rewrite", track, revolution, duration, ref hex @ ..] if !hex.is_empty() => {
            Call::Rewrite { track: number(track)?, revolution: number(revolution)?, duration: number(duration)?, words: bytes(hex)? }
        }
        [name, ..] => return Err(usage(name)),
        [] => return Err("no call".to_string()),
    })
}

/// What is wrong with a line that is no call.
fn usage(name: &str) -> String {
    let due = match name {
        "edition" => "1.4 or 1.6",
        "validate" | "header" | "footer" => "nothing after it",
        "track" | "track-speed" => "TRACK",
        "revolution" | "flux" | "speed" => "TRACK REV",
        "rewrite" => "TRACK REV DURATION HEXWORDS (- for none)",
        _ => return format!("unknown call \"{}\"", name.escape_debug()),
    };
    format!("{name} takes {due}")
}

/// The bytes of hexadecimal digits, two each; a dash alone is none.
fn bytes(hex: &[&str]) -> Result<Vec<u8>, String> {
    if hex == ["-"] {
        return Ok(Vec::new());
    }
    let digits: Option<Vec<u32>> = hex.concat().chars().map(|digit| digit.to_digit(16)).collect();
    let digits = digits.ok_or("the words are not hexadecimal digits")?;
    if digits.len() % 2 == 1 {
        return Err("the words have an odd number of hexadecimal digits".to_string());
    }
    Ok(digits.chunks_exact(2).map(|pair| (16 * pair[0] + pair[1]) as u8).collect())
}

/// A call as a line names it; of new words only their number.
fn say_call(call: &Call) -> String {
    match call {
        Call::Validate => "validate".to_string(),
        Call::Header => "header".to_string(),
        Call::Footer => "footer".to_string(),
        Call::Track { track } => format!("track {track}"),
        Call::TrackSpeed { track } => format!("track-speed {track}"),
        Call::Revolution { track, revolution } => format!("revolution {track} {revolution}"),
        Call::Flux { track, revolution } => format!("flux {track} {revolution}"),
        Call::Speed { track, revolution } => format!("speed {track} {revolution}"),
        Call::Rewrite { track, revolution, duration, words } => {
            format!("rewrite {track} {revolution} {duration} ({} bytes)", words.len())
        }
    }
}

/// An answer on one line; speeds with all their digits.
fn say_answer(answer: Answer) -> String {
    match answer {
        Answer::Valid => "ok".to_string(),
        Answer::Rewritten => "ok".to_string(),
        Answer::Header(header) => format!(
            "version 0x{:02X} disk 0x{:02X} revolutions {} start {} end {} flags 0x{:02X} width {} heads {} checksum {}",
            header.version,
            header.disk,
            header.revolutions,
            header.start,
            header.end,
            header.flags,
            header.width,
            header.heads,
            header.checksum
        ),
        Answer::Footer(None) => "none".to_string(),
        Answer::Footer(Some(footer)) => format!(
            "strings {} created {} modified {} versions {}",
            footer.strings.map(|offset| offset.to_string()).join(" "),
            footer.created,
            footer.modified,
            footer.versions.map(|version| format!("0x{version:02X}")).join(" ")
        ),
        Answer::Track(track) => {
            format!("cylinder {} head {} offset {} revolutions {}", track.cylinder, track.head, track.offset, track.revolutions)
        }
        Answer::Revolution(found) => format!("duration {} words {} offset {}", found.duration, found.words, found.offset),
        Answer::Flux { offset, size, sum } => format!("offset {offset} bytes {size} sum {sum}"),
        Answer::Speed(speed) => speed.map_or("none".to_string(), |rpm| format!("{rpm:?} rpm")),
        Answer::TrackSpeed(None) => "none".to_string(),
        Answer::TrackSpeed(Some(speeds)) => format!("slowest {:?} rpm fastest {:?} rpm", speeds.slowest, speeds.fastest),
    }
}
