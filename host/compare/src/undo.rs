//! Sequences taken back: the rewrites that put former words and durations back in reverse order, by the library across the boundary
//! and by the reader, and what is claimed of them.

use crate::boundary::NUMBER;
use crate::difference::{same_codes, same_list, Difference};
use crate::edition::of_row;
use crate::image::checksum_kept;
use crate::question::Agreed;
use crate::sequence::{arguments, held, numbers, run, words_of, Calls, ANSWER, CALL, DURATION, EDITION, REWRITE, START};
use scp::{raw, Edition};
use scp_reader as reader;

/// The refusal of more words than a revolution holds.
const TOO_MANY: u64 = 17;

/// What a revolution holds: its duration, and its words as bytes.
#[derive(Clone, Debug, PartialEq, Eq)]
pub struct Held {
    pub duration: u32,
    pub words: Vec<u8>,
}

/// A rewrite that was accepted: its edition, its revolution, what that held before, and what it holds then.
#[derive(Clone, Debug, PartialEq, Eq)]
pub struct Patch {
    pub edition: Edition,
    pub track: u32,
    pub revolution: u32,
    pub former: Held,
    pub new: Held,
}

/// A sequence that was taken back.
pub struct TakenBack {
    /// Its accepted rewrites, in order, and the image that they left.
    pub patches: Vec<Patch>,
    pub last: Vec<u8>,
    /// The calls that take it back, their answers, and the image that they leave.
    pub undo: Calls,
    pub answers: Vec<u64>,
    pub end: Vec<u8>,
}

impl Patch {
    /// Whether it has as many words as its revolution held.
    pub fn has_as_many(&self) -> bool {
        self.former.words.len() == self.new.words.len()
    }
}

impl TakenBack {
    /// Whether each rewrite had as many words as its revolution then held.
    pub fn had_as_many(&self) -> bool {
        self.patches.iter().all(Patch::has_as_many)
    }
}

/// Takes a sequence back by both; gives the number of the first refusal on the way back, 0 for none, and that of each of its rows.
pub fn compare(first: &[u8], calls: &[u64], words: &[u8]) -> Result<Agreed, Difference> {
    let rows = numbers(&by_both(first, calls, words)?.answers);
    let number = rows.iter().copied().find(|&number| number != 0).unwrap_or(0);
    Ok(Agreed { number, rows })
}

/// Takes a sequence back by the library, as the reader would, and runs the way back all three ways.
pub fn by_both(first: &[u8], calls: &[u64], words: &[u8]) -> Result<TakenBack, Difference> {
    let taken = by_library(first, calls, words)?;
    same_calls("the way back", &taken.undo, &reader::undo(first, calls, words))?;
    if taken.patches.is_empty() {
        return Ok(taken);
    }
    let ran = run(&taken.last, &taken.undo.0, &taken.undo.1, taken.answers.len())?;
    same_list("the image after the way back alone", &ran.image, &taken.end)?;
    same_list("the answers of the way back alone", &ran.answers, &taken.answers)?;
    Ok(taken)
}

/// Takes a sequence back by the library alone, and holds it to the claim: with as many words in each rewrite every call of the way back is
/// accepted, the first image comes back, and the way back from there makes the rewrites again; with fewer it does not come back.
pub fn by_library(first: &[u8], calls: &[u64], words: &[u8]) -> Result<TakenBack, Difference> {
    let (last, patches) = walk(first, calls, words)?;
    if patches.is_empty() {
        return nothing_rewritten(first, last);
    }
    let undo = taking_back(&patches);
    let (end, undone) = walk(&last, &undo.0, &undo.1)?;
    let (answers, image) = there_and_back(first, (calls, words), &undo)?;
    same_list("the image after one replay there and back", &image, &end)?;
    let due = due_answers(&patches);
    same_list("the answers of the way back", &answers[..due.len()], &due)?;
    let taken = TakenBack { patches, last, undo, answers, end };
    if taken.had_as_many() {
        same_list("the image taken back", &taken.end, first)?;
        same_calls("the way back from the way back", &taking_back(&undone), &making(&taken.patches))?;
    } else if taken.end == first {
        let [what, wanted, library] = ["the image after fewer words", "not the first one", "the first one"].map(str::to_string);
        return Err(Difference { what, wanted, library });
    }
    Ok(taken)
}

/// The way back where nothing was rewritten.
fn nothing_rewritten(first: &[u8], last: Vec<u8>) -> Result<TakenBack, Difference> {
    same_list("the image where nothing was rewritten", &last, first)?;
    Ok(TakenBack { patches: Vec::new(), end: last.clone(), last, undo: Calls::default(), answers: Vec::new() })
}

/// Makes the rewrites of a sequence one by one; gives the image and those that were accepted. Each keeps what is to be kept of the checksum.
fn walk(first: &[u8], calls: &[u64], words: &[u8]) -> Result<(Vec<u8>, Vec<Patch>), Difference> {
    let (mut image, mut patches) = (first.to_vec(), Vec::new());
    let kept = checksum_kept(first).to_le_bytes();
    for call in calls.chunks_exact(CALL).filter(|call| call[0] == REWRITE) {
        patches.extend(rewrite(&mut image, call, words)?);
        same_list("what is kept of the checksum", &checksum_kept(&image).to_le_bytes(), &kept)?;
    }
    Ok((image, patches))
}

/// Makes one rewrite after asking what its revolution holds, which is answered where the rewrite is accepted.
fn rewrite(image: &mut [u8], call: &[u64], words: &[u8]) -> Result<Option<Patch>, Difference> {
    let of @ [edition, track, revolution] = arguments(call);
    let former = held(image, of);
    let new = Held { duration: call[DURATION] as u32, words: words_of(call, words).to_vec() };
    match (raw::rewrite(image, edition, track, revolution, new.duration, &new.words), former) {
        (0, Ok(([duration, ..], words))) => {
            let former = Held { duration: duration as u32, words };
            Ok(Some(Patch { edition: of_row(call[EDITION]), track, revolution, former, new }))
        }
        (0, Err(code)) => same_codes("the questions before an accepted rewrite", 0, code).map(|()| None),
        _ => Ok(None),
    }
}

/// The calls that put back what the revolutions of these patches held, the last one first.
fn taking_back(patches: &[Patch]) -> Calls {
    putting(patches.iter().rev().map(|patch| (patch, &patch.former)))
}

/// The calls that make these patches.
fn making(patches: &[Patch]) -> Calls {
    putting(patches.iter().map(|patch| (patch, &patch.new)))
}

/// The calls that put this into the revolutions of these patches, by their editions; the words come in the order of the calls.
fn putting<'a>(puts: impl Iterator<Item = (&'a Patch, &'a Held)>) -> Calls {
    let (mut calls, mut words) = (Vec::new(), Vec::new());
    for (Patch { edition, track, revolution, .. }, held) in puts {
        let [start, length] = [words.len(), held.words.len()].map(|size| size as u64);
        let numbers = [*track, *revolution, held.duration, edition.number()];
        let [track, revolution, duration, edition] = numbers.map(u64::from);
        calls.extend([REWRITE, track, revolution, duration, start, length, edition]);
        words.extend(&held.words);
    }
    (calls, words)
}

/// Runs a sequence and the way back as one list; gives the answers of the way back, and the image.
fn there_and_back(first: &[u8], (calls, words): (&[u64], &[u8]), undo: &Calls) -> Result<(Vec<u64>, Vec<u8>), Difference> {
    let count = calls.len() / CALL;
    let mut all = calls[..CALL * count].to_vec();
    // the words of the way back stand first: those of the sequence may be cut where they end
    for call in all.chunks_exact_mut(CALL) {
        call[START] = call[START].saturating_add(undo.1.len() as u64);
    }
    all.extend(&undo.0);
    let all_words = [&undo.1, words].concat();
    let (mut image, mut answers) = (first.to_vec(), vec![NUMBER; ANSWER * (all.len() / CALL)]);
    same_codes("the code of one replay there and back", 0, raw::replay(&mut image, &all, &all_words, &mut answers))?;
    Ok((answers.split_off(ANSWER * count), image))
}

/// What the first rows of the way back have to be: accepted, down to the last rewrite that had fewer words than its revolution held. That
/// one is not taken back: more words are refused.
fn due_answers(patches: &[Patch]) -> Vec<u64> {
    let accepted = patches.iter().rev().take_while(|patch| patch.has_as_many()).count();
    let mut due = vec![0; ANSWER * patches.len().min(accepted + 1)];
    if accepted < patches.len() {
        due[ANSWER * accepted] = TOO_MANY;
    }
    due
}

/// Whether calls and words are those that they are to be.
fn same_calls(what: &str, library: &Calls, wanted: &Calls) -> Result<(), Difference> {
    same_list(&format!("the calls of {what}"), &library.0, &wanted.0)?;
    same_list(&format!("the words of {what}"), &library.1, &wanted.1)
}
