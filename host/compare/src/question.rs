//! One call, put to the library and to the reader: answers, every element of every lent buffer, and the guards around them.

use crate::ask::Ask;
use crate::boundary::{fill, fill_lists, fill_two, BYTE, FLOAT, NUMBER};
use crate::closing::as_other_calls;
use crate::count::Kind;
use crate::difference::{same, same_code, Difference};
use crate::direct::as_full;
use crate::edition::{is_1_4, named};
use crate::guarded::Guarded;
use crate::sequence::{self, CALL, EDITION};
use crate::undo;
use scp::raw;
use scp_reader as reader;

/// A call on an image, but for the edition; `places` is the size of the buffer lent for numbers.
#[derive(Clone, Debug, PartialEq, Eq)]
pub enum Asked {
    Validate,
    Header { places: usize },
    Footer { places: usize },
    Track { track: u32, places: usize },
    Revolution { track: u32, revolution: u32, places: usize },
    Flux { track: u32, revolution: u32, places: usize },
    Speed { track: u32, revolution: u32, places: usize },
    TrackSpeed { track: u32, places: usize },
    DirectTrack { track: u32, places: usize },
    DirectRevolution { track: u32, revolution: u32, places: usize },
    DirectFlux { track: u32, revolution: u32, places: usize },
    Rewrite { track: u32, revolution: u32, duration: u32, words: Vec<u8> },
}

/// A call with its arguments: on an image by the edition that a number names, a sequence of such calls, one that is taken back, or a call on
/// a text, on flux or on times. Lists that are filled are named by their sizes.
#[derive(Clone, Debug, PartialEq, Eq)]
pub enum Question {
    OnImage { edition: u32, asked: Asked },
    Sequence { calls: Vec<u64>, words: Vec<u8>, places: usize },
    Undo { calls: Vec<u64>, words: Vec<u8> },
    ValidUpTo { places: usize },
    Step { word: u64, places: usize },
    Intervals { times: usize, places: usize },
    ClosedIntervals { times: usize, closings: usize, places: usize },
    Words { times: Vec<u64>, room: usize, places: usize },
}

impl Asked {
    /// The call by the edition that a number names.
    pub fn by(self, edition: u32) -> Question {
        Question::OnImage { edition, asked: self }
    }

    /// The direct call with the same arguments; nothing where there is none.
    pub fn directly(&self) -> Option<Asked> {
        match *self {
            Asked::Track { track, places } => Some(Asked::DirectTrack { track, places }),
            Asked::Revolution { track, revolution, places } => Some(Asked::DirectRevolution { track, revolution, places }),
            Asked::Flux { track, revolution, places } => Some(Asked::DirectFlux { track, revolution, places }),
            _ => None,
        }
    }

    /// The kind that the call counts for, by revision 1.4.
    fn kind(&self) -> usize {
        match self {
            Asked::DirectTrack { .. } | Asked::DirectRevolution { .. } | Asked::DirectFlux { .. } => DIRECT_CALLS,
            _ => CALLS,
        }
    }
}

/// What the two agree on: the number of the call's refusal, 0 for none, and of a sequence, or of the way back, that of each row.
#[derive(Clone, Debug, PartialEq, Eq)]
pub struct Agreed {
    pub number: u32,
    pub rows: Vec<u32>,
}

/// An answer, and every number of refusal.
const NUMBERS: &[u32] = &[0, 1, 2, 3, 4, 5, 6, 7, 8, 9, 10, 11, 12, 13, 14, 15, 16, 17, 18, 19];

/// Where the kinds of calls and of rows stand: by revision 1.4, and directly behind it by 1.6.
const CALLS: usize = 0;
const DIRECT_CALLS: usize = 2;
const ROWS: usize = 4;
const REPLAYS: usize = 6;
const FLUX_AND_TIMES: usize = 7;
const CLOSING_WORDS: usize = 8;
const TAKEN_BACK: usize = 9;

/// Where the tests of texts stand: of ill-formed ones, and directly behind it of well-formed ones.
const TEXTS: usize = 10;

/// What a direct call never gives: footer, strings and checksum are not looked at, and nothing is written.
const NEVER_DIRECTLY: &[u32] = &[7, 8, 12, 16, 17, 18, 19];

/// A kind by an edition, where some numbers of refusal never come up.
const fn kind(all: &'static str, one: &'static str, never: &'static [u32]) -> Kind {
    Kind { all, one, numbers: NUMBERS, never }
}

/// A kind by the number of its edition, of the two that start at one.
fn by_edition(kind: usize, number: u64) -> usize {
    kind + usize::from(!is_1_4(number))
}

impl Ask for Question {
    type Agreed = Agreed;

    /// Single calls on images, direct ones apart, and the rows of replays, each by both editions; replays as a whole; calls on flux and
    /// times, those for closing words apart; sequences that are taken back; tests of texts, ill-formed and well-formed ones apart.
    const KINDS: &'static [Kind] = &[
        kind("single calls by 1.4 (none is refused with 7, 8, 16 or 19)", "single call by 1.4", &[7, 8, 16, 19]),
        kind("single calls by 1.6 (none is refused with 16)", "single call by 1.6", &[16]),
        kind("direct calls by 1.4 (none is refused with 7, 8, 12 or 16 to 19)", "direct call by 1.4", NEVER_DIRECTLY),
        kind("direct calls by 1.6 (none is refused with 7, 8, 12 or 16 to 19)", "direct call by 1.6", NEVER_DIRECTLY),
        kind("rows of replays by 1.4 (none is refused with 7, 8, 15, 16 or 19)", "row of a replay by 1.4", &[7, 8, 15, 16, 19]),
        kind("rows of replays by 1.6 (none is refused with 15 or 16)", "row of a replay by 1.6", &[15, 16]),
        Kind { all: "replays", one: "replay", numbers: &[0, 15], never: &[] },
        Kind { all: "calls on flux and times", one: "call on flux or times", numbers: &[0, 15, 16, 17], never: &[] },
        Kind { all: "calls for closing words", one: "call for closing words", numbers: &[0, 15, 17], never: &[] },
        Kind { all: "sequences taken back (17 after fewer words)", one: "sequence taken back", numbers: &[0, 17], never: &[] },
        Kind { all: "tests of ill-formed texts", one: "test of an ill-formed text", numbers: &[0, 15], never: &[] },
        Kind { all: "tests of well-formed texts", one: "test of a well-formed text", numbers: &[0, 15], never: &[] },
    ];

    fn compare(&self, bytes: &[u8]) -> Result<Agreed, Difference> {
        compare(bytes, self)
    }

    fn counted(&self, bytes: &[u8], agreed: &Agreed) -> Vec<(usize, u32)> {
        match self {
            Question::OnImage { edition, asked } => vec![(by_edition(asked.kind(), (*edition).into()), agreed.number)],
            Question::Sequence { calls, .. } => {
                let rows = calls.chunks_exact(CALL).zip(&agreed.rows);
                let rows = rows.map(|(call, &number)| (by_edition(ROWS, call[EDITION]), number));
                rows.chain([(REPLAYS, agreed.number)]).collect()
            }
            Question::Step { .. } | Question::Intervals { .. } | Question::Words { .. } => vec![(FLUX_AND_TIMES, agreed.number)],
            Question::ClosedIntervals { .. } => vec![(CLOSING_WORDS, agreed.number)],
            Question::Undo { .. } if agreed.rows.is_empty() => Vec::new(),
            Question::Undo { .. } => vec![(TAKEN_BACK, agreed.number)],
            Question::ValidUpTo { .. } => vec![(TEXTS + usize::from(std::str::from_utf8(bytes).is_ok()), agreed.number)],
        }
    }

    /// A sequence without one of its calls, or fewer times.
    fn without(&self, part: usize) -> Option<Question> {
        let mut less = self.clone();
        match &mut less {
            Question::Sequence { calls, .. } | Question::Undo { calls, .. } if CALL * (part + 1) <= calls.len() => {
                calls.drain(CALL * part..CALL * (part + 1));
            }
            Question::Words { times, .. } if part < times.len() => {
                times.remove(part);
            }
            _ => return None,
        }
        Some(less)
    }
}

/// Puts the question about these bytes (an image, a text, or flux) to both.
pub fn compare(bytes: &[u8], question: &Question) -> Result<Agreed, Difference> {
    let number = match question {
        Question::OnImage { edition, asked } => on_image(bytes, *edition, asked),
        Question::Sequence { calls, words, places } => return sequence::compare(bytes, calls, words, *places),
        Question::Undo { calls, words } => return undo::compare(bytes, calls, words),
        Question::ValidUpTo { places } => valid_up_to(bytes, *places),
        Question::Step { word, places } => step(bytes, *word, *places),
        Question::Intervals { times, places } => intervals(bytes, *times, *places),
        Question::ClosedIntervals { times, closings, places } => closed_intervals(bytes, (*times, *closings), *places),
        Question::Words { times, room, places } => words(times, *room, *places),
    }?;
    Ok(Agreed { number, rows: Vec::new() })
}

/// The number of the refusal that both give, 0 for none.
pub fn number(bytes: &[u8], question: &Question) -> Result<u32, Difference> {
    compare(bytes, question).map(|agreed| agreed.number)
}

/// A call on an image: a rewrite, or a question that leaves every byte.
fn on_image(bytes: &[u8], edition: u32, asked: &Asked) -> Result<u32, Difference> {
    if let Asked::Rewrite { track, revolution, duration, words } = asked {
        return rewrite(bytes, edition, (*track, *revolution), *duration, words);
    }
    let lent = Guarded::new(bytes, BYTE);
    let number = ask(lent.contents(), edition, asked)?;
    same("the image asked about", &lent, bytes)?;
    Ok(number)
}

/// The questions about an image, each of which fills one buffer.
fn ask(image: &[u8], edition: u32, asked: &Asked) -> Result<u32, Difference> {
    let by = named(edition);
    match *asked {
        Asked::Validate => {
            let expected = reader::validate(image, by).map(|()| Vec::new());
            fill(expected, 0, NUMBER, |_| raw::validate(image, edition))
        }
        Asked::Header { places } => {
            let expected = reader::header(image, by).map(|header| header_numbers(&header).to_vec());
            fill(expected, places, NUMBER, |out| raw::header(image, edition, out))
        }
        Asked::Footer { places } => {
            let expected = reader::footer(image, by).map(|footer| footer_numbers(&footer).to_vec());
            fill(expected, places, NUMBER, |out| raw::footer(image, edition, out))
        }
        Asked::Track { track, places } => fill_track(reader::track(image, by, track), places, |out| raw::track(image, edition, track, out)),
        Asked::Revolution { track, revolution, places } => {
            let expected = reader::revolution(image, by, track, revolution);
            fill_revolution(expected, places, |out| raw::revolution(image, edition, track, revolution, out))
        }
        Asked::Flux { track, revolution, places } => {
            let expected = reader::flux(image, by, track, revolution);
            fill(expected, places, BYTE, |out| raw::flux(image, edition, track, revolution, out))
        }
        Asked::Speed { track, revolution, places } => {
            let floats = |speed: Option<f64>| speed.map_or(vec![0.0, 0.0], |rpm| vec![1.0, rpm]);
            let expected = reader::speed(image, by, track, revolution).map(floats);
            fill(expected, places, FLOAT, |out| raw::speed(image, edition, track, revolution, out))
        }
        Asked::TrackSpeed { track, places } => {
            let floats = |speeds: Option<(f64, f64)>| speeds.map_or(vec![0.0; 3], |(slow, fast)| vec![1.0, slow, fast]);
            let expected = reader::track_speed(image, by, track).map(floats);
            fill(expected, places, FLOAT, |out| raw::track_speed(image, edition, track, out))
        }
        Asked::DirectTrack { .. } | Asked::DirectRevolution { .. } | Asked::DirectFlux { .. } => ask_directly(image, edition, asked),
        Asked::Rewrite { .. } => unreachable!("a rewrite is compared elsewhere"),
    }
}

/// The direct questions about an image; beside each the library is asked the full one.
fn ask_directly(image: &[u8], edition: u32, asked: &Asked) -> Result<u32, Difference> {
    let by = named(edition);
    match *asked {
        Asked::DirectTrack { track, places } => {
            let calls = [raw::track, raw::direct_track];
            let [full, direct] = calls.map(|call| move |out: &mut [u64]| call(image, edition, track, out));
            as_full(places, NUMBER, full, direct)?;
            fill_track(reader::direct::track(image, by, track), places, direct)
        }
        Asked::DirectRevolution { track, revolution, places } => {
            let calls = [raw::revolution, raw::direct_revolution];
            let [full, direct] = calls.map(|call| move |out: &mut [u64]| call(image, edition, track, revolution, out));
            as_full(places, NUMBER, full, direct)?;
            fill_revolution(reader::direct::revolution(image, by, track, revolution), places, direct)
        }
        Asked::DirectFlux { track, revolution, places } => {
            let calls = [raw::flux, raw::direct_flux];
            let [full, direct] = calls.map(|call| move |out: &mut [u8]| call(image, edition, track, revolution, out));
            as_full(places, BYTE, full, direct)?;
            fill(reader::direct::flux(image, by, track, revolution), places, BYTE, direct)
        }
        _ => unreachable!("only direct questions are asked directly"),
    }
}

/// A track that the reader expects.
fn fill_track(
    expected: Result<reader::Track, reader::Refusal>,
    places: usize,
    call: impl FnOnce(&mut [u64]) -> u64,
) -> Result<u32, Difference> {
    fill(expected.map(|track| track_numbers(&track).to_vec()), places, NUMBER, call)
}

/// A revolution that the reader expects.
fn fill_revolution(
    expected: Result<reader::Revolution, reader::Refusal>,
    places: usize,
    call: impl FnOnce(&mut [u64]) -> u64,
) -> Result<u32, Difference> {
    fill(expected.map(|found| revolution_numbers(&found).to_vec()), places, NUMBER, call)
}

// ---- the values of answers, as the table of the boundary names them

fn header_numbers(header: &reader::Header) -> [u64; 9] {
    let bytes = [header.version, header.disk, header.revolutions, header.start, header.end, header.flags, header.width, header.heads];
    let [a, b, c, d, e, f, g, h] = bytes.map(u64::from);
    [a, b, c, d, e, f, g, h, u64::from(header.checksum)]
}

fn footer_numbers(footer: &Option<reader::Footer>) -> [u64; 13] {
    let Some(footer) = footer else { return [0; 13] };
    let [a, b, c, d, e, f] = footer.offsets.map(u64::from);
    let [s, h, w, v] = footer.versions.map(u64::from);
    [1, a, b, c, d, e, f, footer.created as u64, footer.modified as u64, s, h, w, v]
}

fn track_numbers(track: &reader::Track) -> [u64; 4] {
    [track.cylinder.into(), track.head.into(), track.place, track.revolutions.into()]
}

fn revolution_numbers(revolution: &reader::Revolution) -> [u64; 3] {
    [revolution.duration.into(), revolution.words.into(), revolution.place]
}

// ---- calls with several buffers

/// A rewrite: the code, and every byte of the image and of the words.
fn rewrite(bytes: &[u8], edition: u32, (track, revolution): (u32, u32), duration: u32, words: &[u8]) -> Result<u32, Difference> {
    let mut wanted = bytes.to_vec();
    let expected = reader::rewrite(&mut wanted, named(edition), track, revolution, duration, words);
    let mut image = Guarded::new(bytes, BYTE);
    let lent_words = Guarded::new(words, BYTE);
    let got = raw::rewrite(image.lent(), edition, track, revolution, duration, lent_words.contents());
    let number = same_code(&expected, got)?;
    same("the image", &image, &wanted)?;
    same("the words", &lent_words, words)?;
    Ok(number)
}

/// How far a text is well-formed.
fn valid_up_to(text: &[u8], places: usize) -> Result<u32, Difference> {
    let lent = Guarded::new(text, BYTE);
    let expected = Ok::<_, reader::Refusal>(vec![reader::valid_up_to(text) as u64]);
    let number = fill(expected, places, NUMBER, |out| raw::valid_up_to(lent.contents(), out))?;
    same("the text", &lent, text)?;
    Ok(number)
}

/// A step over flux.
fn step(flux: &[u8], word: u64, places: usize) -> Result<u32, Difference> {
    let lent = Guarded::new(flux, BYTE);
    let numbers = |step: reader::Step| vec![step.interval.unwrap_or(0), step.open, step.next, step.closing.unwrap_or(0)];
    let expected = reader::step(flux, word).map(numbers);
    let number = fill(expected, places, NUMBER, |out| raw::step(lent.contents(), word, out))?;
    same("the flux", &lent, flux)?;
    Ok(number)
}

/// Bulk reading.
fn intervals(flux: &[u8], times: usize, places: usize) -> Result<u32, Difference> {
    let lent = Guarded::new(flux, BYTE);
    let expected = reader::intervals(flux, times).map(|(found, open)| (vec![found.len() as u64, open], found));
    let number = fill_two(expected, (&vec![NUMBER; times], NUMBER), places, |times, out| raw::intervals(lent.contents(), times, out))?;
    same("the flux", &lent, flux)?;
    Ok(number)
}

/// Bulk reading with closing words; beside it the library's plain call and its steps.
fn closed_intervals(flux: &[u8], (times, closings): (usize, usize), places: usize) -> Result<u32, Difference> {
    let lent = Guarded::new(flux, BYTE);
    let expected = reader::closed_intervals(flux, times, closings);
    let expected = expected.map(|(found, closed_by, open)| (vec![found.len() as u64, open], [found, closed_by]));
    let [old_times, old_closings] = [times, closings].map(|size| vec![NUMBER; size]);
    let old = [("the times", &old_times[..]), ("the closing words", &old_closings)];
    let call = |[times, closings]: [&mut [u64]; 2], out: &mut [u64]| raw::closed_intervals(lent.contents(), times, closings, out);
    let number = fill_lists(expected, (old, NUMBER), places, call)?;
    as_other_calls(lent.contents(), (times, closings), places)?;
    same("the flux", &lent, flux)?;
    Ok(number)
}

/// Making words.
fn words(times: &[u64], room: usize, places: usize) -> Result<u32, Difference> {
    let lent = Guarded::new(times, NUMBER);
    let expected = reader::words(times, room).map(|bytes| (vec![bytes.len() as u64], bytes));
    let number = fill_two(expected, (&vec![BYTE; room], BYTE), places, |words, out| raw::words(lent.contents(), words, out))?;
    same("the times", &lent, times)?;
    Ok(number)
}

#[cfg(test)]
mod tests {
    use super::*;

    #[test]
    fn every_number_is_counted_but_those_that_never_come_up() {
        let all: Vec<u32> = (0..=19).collect();
        assert_eq!(scp::Reason::ALL.map(|reason| u32::from(reason.number())), all[1..]);
        let by_editions = &Question::KINDS[..6];
        assert!(by_editions.iter().all(|kind| kind.numbers == all));
        let never: Vec<&[u32]> = by_editions.iter().map(|kind| kind.never).collect();
        let direct: &[u32] = &[7, 8, 12, 16, 17, 18, 19];
        assert_eq!(never, [&[7, 8, 16, 19], &[16][..], direct, direct, &[7, 8, 15, 16, 19], &[15, 16]]);
        let others: Vec<&[u32]> = Question::KINDS[6..].iter().map(|kind| kind.numbers).collect();
        assert_eq!(others, [&[0, 15], &[0, 15, 16, 17][..], &[0, 15, 17], &[0, 17], &[0, 15], &[0, 15]]);
        assert!(Question::KINDS[6..].iter().all(|kind| kind.never.is_empty()));
    }

    #[test]
    fn calls_and_rows_count_for_the_edition_that_they_name() {
        let counted = |asked: &Asked, edition| asked.clone().by(edition).counted(&[], &Agreed { number: 3, rows: Vec::new() });
        let call = |asked| [14, 16, 0].map(|edition| counted(&asked, edition));
        let (track, revolution, places) = (0, 0, 0);
        let full = [Asked::Revolution { track, revolution, places }, Asked::Flux { track, revolution, places }];
        for asked in full.into_iter().chain([Asked::Track { track, places }]) {
            assert_eq!(call(asked.directly().unwrap()), [[(2, 3)], [(3, 3)], [(3, 3)]]);
            assert_eq!(call(asked), [[(0, 3)], [(1, 3)], [(1, 3)]]);
        }
        assert_eq!(call(Asked::Validate), [[(0, 3)], [(1, 3)], [(1, 3)]]);
        assert_eq!(Asked::Validate.directly(), None);
        let calls = [[0, 0, 0, 0, 0, 0, 14], [0, 0, 0, 0, 0, 0, 14 + (1 << 32)]].concat();
        let sequence = Question::Sequence { calls, words: Vec::new(), places: 32 };
        assert_eq!(sequence.counted(&[], &Agreed { number: 0, rows: vec![1, 2] }), [(4, 1), (5, 2), (6, 0)]);
        let names = Question::KINDS.iter().map(|kind| kind.one).collect::<Vec<_>>();
        assert_eq!(names[..4], ["single call by 1.4", "single call by 1.6", "direct call by 1.4", "direct call by 1.6"]);
        assert_eq!(names[4..7], ["row of a replay by 1.4", "row of a replay by 1.6", "replay"]);
        assert_eq!(names[7..10], ["call on flux or times", "call for closing words", "sequence taken back"]);
        assert_eq!(names[10..], ["test of an ill-formed text", "test of a well-formed text"]);
    }

    #[test]
    fn a_sequence_taken_back_counts_where_it_rewrote_anything() {
        let undo = Question::Undo { calls: Vec::new(), words: Vec::new() };
        assert_eq!(undo.counted(&[], &Agreed { number: 0, rows: Vec::new() }), []);
        assert_eq!(undo.counted(&[], &Agreed { number: 17, rows: vec![0, 17, 0] }), [(9, 17)]);
    }

    #[test]
    fn calls_for_closing_words_count_apart_from_others_on_flux() {
        let (times, places) = (0, 0);
        let kind = |question: Question| question.counted(&[], &Agreed { number: 15, rows: Vec::new() });
        assert_eq!(kind(Question::ClosedIntervals { times, closings: 0, places }), [(8, 15)]);
        for other in [Question::Step { word: 0, places }, Question::Intervals { times, places }] {
            assert_eq!(kind(other), [(7, 15)]);
        }
        assert_eq!(kind(Question::Words { times: Vec::new(), room: 0, places }), [(7, 15)]);
    }

    #[test]
    fn tests_of_ill_formed_texts_count_apart_from_others() {
        let counted = |text: &[u8]| Question::ValidUpTo { places: 1 }.counted(text, &Agreed { number: 0, rows: Vec::new() });
        assert_eq!((counted(b"a\x97"), counted(b"a"), counted(b"")), (vec![(10, 0)], vec![(11, 0)], vec![(11, 0)]));
    }
}
