//! Sequences of calls on one image, run by the archive in one go.

use crate::answers::{Footer, Header, Revolution, Track, TrackSpeeds};
use crate::edition::Edition;
use crate::raw;
use crate::refusal::Refusal;

/// A call of a sequence, with its arguments.
#[derive(Clone, Debug, PartialEq, Eq)]
pub enum Call {
    /// Validates the image.
    Validate,
    /// Asks for the header.
    Header,
    /// Asks for the footer.
    Footer,
    /// Asks for a track.
    Track {
        /// Its number.
        track: u32,
    },
    /// Asks for a revolution.
    Revolution {
        /// The track's number.
        track: u32,
        /// Its number.
        revolution: u32,
    },
    /// Asks for a revolution's flux.
    Flux {
        /// The track's number.
        track: u32,
        /// Its number.
        revolution: u32,
    },
    /// Asks for a revolution's speed.
    Speed {
        /// The track's number.
        track: u32,
        /// Its number.
        revolution: u32,
    },
    /// Asks for a track's speeds.
    TrackSpeed {
        /// Its number.
        track: u32,
    },
    /// Rewrites a revolution.
    Rewrite {
        /// The track's number.
        track: u32,
        /// Its number.
        revolution: u32,
        /// The new duration in ticks.
        duration: u32,
        /// The new words, as big-endian bytes.
        words: Vec<u8>,
    },
}

/// What a call of a sequence answers.
#[derive(Clone, Copy, Debug, PartialEq)]
pub enum Answer {
    /// The image is valid.
    Valid,
    /// The header.
    Header(Header),
    /// The footer, or that there is none.
    Footer(Option<Footer>),
    /// A track.
    Track(Track),
    /// A revolution.
    Revolution(Revolution),
    /// A revolution's flux: that part of the image as the calls before left it.
    Flux {
        /// Its file offset.
        offset: u64,
        /// How many bytes it has.
        size: u64,
        /// Their sum modulo 2^32.
        sum: u32,
    },
    /// A revolution's speed, or none.
    Speed(Option<f64>),
    /// A track's speeds, or none.
    TrackSpeed(Option<TrackSpeeds>),
    /// The revolution is rewritten.
    Rewritten,
}

/// Numbers of a call, and of an answer.
const CALL: usize = 7;
const ANSWER: usize = 16;

impl Call {
    /// The call by an edition as a row; its words are added to `words`.
    fn row(&self, edition: Edition, words: &mut Vec<u8>) -> [u64; CALL] {
        let edition = u64::from(edition.number());
        let row = |kind, track, revolution| [kind, u64::from(track), u64::from(revolution), 0, 0, 0, edition];
        match *self {
            Call::Validate => row(0, 0, 0),
            Call::Header => row(1, 0, 0),
            Call::Footer => row(2, 0, 0),
            Call::Track { track } => row(3, track, 0),
            Call::Revolution { track, revolution } => row(4, track, revolution),
            Call::Flux { track, revolution } => row(5, track, revolution),
            Call::Speed { track, revolution } => row(6, track, revolution),
            Call::TrackSpeed { track } => row(7, track, 0),
            Call::Rewrite { track, revolution, duration, words: ref new } => {
                let (start, size) = (words.len() as u64, new.len() as u64);
                words.extend_from_slice(new);
                [8, u64::from(track), u64::from(revolution), u64::from(duration), start, size, edition]
            }
        }
    }

    /// The answer to the call that a row holds.
    fn answer(&self, row: &[u64]) -> Result<Answer, Refusal> {
        Refusal::of_pair(row[0], row[1])?;
        let values = &row[2..];
        Ok(match self {
            Call::Validate => Answer::Valid,
            Call::Header => Answer::Header(Header::of_numbers(first(values))),
            Call::Footer => Answer::Footer(Footer::of_numbers(&first(values))),
            Call::Track { .. } => Answer::Track(Track::of_numbers(first(values))),
            Call::Revolution { .. } => Answer::Revolution(Revolution::of_numbers(first(values))),
            Call::Flux { .. } => Answer::Flux { offset: values[0], size: values[1], sum: values[2] as u32 },
            Call::Speed { .. } => Answer::Speed((values[0] == 1).then(|| f64::from_bits(values[1]))),
            Call::TrackSpeed { .. } => Answer::TrackSpeed(
                (values[0] == 1).then(|| TrackSpeeds { slowest: f64::from_bits(values[1]), fastest: f64::from_bits(values[2]) }),
            ),
            Call::Rewrite { .. } => Answer::Rewritten,
        })
    }
}

/// The first numbers of a row's values.
fn first<const N: usize>(values: &[u64]) -> [u64; N] {
    std::array::from_fn(|i| values[i])
}

/// Runs the calls on the image in order, all by one edition, each on what the last one left, and gives their answers.
///
/// ```
/// use scp::{Answer, Call, Edition};
///
/// let mut image = scp::example::image_a();
/// let words = vec![0x01, 0x40, 0x00, 0x00, 0x00, 0x01, 0x00, 0xF0];
/// let rewrite = Call::Rewrite { track: 0, revolution: 0, duration: 8_000_000, words };
/// let calls = [rewrite, Call::Validate, Call::Flux { track: 0, revolution: 0 }];
/// let flux = Answer::Flux { offset: 704, size: 8, sum: 306 };
/// assert_eq!(scp::replay(&mut image, Edition::V1_6, &calls), [Ok(Answer::Rewritten), Ok(Answer::Valid), Ok(flux)]);
/// assert_eq!(scp::header(&image, Edition::V1_6)?.checksum, 885);
/// # Ok::<(), scp::Refusal>(())
/// ```
pub fn replay(image: &mut [u8], edition: Edition, calls: &[Call]) -> Vec<Result<Answer, Refusal>> {
    replay_mixed(image, calls.iter().map(|call| (edition, call)))
}

/// Runs calls as [`replay`] does, each by the edition that stands with it.
///
/// ```
/// use scp::{Answer, Call, Edition, Reason};
///
/// let mut image = scp::example::image_a_1_4();
/// let calls = [(Edition::V1_4, &Call::Validate), (Edition::V1_6, &Call::Validate)];
/// let answers = scp::replay_mixed(&mut image, calls);
/// assert_eq!(answers[0], Ok(Answer::Valid));
/// assert_eq!(answers[1].unwrap_err().reason, Reason::Track);
/// ```
pub fn replay_mixed<'a>(image: &mut [u8], calls: impl IntoIterator<Item = (Edition, &'a Call)>) -> Vec<Result<Answer, Refusal>> {
    let (mut asked, mut rows, mut words) = (Vec::new(), Vec::new(), Vec::new());
    for (edition, call) in calls {
        rows.extend(call.row(edition, &mut words));
        asked.push(call);
    }
    let mut answers = vec![0; ANSWER * asked.len()];
    let code = raw::replay(image, &rows, &words, &mut answers);
    assert_eq!(code, 0, "there are 16 places a call");
    asked.iter().zip(answers.chunks_exact(ANSWER)).map(|(call, row)| call.answer(row)).collect()
}
