//! The wrapper's structs and enums beside the reader's, on generated images by both editions: nothing is lost or mixed up on the way from
//! the numbers.

use scp::{direct, Answer, Call, Edition, Refusal};
use scp_compare::cases::places;
use scp_compare::difference::after;
use scp_compare::edition::named;
use scp_compare::generate;
use scp_compare::image::{entry_at, flux_bytes, number_at};
use scp_compare::random::Random;
use scp_reader as reader;

/// A refusal of the wrapper as number and position.
fn plain<T>(answer: Result<T, Refusal>) -> Result<T, (u32, u64)> {
    answer.map_err(|refusal| (refusal.reason.number().into(), refusal.position))
}

/// A refusal of the reader as number and position.
fn other<T>(answer: Result<T, reader::Refusal>) -> Result<T, (u32, u64)> {
    answer.map_err(|refusal| (refusal.number, refusal.position))
}

fn header(found: reader::Header) -> scp::Header {
    let reader::Header { version, disk, revolutions, start, end, flags, width, heads, checksum } = found;
    scp::Header { version, disk, revolutions, start, end, flags, width, heads, checksum }
}

fn footer(found: reader::Footer) -> scp::Footer {
    let reader::Footer { offsets, created, modified, versions } = found;
    scp::Footer { strings: offsets, created, modified, versions }
}

fn track(found: reader::Track) -> scp::Track {
    let reader::Track { cylinder, head, place, revolutions } = found;
    scp::Track { cylinder, head, offset: place, revolutions }
}

fn revolution(found: reader::Revolution) -> scp::Revolution {
    let reader::Revolution { duration, words, place } = found;
    scp::Revolution { duration, words, offset: place }
}

fn speeds((slowest, fastest): (f64, f64)) -> scp::TrackSpeeds {
    scp::TrackSpeeds { slowest, fastest }
}

/// The reader's name of an edition.
fn by(edition: Edition) -> reader::Edition {
    named(edition.number())
}

/// The tracks that the reader finds.
fn present(image: &[u8], edition: Edition) -> Vec<u32> {
    (0..200).filter(|&number| reader::track(image, by(edition), number).is_ok()).collect()
}

/// What the reader answers to a call of a sequence.
fn expected(image: &mut [u8], edition: Edition, call: &Call) -> Result<Answer, reader::Refusal> {
    let v = by(edition);
    Ok(match *call {
        Call::Validate => reader::validate(image, v).map(|()| Answer::Valid)?,
        Call::Header => Answer::Header(header(reader::header(image, v)?)),
        Call::Footer => Answer::Footer(reader::footer(image, v)?.map(footer)),
        Call::Track { track: t } => Answer::Track(track(reader::track(image, v, t)?)),
        Call::Revolution { track, revolution: k } => Answer::Revolution(revolution(reader::revolution(image, v, track, k)?)),
        Call::Flux { track, revolution } => {
            let offset = reader::revolution(image, v, track, revolution)?.place;
            let flux = reader::flux(image, v, track, revolution)?;
            Answer::Flux { offset, size: flux.len() as u64, sum: flux.iter().map(|&byte| u32::from(byte)).sum() }
        }
        Call::Speed { track, revolution } => Answer::Speed(reader::speed(image, v, track, revolution)?),
        Call::TrackSpeed { track } => Answer::TrackSpeed(reader::track_speed(image, v, track)?.map(speeds)),
        Call::Rewrite { track, revolution, duration, ref words } => {
            reader::rewrite(image, v, track, revolution, duration, words).map(|()| Answer::Rewritten)?
        }
    })
}

/// One call of each kind about a track and a revolution; two rewrites.
fn calls(track: u32, revolution: u32) -> Vec<Call> {
    let rewrite = |duration, words| Call::Rewrite { track, revolution, duration, words };
    vec![
        Call::Validate,
        Call::Header,
        Call::Footer,
        Call::Track { track },
        Call::Revolution { track, revolution },
        rewrite(7, vec![0, 0, 0, 9]),
        Call::Flux { track, revolution },
        Call::Speed { track, revolution },
        rewrite(0, vec![]),
        Call::TrackSpeed { track },
        Call::Validate,
    ]
}

/// The wrapper answers about the image as the reader does, by an edition.
fn agree(image: &[u8], edition: Edition, k: u32) {
    let v = by(edition);
    assert_eq!(plain(scp::validate(image, edition)), other(reader::validate(image, v)));
    assert_eq!(plain(scp::header(image, edition)), other(reader::header(image, v)).map(header));
    assert_eq!(plain(scp::footer(image, edition)), other(reader::footer(image, v)).map(|found| found.map(footer)));
    for offset in scp::footer(image, edition).ok().flatten().map_or([0; 6], |found| found.strings) {
        assert_eq!(scp::text(image, offset).map(str::as_bytes), scp::string(image, offset));
    }
    let present = present(image, edition);
    assert_eq!(plain(scp::tracks(image, edition)), other(reader::header(image, v)).map(|_| present.clone()));
    let t = present.first().copied().unwrap_or(168);
    assert_eq!(plain(scp::track(image, edition, t)), other(reader::track(image, v, t)).map(track));
    assert_eq!(plain(scp::revolution(image, edition, t, k)), other(reader::revolution(image, v, t, k)).map(revolution));
    let flux = other(reader::flux(image, v, t, k));
    assert_eq!(plain(scp::flux(image, edition, t, k)).map(<[u8]>::to_vec), flux);
    assert_eq!(plain(scp::speed(image, edition, t, k)), other(reader::speed(image, v, t, k)));
    assert_eq!(plain(scp::track_speed(image, edition, t)), other(reader::track_speed(image, v, t)).map(|found| found.map(speeds)));
    let mut room = vec![9; 3000];
    assert_eq!(plain(scp::copy_flux(image, edition, t, k, &mut room)).map(|size| room[..size].to_vec()), flux);
    // where it stands in the image, which may be an odd place
    let closed = flux.and_then(|flux| other(reader::closed_intervals(&flux, flux.len(), flux.len())));
    assert_eq!(plain(scp::flux(image, edition, t, k).and_then(scp::all_closed_intervals)), closed);
}

/// The direct calls of the wrapper answer about the image as those of the reader do, for its first track with an entry.
fn agree_directly(image: &[u8], edition: Edition, k: u32) {
    let v = by(edition);
    let t = (0..168).find(|&track| number_at(image, entry_at(track)) != 0).unwrap_or(168) as u32;
    assert_eq!(plain(direct::track(image, edition, t)), other(reader::direct::track(image, v, t)).map(track));
    assert_eq!(plain(direct::revolution(image, edition, t, k)), other(reader::direct::revolution(image, v, t, k)).map(revolution));
    let flux = other(reader::direct::flux(image, v, t, k));
    assert_eq!(plain(direct::flux(image, edition, t, k)).map(<[u8]>::to_vec), flux);
    let mut room = vec![9; 3000];
    assert_eq!(plain(direct::copy_flux(image, edition, t, k, &mut room)).map(|size| room[..size].to_vec()), flux);
}

#[test]
fn answers_are_those_of_the_reader() {
    let mut random = Random::new(2);
    for _ in 0..4000 {
        let image = generate::image(&mut random);
        let k = random.below(3) as u32;
        for edition in Edition::ALL {
            agree(&image, edition, k);
            agree_directly(&image, edition, k);
        }
    }
}

#[test]
fn a_replay_answers_as_the_reader_call_by_call() {
    let mut random = Random::new(3);
    for _ in 0..4000 {
        let before = generate::image(&mut random);
        for edition in Edition::ALL {
            let track = present(&before, edition).first().copied().unwrap_or(0);
            let calls = calls(track, random.below(3) as u32);
            let (mut image, mut own) = (before.clone(), before.clone());
            let answers: Vec<_> = scp::replay(&mut image, edition, &calls).into_iter().map(plain).collect();
            let wanted: Vec<_> = calls.iter().map(|call| other(expected(&mut own, edition, call))).collect();
            assert_eq!(answers, wanted);
            assert_eq!(image, own);
        }
    }
}

#[test]
fn a_mixed_replay_answers_each_call_by_its_own_edition() {
    let mut random = Random::new(5);
    for _ in 0..4000 {
        let mut image = generate::image(&mut random);
        let mut own = image.clone();
        let track = Edition::ALL.iter().flat_map(|&edition| present(&image, edition)).next().unwrap_or(0);
        let calls = [calls(track, 0), calls(track, random.below(3) as u32)].concat();
        let named: Vec<(Edition, &Call)> = calls.iter().map(|call| (random.pick(&Edition::ALL), call)).collect();
        let answers: Vec<_> = scp::replay_mixed(&mut image, named.iter().copied()).into_iter().map(plain).collect();
        let wanted: Vec<_> = named.iter().map(|&(edition, call)| other(expected(&mut own, edition, call))).collect();
        assert_eq!(answers, wanted);
        assert_eq!(image, own);
    }
}

#[test]
fn flux_and_times_are_those_of_the_reader() {
    let mut random = Random::new(4);
    for _ in 0..4000 {
        let flux = flux_bytes(&generate::words(&mut random, 20));
        let word = random.below(22) as u64;
        let step = |found: reader::Step| match found {
            reader::Step { interval: Some(ticks), closing: Some(closing), next, .. } => scp::Step::Interval { ticks, closing, next },
            reader::Step { open, .. } => scp::Step::Open { ticks: open },
        };
        assert_eq!(plain(scp::step(&flux, word)), other(reader::step(&flux, word)).map(step));
        let (times, open) = scp::all_intervals(&flux).expect("the flux is words");
        assert_eq!(Ok((times.clone(), open)), reader::intervals(&flux, flux.len()));
        let mut room = vec![9; flux.len()];
        let made = plain(scp::words(&times, &mut room)).map(|size| room[..size].to_vec());
        assert_eq!(made, other(reader::words(&times, flux.len())));
    }
}

#[test]
fn closing_words_are_those_of_the_reader() {
    let mut random = Random::new(6);
    for _ in 0..4000 {
        let mut flux = flux_bytes(&generate::words(&mut random, 20));
        if random.once_in(10) {
            flux.push(1);
        }
        let all = other(reader::closed_intervals(&flux, flux.len(), flux.len()));
        assert_eq!(plain(scp::all_closed_intervals(&flux)), all);
        let needed = all.map_or(0, |(found, ..)| found.len());
        let [times, closings] = [(); 2].map(|()| places(&mut random, needed));
        let (mut lent_times, mut lent_closings) = (vec![9; times], vec![9; closings]);
        let answer = plain(scp::closed_intervals(&flux, &mut lent_times, &mut lent_closings));
        let expected = other(reader::closed_intervals(&flux, times, closings));
        assert_eq!(answer, expected.clone().map(|(found, _, open)| (found.len(), open)));
        let (found, closed_by, _) = expected.unwrap_or_default();
        assert_eq!((lent_times, lent_closings), (after(9, times, &found), after(9, closings, &closed_by)));
    }
}
