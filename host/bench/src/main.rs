//! How long the calls of the proved library take beside the same work in plain Rust, in one run: `bench [ROUNDS]`.
//!
//! Each round times the one and then the other on warmed buffers. A ratio is the library's time by plain Rust's, round by round: the
//! median is reported, with the tenth and the ninetieth of a hundred as spread. Times themselves are not reported: machines differ.
//!
//! More tables have the library beside itself: how the time for a revolution of an SCP image depends on how many tracks and revolutions
//! there are, a direct call beside the full one and on fewer tracks, reading flux at one go without closing words beside with them, and how
//! the time for a track block of a DSK image depends on how many tracks and sides.

#![forbid(unsafe_code)]

mod disks;
mod plain;
mod plain_dsk;

use scp::{raw, Edition};
use scp_compare::image::flux_bytes;
use scp_compare::outside::{flux_words, image, image_a_with_flux, with_strings, Style, CAPTURE, CAPTURE_1_4, READ_WRITE};
use scp_compare::random::Random;
use scp_compare::text::of_widths;
use std::hint::black_box;
use std::time::Instant;

/// A capture of the most tracks and revolutions that an image may have.
const FULLEST: Style = Style { last_track: 167, revolutions: 255, ..CAPTURE };

/// A capture of the most tracks, of five revolutions.
const ALL_TRACKS: Style = Style { last_track: 167, ..CAPTURE };

/// A capture of the most tracks that revision 1.4 has.
const ALL_TRACKS_1_4: Style = Style { last_track: 165, ..CAPTURE_1_4 };

/// The bytes of the longest string.
const LONGEST_STRING: usize = 65_535;

/// What texts are made of, each with its name and the widths of its characters in bytes.
const ASCII: (&str, &[usize]) = ("ASCII", &[1]);
const MIXED: (&str, &[usize]) = ("1 to 4 bytes a character", &[1, 2, 3, 4]);

fn main() {
    let rounds = std::env::args().nth(1).and_then(|word| word.parse().ok()).unwrap_or(31).max(3);
    say_columns("library beside plain Rust");
    validate(rounds);
    summing(rounds);
    question(rounds);
    strings(rounds);
    texts(rounds);
    direct(rounds);
    stepping(rounds);
    reading(rounds);
    writing(rounds);
    rewriting(rounds);
    disks::validate(rounds);
    disks::question(rounds);
    disks::write(rounds);
    say_columns("library's time for each revolution, beside 168 tracks of 255");
    growth(rounds);
    say_columns("library's direct call, beside its full call");
    direct_beside_full(rounds);
    say_columns("library's direct call, beside 168 tracks of as many revolutions");
    direct_growth(rounds);
    say_columns("library's call without closing words, beside the one with them");
    reading_beside_closed(rounds);
    say_columns("library's time for each track block, beside 255 tracks of 2 sides");
    disks::growth(rounds);
}

/// The head of a table of ratios.
fn say_columns(what: &str) {
    println!("{what:<78} {:>7} {:>16}", "ratio", "spread");
}

/// Times so many calls of both, and prints the ratio of the library by plain Rust.
fn ratio(name: &str, rounds: usize, times: usize, mut library: impl FnMut() -> u64, mut plain: impl FnMut() -> u64) {
    assert_eq!(library(), plain(), "{name}: the two do not agree");
    beside(name, rounds, (times, library), (times, plain));
}

/// Times so many calls of each, turn by turn, and prints the ratio of the first by the second.
fn beside(name: &str, rounds: usize, mut first: (usize, impl FnMut() -> u64), mut second: (usize, impl FnMut() -> u64)) {
    let mut ratios: Vec<f64> = (0..rounds).map(|_| seconds(first.0, &mut first.1) / seconds(second.0, &mut second.1)).collect();
    ratios.sort_by(f64::total_cmp);
    let at = |hundredth: usize| ratios[hundredth * (rounds - 1) / 100];
    println!("{name:<78} {:>7.2} {:>7.2} to {:>5.2}", at(50), at(10), at(90));
}

/// Seconds that so many calls take.
fn seconds(times: usize, call: &mut impl FnMut() -> u64) -> f64 {
    let start = Instant::now();
    for _ in 0..times {
        black_box(call());
    }
    start.elapsed().as_secs_f64()
}

/// The code of a plain answer, as the library returns it.
fn code<T>(answer: Result<T, plain::Refused>) -> u64 {
    answer.err().map_or(0, |(number, position)| u64::from(number) + 256 * position)
}

/// What a row about an image of the edition is called: nothing more by revision 1.6.
fn by(edition: Edition) -> &'static str {
    match edition {
        Edition::V1_4 => ", by 1.4",
        Edition::V1_6 => "",
    }
}

/// Validating 200 MiB, by both editions.
fn validate(rounds: usize) {
    for style in [CAPTURE, CAPTURE_1_4] {
        let (image, edition, by) = (image(&style, 131_100), style.edition, by(style.edition));
        assert!(image.len() >= 200 << 20, "the image has 200 MiB");
        let library = || raw::validate(black_box(&image), edition.number());
        let plain = || code(plain::validate(black_box(&image), black_box(edition)));
        ratio(&format!("validate 200 MiB{by}"), rounds.min(15), 1, library, plain);
        let read = || {
            black_box(plain::read_memory(black_box(&image)));
            0
        };
        ratio(&format!("validate 200 MiB{by}, beside a plain read of the memory"), rounds.min(15), 1, library, read);
    }
}

/// The byte sum of 256 KiB of flux, which the cache holds: a row of a replay.
fn summing(rounds: usize) {
    let mut mine = image_a_with_flux(&Random::new(4).bytes(1 << 18));
    let other = mine.clone();
    let library = || {
        let mut row = [0; 16];
        raw::replay(black_box(&mut mine), &[5, 0, 0, 0, 0, 0, 16], &[], &mut row) + row[0] + row[4]
    };
    let plain = || match plain::flux_sum(black_box(&other), black_box(Edition::V1_6), 0, 0) {
        Ok(sum) => sum.into(),
        Err(refused) => code::<()>(Err(refused)),
    };
    ratio("sum 256 KiB of flux, as a row of a replay", rounds, 200, library, plain);
}

/// Opening an image and asking one question: of 80 tracks, of the most tracks and revolutions, and of the most tracks by revision 1.4.
fn question(rounds: usize) {
    for (tracks, times, style) in [(80, 2000, Style { heads: 1, ..CAPTURE }), (168, 50, FULLEST), (166, 1000, ALL_TRACKS_1_4)] {
        let (image, edition) = (image(&style, 100), style.edition);
        let library = || ask(black_box(&image), edition);
        let plain = || added(plain::revolution(black_box(&image), black_box(edition), 16, 2));
        let (revolutions, by) = (style.revolutions, by(edition));
        ratio(&format!("open {tracks} tracks of {revolutions} revolutions and ask for one{by}"), rounds, times, library, plain);
    }
}

/// Validating an image with six strings of the greatest length, and opening it with the question for the header.
fn strings(rounds: usize) {
    for (times, (name, widths)) in [(200, ASCII), (20, MIXED)] {
        let mut random = Random::new(5);
        let strings = [(); 6].map(|()| Some(of_widths(LONGEST_STRING, widths, &mut random)));
        let image = with_strings(&Style { last_track: 0, revolutions: 1, ..CAPTURE }, 100, strings);
        let edition = CAPTURE.edition;
        let library = || raw::validate(black_box(&image), edition.number());
        assert_eq!(library(), 0, "the image is valid");
        let plain = || code(plain::validate(black_box(&image), black_box(edition)));
        ratio(&format!("validate six strings of 65,535 bytes ({name})"), rounds, times, library, plain);
        let library = || {
            let mut out = [0; 9];
            raw::header(black_box(&image), edition.number(), &mut out) + out[8]
        };
        let plain = || match plain::checksum(black_box(&image), black_box(edition)) {
            Ok(sum) => sum.into(),
            Err(refused) => code::<()>(Err(refused)),
        };
        ratio(&format!("open six strings of 65,535 bytes ({name})"), rounds, times, library, plain);
    }
}

/// How far a text of the greatest length is well-formed.
fn texts(rounds: usize) {
    let of_width: [(&str, &[usize]); 3] = [("2 bytes a character", &[2]), ("3 bytes a character", &[3]), ("4 bytes a character", &[4])];
    for (name, widths) in [ASCII].into_iter().chain(of_width).chain([MIXED]) {
        let text = of_widths(LONGEST_STRING, widths, &mut Random::new(6));
        let library = || {
            let mut out = [0];
            raw::valid_up_to(black_box(&text), &mut out) + out[0]
        };
        let plain = || plain::valid_up_to(black_box(&text)) as u64;
        ratio(&format!("test a text of 65,535 bytes ({name})"), rounds, 200, library, plain);
    }
}

/// Asking for one revolution directly, on images of the most tracks.
fn direct(rounds: usize) {
    for (tracks, times, style) in [(168, 200_000, ALL_TRACKS), (168, 10_000, FULLEST), (166, 200_000, ALL_TRACKS_1_4)] {
        let (image, edition) = (image(&style, 100), style.edition);
        let library = || ask_directly(black_box(&image), edition);
        let plain = || added(plain::direct_revolution(black_box(&image), black_box(edition), 16, 2));
        let (revolutions, by) = (style.revolutions, by(edition));
        ratio(&format!("ask for one of {tracks} tracks of {revolutions} revolutions directly{by}"), rounds, times, library, plain);
    }
}

/// The direct call beside the full one, which walks over all tracks.
fn direct_beside_full(rounds: usize) {
    for (times, style) in [(1000, ALL_TRACKS), (50, FULLEST)] {
        let (image, edition) = (image(&style, 100), style.edition);
        let (first, second) = ((times, || ask_directly(black_box(&image), edition)), (times, || ask(black_box(&image), edition)));
        beside(&format!("ask for a revolution of 168 tracks of {}", style.revolutions), rounds, first, second);
    }
}

/// The direct call on fewer tracks: it does not grow with their number.
fn direct_growth(rounds: usize) {
    for (times, style) in [(200_000, ALL_TRACKS), (10_000, FULLEST)] {
        let (most, edition) = (image(&style, 20), style.edition);
        for tracks in [21, 84] {
            let fewer = image(&Style { last_track: tracks - 1, ..style }, 20);
            let first = (times, || ask_directly(black_box(&fewer), edition));
            let second = (times, || ask_directly(black_box(&most), edition));
            beside(&format!("ask for a revolution of {tracks} tracks of {}", style.revolutions), rounds, first, second);
        }
    }
}

/// The numbers of a revolution, added.
fn ask(image: &[u8], edition: Edition) -> u64 {
    asked(|out| raw::revolution(image, edition.number(), 16, 2, out))
}

/// The numbers of a revolution, asked for directly, added.
fn ask_directly(image: &[u8], edition: Edition) -> u64 {
    asked(|out| raw::direct_revolution(image, edition.number(), 16, 2, out))
}

/// The numbers that a call puts, added.
fn asked(call: impl FnOnce(&mut [u64]) -> u64) -> u64 {
    let mut out = [0; 3];
    assert_eq!(call(&mut out), 0, "the revolution is there");
    out.iter().sum()
}

/// The numbers of a plain revolution, added, or the code of its refusal.
fn added(answer: Result<plain::Revolution, plain::Refused>) -> u64 {
    match answer {
        Ok(found) => u64::from(found.duration) + u64::from(found.words) + found.place,
        Err(refused) => code::<()>(Err(refused)),
    }
}

/// Flux of 50,000 words.
fn flux() -> Vec<u8> {
    flux_bytes(&flux_words(&mut Random::new(1), 50_000))
}

/// The cursor over the flux: intervals and closing words, added.
fn stepping(rounds: usize) {
    let flux = flux();
    let library = || {
        let (mut word, mut total, mut out) = (0, 0, [0; 4]);
        while raw::step(black_box(&flux), word, &mut out) == 0 && out[0] != 0 {
            total += out[0] + out[3];
            word = out[2];
        }
        total
    };
    let plain = || {
        let (mut word, mut total) = (0, 0);
        while let Ok((interval @ 1.., _, next, closing)) = plain::step(black_box(&flux), word) {
            total += interval + closing;
            word = next;
        }
        total
    };
    ratio("step the cursor over 50,000 words", rounds, 20, library, plain);
}

/// The flux at one go, without closing words and with them.
fn reading(rounds: usize) {
    let flux = flux();
    let (mut times, mut others) = (vec![0; 50_000], vec![0; 50_000]);
    let library = || read(black_box(&flux), &mut times);
    let plain = || match plain::intervals(black_box(&flux), &mut others) {
        Ok((filled, _)) => filled as u64 + others[49_000],
        Err(refused) => code::<()>(Err(refused)),
    };
    ratio("read 50,000 words at one go", rounds, 50, library, plain);

    let (mut closings, mut other_closings) = (vec![0; 50_000], vec![0; 50_000]);
    let library = || read_closed(black_box(&flux), &mut times, &mut closings);
    let plain = || match plain::closed_intervals(black_box(&flux), &mut others, &mut other_closings) {
        Ok((filled, _)) => filled as u64 + others[49_000] + other_closings[49_000],
        Err(refused) => code::<()>(Err(refused)),
    };
    ratio("read 50,000 words at one go, with closing words", rounds, 50, library, plain);
}

/// The plain call beside the one that names closing words.
fn reading_beside_closed(rounds: usize) {
    let flux = flux();
    let (mut times, mut others, mut closings) = (vec![0; 50_000], vec![0; 50_000], vec![0; 50_000]);
    let first = (50, || read(black_box(&flux), &mut times));
    let second = (50, || read_closed(black_box(&flux), &mut others, &mut closings));
    beside("read 50,000 words at one go", rounds, first, second);
}

/// Reads flux at one go: how many intervals there are, and one of them, added.
fn read(flux: &[u8], times: &mut [u64]) -> u64 {
    let mut out = [0; 2];
    raw::intervals(flux, times, &mut out) + out[0] + times[49_000]
}

/// The same with closing words: that of the one interval is added, too.
fn read_closed(flux: &[u8], times: &mut [u64], closings: &mut [u64]) -> u64 {
    let mut out = [0; 2];
    raw::closed_intervals(flux, times, closings, &mut out) + out[0] + times[49_000] + closings[49_000]
}

/// Words from 50,000 times.
fn writing(rounds: usize) {
    let times: Vec<u64> = flux_words(&mut Random::new(2), 50_000).iter().map(|&word| u64::from(word.max(1))).collect();
    let (mut words, mut others) = (vec![0; 100_000], vec![0; 100_000]);
    let library = || {
        let mut out = [0];
        raw::words(black_box(&times), &mut words, &mut out) + out[0]
    };
    let plain = || match plain::words(black_box(&times), &mut others) {
        Ok(bytes) => bytes as u64,
        Err(refused) => code::<()>(Err(refused)),
    };
    ratio("make the words of 50,000 times", rounds, 50, library, plain);
}

/// One rewrite on an image with all tracks: where the flux of most others lies behind it, and where it lies before.
fn rewriting(rounds: usize) {
    for (name, words, times, style) in [
        ("read-only, 5 revolutions", 1000, 1000, ALL_TRACKS),
        ("read-only, 255 revolutions", 100, 50, FULLEST),
        ("read/write", 1000, 1000, Style { last_track: 167, ..READ_WRITE }),
        ("read-only, 5 revolutions", 1000, 1000, ALL_TRACKS_1_4),
    ] {
        let mut mine = image(&style, words);
        let mut other = mine.clone();
        let new = flux_bytes(&flux_words(&mut Random::new(3), words));
        let (edition, last, by) = (style.edition, u32::from(style.last_track), by(style.edition));
        for track in [16, last] {
            let library = || rewrite(black_box(&mut mine), edition, track, &new);
            let plain = || code(plain::rewrite(black_box(&mut other), black_box(edition), track, 0, 8_000_001, &new));
            ratio(&format!("rewrite {words} words of track {track} among {} ({name}{by})", last + 1), rounds, times, library, plain);
            assert!(mine == other, "the two images do not agree");
        }
    }
}

/// A rewrite that is accepted.
fn rewrite(image: &mut [u8], edition: Edition, track: u32, new: &[u8]) -> u64 {
    assert_eq!(raw::rewrite(image, edition.number(), track, 0, 8_000_001, new), 0, "the rewrite is accepted");
    0
}

/// Opening and rewriting on fewer tracks or revolutions, as many calls as make for the same number of revolutions in all. What is above 1 is
/// the cost of a track and of a call by themselves, which few revolutions share.
fn growth(rounds: usize) {
    let (words, times) = (20, 20);
    let new = flux_bytes(&flux_words(&mut Random::new(3), words));
    let mut most = image(&FULLEST, words);
    for (tracks, revolutions) in [(168, 5), (168, 51), (21, 255), (84, 255)] {
        let mut fewer = image(&Style { last_track: tracks - 1, revolutions, ..FULLEST }, words);
        let more_times = times * 168 * 255 / (usize::from(tracks) * usize::from(revolutions));
        let name = format!("{tracks} tracks of {revolutions} revolutions");
        let edition = FULLEST.edition;
        let (first, second) = ((more_times, || ask(black_box(&fewer), edition)), (times, || ask(black_box(&most), edition)));
        beside(&format!("open {name} and ask for one"), rounds, first, second);
        let last = u32::from(tracks - 1);
        let first = (more_times, || rewrite(black_box(&mut fewer), edition, last, &new));
        let second = (times, || rewrite(black_box(&mut most), edition, 167, &new));
        beside(&format!("rewrite {words} words of the last track of {name}"), rounds, first, second);
    }
}
