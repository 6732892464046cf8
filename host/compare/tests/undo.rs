//! Sequences taken back: lists of patches by chance, images of other tools and of real size, and why each rewrite needs as many words
//! as its revolution held, and the way back the reverse order.

use scp::Edition::{self, V1_4, V1_6};
use scp::Reason;
use scp_compare::cases::{present_tracks, revolutions};
use scp_compare::difference::Difference;
use scp_compare::edition::{opening, opens};
use scp_compare::generate;
use scp_compare::image::{is_read_write, set, store_checksum, CHECKSUM};
use scp_compare::outside::{image, Style, CAPTURE, CAPTURE_1_4, FULL_1_4, OLD_CAPTURE, READ_WRITE, READ_WRITE_1_4, SINGLE_SIDED};
use scp_compare::outside::{stored_images, string_in_flux, ILL_FORMED, NO_STRING, STRING};
use scp_compare::patches::{patches, rewrites};
use scp_compare::random::Random;
use scp_compare::sequence::{numbers, run, Calls, ANSWER, CALL, EDITION, REWRITE};
use scp_compare::undo::{by_both, by_library, TakenBack};
use scp_reader as reader;
use std::collections::{BTreeMap, BTreeSet};

/// Image A's duration and flux, and two other fluxes of four words.
const A_DURATION: u64 = 8_000_000;
const A_FLUX: [u8; 8] = [0x00, 0xA0, 0x00, 0x00, 0x00, 0x01, 0x00, 0xF0];
const OTHER: [u8; 8] = [0x01, 0x40, 0x00, 0x00, 0x00, 0x01, 0x00, 0xF0];
const THIRD: [u8; 8] = [0x00, 0x50, 0x00, 0x60, 0x00, 0x70, 0x00, 0x80];

/// A rewrite of image A's only revolution, by 1.6.
fn rewrite_a(duration: u64, start: u64, length: u64) -> [u64; CALL] {
    [REWRITE, 0, 0, duration, start, length, V1_6.number().into()]
}

/// A row of answers: the number of a refusal, 0 for none, at position 0.
fn answer(number: u64) -> [u64; ANSWER] {
    let mut row = [0; ANSWER];
    row[0] = number;
    row
}

/// Where two images of one length differ, and the bytes of both there.
fn differing(first: &[u8], second: &[u8]) -> Vec<(usize, u8, u8)> {
    assert_eq!(first.len(), second.len());
    let bytes = first.iter().zip(second).enumerate();
    bytes.filter(|(_, (a, b))| a != b).map(|(place, (&a, &b))| (place, a, b)).collect()
}

// ---- examples

#[test]
fn image_a_comes_back_from_four_words_and_not_from_one() {
    let image = scp::example::image_a();
    let four_back = (rewrite_a(A_DURATION, 0, 8).to_vec(), A_FLUX.to_vec());

    // as many words: the checksum is less by 95, the first word another one; and all comes back
    let taken = by_both(&image, &rewrite_a(A_DURATION, 0, 8), &OTHER).unwrap();
    assert_eq!(differing(&image, &taken.last), [(12, 0xD4, 0x75), (704, 0x00, 0x01), (705, 0xA0, 0x40)]);
    assert_eq!((&taken.undo, &taken.answers[..]), (&four_back, &answer(0)[..]));
    assert_eq!(taken.end, image);

    // one word: the checksum is less by 98, the count is 1 and not 4, and three words stand where nobody claims them
    let taken = by_both(&image, &rewrite_a(A_DURATION, 0, 2), &OTHER).unwrap();
    let changed = [(12, 0xD4, 0x72), (696, 0x04, 0x01), (704, 0x00, 0x01), (705, 0xA0, 0x40)];
    assert_eq!(differing(&image, &taken.last), changed);
    // the way back is the same, but the revolution holds no four words any more
    assert_eq!((&taken.undo, &taken.answers[..]), (&four_back, &answer(17)[..]));
    assert_eq!(differing(&image, &taken.end), changed);
    // one word goes back, but the count stays
    let mut back = taken.end;
    assert_eq!(scp::rewrite(&mut back, V1_6, 0, 0, 8_000_000, &A_FLUX[..2]), Ok(()));
    assert_eq!(differing(&image, &back), [(12, 0xD4, 0xD1), (696, 0x04, 0x01)]);
}

#[test]
fn in_the_order_of_the_rewrites_the_way_back_ends_elsewhere() {
    let image = scp::example::image_a();
    let calls = [rewrite_a(7_000_000, 0, 8), rewrite_a(6_000_000, 8, 8)].concat();
    let taken = by_both(&image, &calls, &[OTHER, THIRD].concat()).unwrap();
    let back = [rewrite_a(7_000_000, 0, 8), rewrite_a(A_DURATION, 8, 8)];
    assert_eq!(taken.undo, (back.concat(), [OTHER, A_FLUX].concat()));
    assert_eq!(taken.end, image);
    // in the other order both are accepted, too, but leave what stood there between the rewrites
    let ran = run(&taken.last, &[back[1], back[0]].concat(), &taken.undo.1, 2 * ANSWER).unwrap();
    assert_eq!(ran.answers, [0; 2 * ANSWER]);
    let mut between = image.clone();
    assert_eq!(scp::rewrite(&mut between, V1_6, 0, 0, 7_000_000, &OTHER), Ok(()));
    assert!(ran.image == between && between != image);
}

#[test]
fn each_rewrite_is_taken_back_by_its_own_edition() {
    let image = string_in_flux(STRING);
    let call = |edition: Edition, revolution| [REWRITE, 0, revolution, 7_000_000, 0, 8, edition.number().into()];
    // the second rewrite closes the image to 1.6, by which the first one was made
    for (no_text, number) in [(NO_STRING, 8), (ILL_FORMED, 19)] {
        let taken = by_both(&image, &[call(V1_6, 1), call(V1_4, 0)].concat(), no_text).unwrap();
        assert!(opens(&image, V1_6) && !opens(&taken.last, V1_6));
        assert_eq!(taken.end, image);
        // so the way back is refused by 1.6 alone, and its second half before the first
        let (back, words) = &taken.undo;
        let mut by_1_6 = back.clone();
        by_1_6[EDITION] = V1_6.number().into();
        let swapped = [&back[CALL..], &back[..CALL]].concat();
        for (calls, refused) in [(by_1_6, [number, number]), (swapped, [number, 0])] {
            let ran = run(&taken.last, &calls, words, 2 * ANSWER).unwrap();
            assert_eq!(numbers(&ran.answers), refused);
            assert_ne!(ran.image, image);
        }
    }
}

// ---- lists of patches by chance

/// An image that opens by an edition and has a track: by chance, or with a string in its flux; now and then with any checksum.
fn some_image(random: &mut Random) -> Vec<u8> {
    let mut image = match random.below(16) {
        0 => string_in_flux(STRING),
        1 => string_in_flux(NO_STRING),
        2 => string_in_flux(ILL_FORMED),
        _ => generate::image(random),
    };
    if present_tracks(&image).is_empty() || opening(&image).is_empty() {
        return some_image(random);
    }
    if random.once_in(4) {
        set(&mut image, CHECKSUM.start, &random.edgy32().to_le_bytes());
    }
    image
}

/// Takes a sequence back by both, beside the sequence itself and the reader's way back from the way back; gives the refusals of its calls.
fn check(first: &[u8], (calls, words): &Calls) -> Result<(TakenBack, Vec<u32>), Difference> {
    let there = run(first, calls, words, ANSWER * (calls.len() / CALL))?;
    let taken = by_both(first, calls, words)?;
    assert_eq!(there.image, taken.last);
    if taken.had_as_many() {
        let (undo, undo_words) = &taken.undo;
        let (again, again_words) = reader::undo(&taken.last, undo, undo_words);
        let ran = run(first, &again, &again_words, taken.answers.len())?;
        assert_eq!((&ran.image, &ran.answers), (&taken.last, &taken.answers));
    }
    Ok((taken, numbers(&there.answers)))
}

/// What has to come up among the lists that rewrite anything, and whether it does in this one.
fn shown(first: &[u8], refused: &[u32], taken: &TakenBack) -> Vec<(&'static str, bool)> {
    let patches = &taken.patches;
    let sound = scp::validate(first, patches[0].edition).is_ok();
    let [by_1_4, by_1_6] = Edition::ALL.map(|edition| patches.iter().any(|patch| patch.edition == edition));
    let rewritten: BTreeSet<_> = patches.iter().map(|patch| (patch.track, patch.revolution)).collect();
    let [opened, opens] = [first, &taken.last].map(|image| opens(image, V1_6));
    let ill_formed = [first, &taken.last].map(|image| scp::header(image, V1_6).err().map(|refusal| refusal.reason) == Some(Reason::Text));
    vec![
        ("read-only, sound", !is_read_write(first) && sound),
        ("read-only, damaged", !is_read_write(first) && !sound),
        ("read/write, sound", is_read_write(first) && sound),
        ("read/write, damaged", is_read_write(first) && !sound),
        ("by 1.4 alone", by_1_4 && !by_1_6),
        ("by 1.6 alone", by_1_6 && !by_1_4),
        ("by both editions", by_1_4 && by_1_6),
        ("refused for shared bytes", refused.contains(&18)),
        ("refused for its words", refused.contains(&17)),
        ("a revolution several times", rewritten.len() < patches.len()),
        ("several revolutions", rewritten.len() > 1),
        ("an empty revolution", patches.iter().any(|patch| patch.former.words.is_empty())),
        ("as many words", taken.had_as_many()),
        ("fewer words", !taken.had_as_many()),
        ("ten rewrites", patches.len() >= 10),
        ("closed to 1.6", opened && !opens),
        ("opened to 1.6", !opened && opens),
        ("opened or closed to 1.6 by a text", ill_formed[0] && opens || opened && ill_formed[1]),
    ]
}

#[test]
fn lists_of_patches_are_taken_back() {
    let mut random = Random::new(5);
    let (mut lists, mut rewritten, mut counts) = (0, 0, BTreeMap::new());
    for number in 0..20_000 {
        let first = some_image(&mut random);
        let list = patches(&first, &mut random);
        let checked = check(&first, &list);
        let (taken, refused) = checked.unwrap_or_else(|difference| panic!("list {number}: {list:?}: {difference:?}"));
        if taken.patches.is_empty() {
            continue;
        }
        lists += 1;
        rewritten += taken.patches.len();
        for (what, here) in shown(&first, &refused, &taken) {
            *counts.entry(what).or_insert(0) += u32::from(here);
        }
    }
    println!("{lists} lists, {rewritten} rewrites: {counts:?}");
    assert!(lists > 15_000 && rewritten > 40_000, "{lists} lists, {rewritten} rewrites");
    assert!(counts.values().all(|&count| count > 200), "{counts:?}");
}

// ---- images of other tools, and of real size

/// A way to take a sequence back.
type Way = fn(&[u8], &[u64], &[u8]) -> Result<TakenBack, Difference>;

/// The image read-only and, where its tracks have one revolution, read/write; each with the checksum that it is to have and with another.
fn variants(image: &[u8]) -> impl Iterator<Item = (&'static str, Vec<u8>)> + '_ {
    let kinds =
        [("read-only, sound", 0, 0), ("read-only, damaged", 0, 1), ("read/write, sound", 0x10, 0), ("read/write, damaged", 0x10, 1)];
    let kinds = kinds.into_iter().filter(|(_, flag, _)| *flag == 0 || revolutions(image) == 1);
    kinds.map(|(name, flag, wrong)| {
        let mut image = image.to_vec();
        image[8] = image[8] & 0xEF | flag;
        store_checksum(&mut image);
        image[CHECKSUM.start] ^= wrong;
        for edition in opening(&image) {
            let due = if wrong == 0 { Ok(()) } else { Err(Reason::Sum) };
            assert_eq!(scp::validate(&image, edition).map_err(|refusal| refusal.reason), due, "{name}");
        }
        (name, image)
    })
}

/// Takes lists of so many rewrites back, by each edition that opens the image and, where both do, by both; gives how many were accepted.
fn take_back(image: &[u8], count: usize, way: Way, random: &mut Random) -> Result<Vec<usize>, Difference> {
    let open = opening(image);
    let both = (open.len() == 2).then_some(&open[..]);
    let mut accepted = Vec::new();
    for editions in open.chunks(1).chain(both) {
        let (calls, words) = rewrites(image, editions, count, random);
        let taken = way(image, &calls, &words)?;
        assert!(taken.had_as_many() && taken.end == image);
        accepted.push(taken.patches.len());
    }
    Ok(accepted)
}

/// Takes lists of rewrites of each variant of the image back; gives how many rewrites were accepted in each list.
fn take_variants_back(name: &str, image: &[u8], count: usize, way: Way) -> Vec<usize> {
    let mut random = Random::new(55);
    let take_back = |(variant, image): (&str, Vec<u8>)| {
        take_back(&image, count, way, &mut random).unwrap_or_else(|difference| panic!("{name}, {variant}: {difference:?}"))
    };
    variants(image).flat_map(take_back).collect()
}

#[test]
fn the_stored_images_are_taken_back() {
    let (mut lists, mut rewritten) = (0, 0);
    for (name, image) in stored_images().into_iter().filter(|(_, image)| !opening(image).is_empty()) {
        let accepted = take_variants_back(&name, &image, 12, by_both);
        lists += accepted.len();
        rewritten += accepted.iter().sum::<usize>();
    }
    println!("{lists} lists, {rewritten} rewrites");
    assert!(lists > 500 && rewritten > 3000, "{lists} lists, {rewritten} rewrites");
}

#[test]
fn layouts_of_real_tools_are_taken_back() {
    for (name, style, lists) in [
        ("capture", CAPTURE, 6),
        ("old", OLD_CAPTURE, 6),
        ("one side", SINGLE_SIDED, 6),
        ("read/write", READ_WRITE, 12),
        ("capture by 1.4", CAPTURE_1_4, 2),
        ("all tracks by 1.4", FULL_1_4, 2),
        ("read/write by 1.4", READ_WRITE_1_4, 4),
    ] {
        assert_eq!(take_variants_back(name, &image(&style, 40), 12, by_both), vec![12; lists], "{name}");
    }
}

#[test]
fn a_capture_in_its_real_size_is_taken_back() {
    // 80 cylinders, 200 ms a revolution: 33,333 intervals of 240 ticks on average
    let capture = image(&CAPTURE, 33_333);
    assert!(capture.len() > 53_000_000, "{} bytes", capture.len());
    assert_eq!(take_variants_back("capture", &capture, 24, by_library), [24; 6]);
    // as the reader does, which looks at each byte of the image several times for a rewrite
    assert_eq!(take_back(&capture, 2, by_both, &mut Random::new(56)).unwrap(), [2; 3]);
}

#[test]
fn other_images_of_real_size_are_taken_back() {
    for (name, style, words, lists) in [
        ("capture by 1.4", CAPTURE_1_4, 20_000, 2),
        ("read/write", READ_WRITE, 50_000, 12),
        ("read/write by 1.4", READ_WRITE_1_4, 50_000, 4),
        ("the most revolutions", Style { revolutions: 255, last_track: 167, ..CAPTURE }, 40, 2),
    ] {
        let image = image(&style, words);
        assert_eq!(take_variants_back(name, &image, 36, by_library), vec![36; lists], "{name}: {} bytes", image.len());
    }
}
