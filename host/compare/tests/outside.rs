//! Outside images: image A, the worked examples of the public text, layouts that real tools write, the stored images, and the largest.

use scp::Edition::{V1_4, V1_6};
use scp::{Reason, Step};
use scp_compare::cases::agree;
use scp_compare::edition;
use scp_compare::image::number_at;
use scp_compare::outside::{image, stored_images, CAPTURE, CAPTURE_1_4, FULL_1_4, OLD_CAPTURE, READ_WRITE, READ_WRITE_1_4, SINGLE_SIDED};
use scp_compare::question::{number, Asked, Question};

#[test]
fn image_a_is_as_the_rules_say() {
    let image = scp::example::image_a();
    assert_eq!(scp::validate(&image, V1_6), Ok(()));
    assert_eq!(scp::header(&image, V1_6).unwrap().checksum, 980);
    let flux = scp::flux(&image, V1_6, 0, 0).unwrap();
    assert_eq!(scp::all_intervals(flux), Ok((vec![160, 65_537, 240], 0)));
    assert_eq!(scp::all_closed_intervals(flux), Ok((vec![160, 65_537, 240], vec![0, 2, 3], 0)));
    agree("image A", &image);
}

#[test]
fn the_worked_examples_of_the_text_hold() {
    // "0x0B would be 11/2 = track 5, head 1 (top). Likewise, 0x50 would be 80/2 = track 40, head 0 (bottom)."
    let capture = image(&CAPTURE, 3);
    for (number, cylinder, head) in [(0x0B, 5, 1), (0x50, 40, 0)] {
        let track = scp::track(&capture, V1_6, number).unwrap();
        assert_eq!((track.cylinder, track.head), (cylinder, head));
    }
    // "BYTES 0x34-0x3F would be the 5th entry (duration5, length5, offset5)."
    let header = scp::track(&capture, V1_6, 0x50).unwrap().offset as usize;
    let fifth = scp::revolution(&capture, V1_6, 0x50, 4).unwrap();
    let number = |at: usize| number_at(&capture, at);
    assert_eq!((number(header + 0x34), number(header + 0x38)), (fifth.duration, fifth.words));
    assert_eq!(header as u64 + u64::from(number(header + 0x3C)), fifth.offset);
    // "0x00DA = 218", "0x0000, 0x0000, 0x7FFF = 65536 + 65536 + 32767 = 163839"
    assert_eq!(scp::step(&[0x00, 0xDA], 0), Ok(Step::Interval { ticks: 218, closing: 0, next: 1 }));
    assert_eq!(scp::step(&[0, 0, 0, 0, 0x7F, 0xFF], 0), Ok(Step::Interval { ticks: 163_839, closing: 2, next: 3 }));
    // "0x7A1200 = 8000000", which is 200 ms and so 300 rpm
    assert_eq!(scp::speed(&scp::example::image_a(), V1_6, 0, 0), Ok(Some(300.0)));
    // "My app" => 0x06 0x00 0x4D 0x79 0x20 .. 0x70 0x70 0x00, with 0x61 for "a"
    let string = [0xFF, 0x06, 0x00, 0x4D, 0x79, 0x20, 0x61, 0x70, 0x70, 0x00];
    assert_eq!(scp::string(&string, 1), Some(&b"My app"[..]));
}

#[test]
fn layouts_of_real_tools_are_valid_and_read_alike() {
    for (name, style, first) in [
        ("capture", CAPTURE, 0x2B0),
        ("old", OLD_CAPTURE, 0x2B0),
        ("one side", SINGLE_SIDED, 0x2B0),
        ("read/write", READ_WRITE, 0x2B0),
        ("capture by 1.4", CAPTURE_1_4, 0x2A8),
        ("all tracks by 1.4", FULL_1_4, 0x2A8),
        ("read/write by 1.4", READ_WRITE_1_4, 0x2A8),
    ] {
        let image = image(&style, 40);
        assert_eq!(scp::validate(&image, style.edition), Ok(()), "{name}");
        let tracks = scp::tracks(&image, style.edition).unwrap();
        assert_eq!(scp::track(&image, style.edition, tracks[0]).unwrap().offset, first, "{name}");
        agree(name, &image);
    }
}

#[test]
fn the_footer_of_a_capture_is_read() {
    let image = image(&CAPTURE, 3);
    let footer = scp::footer(&image, V1_6).unwrap().expect("it is there");
    assert_eq!(footer.strings.map(|offset| scp::string(&image, offset).is_some()), [false, false, false, false, true, false]);
    assert_eq!(scp::string(&image, footer.strings[4]), Some(CAPTURE.application.as_bytes()));
    assert_eq!((footer.created, footer.versions[3]), (1_767_608_067, 0x16));
    assert_eq!(scp::footer(&image, V1_4), Ok(None));
}

#[test]
fn the_stored_images_read_alike() {
    for (name, image) in stored_images() {
        agree(&name, &image);
    }
}

#[test]
fn the_largest_image_is_read_and_a_larger_refused() {
    let mut image = scp::example::image_a();
    image.resize(268_435_456, 0);
    let refused = |image: &[u8], asked: Asked| [edition::V1_4, edition::V1_6].map(|edition| number(image, &asked.clone().by(edition)));
    let (track, revolution, places) = (0, 0, 3);
    let direct = Asked::DirectRevolution { track, revolution, places };
    for asked in [Asked::Validate, Asked::Revolution { track, revolution, places }, direct.clone()] {
        assert_eq!(refused(&image, asked), [Ok(0), Ok(0)]);
    }
    image.push(0);
    for asked in [Asked::Validate, direct] {
        assert_eq!(refused(&image, asked), [Ok(1), Ok(1)]);
    }
    assert_eq!(scp::header(&image, V1_6).unwrap_err().reason, Reason::Size);
}

#[test]
fn a_sum_fills_all_four_bytes_and_wraps() {
    for (size, sum) in [(70_000, 17_850_980_u32), (17_000_000, 40_033_684)] {
        let mut image = scp::example::image_a();
        image.resize(712 + size, 0xFF);
        assert_eq!(number(&image, &Asked::Validate.by(edition::V1_6)), Ok(12));
        image[0x0C..0x10].copy_from_slice(&sum.to_le_bytes());
        assert_eq!(number(&image, &Asked::Validate.by(edition::V1_6)), Ok(0));
        let rewrite = Asked::Rewrite { track: 0, revolution: 0, duration: 0, words: vec![0xFF; 8] };
        assert_eq!(number(&image, &rewrite.by(edition::V1_6)), Ok(0));
    }
}

#[test]
fn the_longest_flux_is_read_and_longer_refused() {
    let mut flux = vec![0; 268_435_456];
    assert_eq!(scp::step(&flux, 134_217_727), Ok(Step::Open { ticks: 65_536 }));
    assert_eq!(number(&flux, &Question::Intervals { times: 0, places: 2 }), Ok(0));
    flux.extend([0, 1]);
    assert_eq!(number(&flux, &Question::Intervals { times: 1, places: 2 }), Ok(17));
    assert_eq!(number(&flux, &Question::Step { word: 0, places: 4 }), Ok(17));
    let rewrite = scp::rewrite(&mut scp::example::image_a(), V1_6, 0, 0, 0, &flux);
    assert_eq!(rewrite.unwrap_err().reason, Reason::Words);
}
