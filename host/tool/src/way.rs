//! The two ways to ask for a revolution: by the calls that test the whole image, and by the direct ones.

use scp::{direct, Revolution, Track};

use crate::arguments::Arguments;
use crate::failure::Failure;
use crate::image::Image;
use crate::numbers::TICKS_PER_MINUTE;

/// By which calls of the library a revolution is asked for.
#[derive(Clone, Copy)]
pub enum Way {
    /// By those that test the whole image first, but for its checksum.
    Full,
    /// By those that test its header and the track alone.
    Direct,
}

impl Way {
    /// The way that is asked for: the direct one with --direct.
    pub fn of(arguments: &Arguments) -> Way {
        if arguments.has("--direct") {
            Way::Direct
        } else {
            Way::Full
        }
    }

    /// The track of a revolution.
    pub fn track(self, image: &Image, place: (u32, u32)) -> Result<Track, Failure> {
        match self {
            Way::Full => image.ask_of(place, |bytes, edition, track, _| scp::track(bytes, edition, track)),
            Way::Direct => image.ask_directly(place, |bytes, edition, track, _| direct::track(bytes, edition, track)),
        }
    }

    /// The numbers of a revolution.
    pub fn revolution(self, image: &Image, place: (u32, u32)) -> Result<Revolution, Failure> {
        match self {
            Way::Full => image.ask_of(place, scp::revolution),
            Way::Direct => image.ask_directly(place, direct::revolution),
        }
    }

    /// The speed of a revolution, if it has one. No direct call gives it, so that it is worked out of the duration.
    pub fn speed(self, image: &Image, place: (u32, u32)) -> Result<Option<f64>, Failure> {
        match self {
            Way::Full => image.ask_of(place, scp::speed),
            Way::Direct => Ok(speed_of(self.revolution(image, place)?.duration)),
        }
    }

    /// The flux of a revolution.
    pub fn flux(self, image: &Image, place: (u32, u32)) -> Result<&[u8], Failure> {
        match self {
            Way::Full => image.ask_of(place, scp::flux),
            Way::Direct => image.ask_directly(place, direct::flux),
        }
    }
}

/// The speed of a duration in rpm, as the library has it: one division, and none for 0.
fn speed_of(duration: u32) -> Option<f64> {
    (duration != 0).then(|| TICKS_PER_MINUTE / f64::from(duration))
}

#[cfg(test)]
mod tests {
    use super::*;
    use scp::Edition;

    #[test]
    fn speeds_are_those_of_the_library() {
        let mut image = scp::example::image_a();
        for duration in (0..5000).chain((0..32).map(|bit| u32::MAX >> bit)).chain((1..2000).map(|step| 2_147_483 * step)) {
            image[692..696].copy_from_slice(&duration.to_le_bytes());
            let speed = scp::speed(&image, Edition::V1_6, 0, 0).expect("the image opens");
            assert_eq!(speed_of(duration).map(f64::to_bits), speed.map(f64::to_bits), "{duration}");
        }
    }
}
