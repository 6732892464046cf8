//! The editions of the text as rules that SCP images, or a track alone, are judged by, and the hint at the one that accepts it.

use scp::{Edition, Reason, Refusal};

use crate::faults::Rules;
use crate::layout::Layout;
use crate::reasons::{faults, faults_of_track, Fault};

/// The edition of a name.
pub fn named(name: &str) -> Result<Edition, String> {
    Edition::of_name(name).ok_or_else(|| format!("\"{}\" is neither 1.4 nor 1.6", name.escape_debug()))
}

impl Rules for Edition {
    type Refusal = Refusal;

    fn validate(self, image: &[u8]) -> Result<(), Refusal> {
        scp::validate(image, self)
    }

    fn faults(self, image: &[u8]) -> Vec<Fault> {
        faults(Layout { bytes: image, edition: self })
    }

    /// The other edition, where the image is valid by that; not after a fault of the footer, which 1.4 just does not look at.
    fn hint(self, image: &[u8], refusal: Refusal) -> Option<String> {
        let (other, footer) = (self.other(), matches!(refusal.reason, Reason::Footer | Reason::String | Reason::Text));
        let accepted = !footer && scp::validate(image, other).is_ok();
        accepted.then(|| format!("it is valid as revision {other}: try --edition {other}"))
    }
}

/// The rules of an edition as far as a direct question about a track looks: those of the header and of that track.
#[derive(Clone, Copy)]
pub struct OneTrack {
    /// The edition.
    pub edition: Edition,
    /// The track.
    pub track: u32,
}

impl Rules for OneTrack {
    type Refusal = Refusal;

    fn validate(self, image: &[u8]) -> Result<(), Refusal> {
        scp::direct::track(image, self.edition, self.track).map(|_| ())
    }

    fn faults(self, image: &[u8]) -> Vec<Fault> {
        faults_of_track(Layout { bytes: image, edition: self.edition }, self.track)
    }

    /// The other edition, where the track is there and valid by that; nothing is said of the image.
    fn hint(self, image: &[u8], _refusal: Refusal) -> Option<String> {
        let other = self.edition.other();
        let accepted = OneTrack { edition: other, ..self }.validate(image).is_ok();
        accepted.then(|| format!("the track is valid as revision {other}: try --edition {other}"))
    }
}

#[cfg(test)]
mod tests {
    use super::*;
    use scp_compare::cases::case;

    #[test]
    fn the_other_edition_is_named_just_where_it_accepts_what_it_looks_at() {
        let mut hints = [0; 2];
        for number in 0..60_000 {
            let bytes = case(11, number).bytes;
            for (edition, hints) in Edition::ALL.into_iter().zip(&mut hints) {
                let Err(refusal) = scp::validate(&bytes, edition) else { continue };
                // What can refuse an image by this edition alone, but for the footer.
                let alone: &[u8] = match edition {
                    Edition::V1_4 => &[5],
                    Edition::V1_6 => &[1, 9, 10, 11],
                };
                let due = alone.contains(&refusal.reason.number()) && scp::validate(&bytes, edition.other()).is_ok();
                assert_eq!(edition.hint(&bytes, refusal).is_some(), due, "case {number} by {edition}: {refusal}");
                *hints += u32::from(due);
            }
        }
        assert!(hints.iter().all(|&hints| hints > 0), "an edition is never named: {hints:?}");
    }

    #[test]
    fn of_a_track_the_other_edition_is_named_just_where_it_has_that_track() {
        let mut hints = [0; 2];
        for number in 0..60_000 {
            let bytes = case(12, number).bytes;
            for (edition, hints) in Edition::ALL.into_iter().zip(&mut hints) {
                let entries = Layout { bytes: &bytes, edition }.entries();
                for track in entries.map(|(track, _)| track).chain([0, 165, 166, 167, 168]) {
                    let rules = OneTrack { edition, track };
                    let Err(refusal) = rules.validate(&bytes) else { continue };
                    // What can refuse by this edition alone a track that the other one has: never a slot or a track that is absent.
                    let alone: &[u8] = match edition {
                        Edition::V1_4 => &[5],
                        Edition::V1_6 => &[10, 11],
                    };
                    let due = alone.contains(&refusal.reason.number()) && scp::direct::track(&bytes, edition.other(), track).is_ok();
                    assert_eq!(rules.hint(&bytes, refusal).is_some(), due, "case {number}, track {track} by {edition}: {refusal}");
                    *hints += u32::from(due);
                }
            }
        }
        assert!(hints.iter().all(|&hints| hints > 0), "an edition is never named: {hints:?}");
    }
}
