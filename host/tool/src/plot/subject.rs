//! What is drawn: a revolution with its intervals.

use crate::failure::Failure;
use crate::flux::each_interval;
use crate::image::Image;
use crate::way::Way;

/// A revolution to be drawn.
pub struct Subject {
    /// The image's name.
    pub name: String,
    /// The track's number.
    pub track: u32,
    /// Its cylinder.
    pub cylinder: u32,
    /// Its head.
    pub head: u32,
    /// The revolution's number.
    pub revolution: u32,
    /// Its stored duration in ticks.
    pub duration: u32,
    /// Its speed, if it has one.
    pub rpm: Option<f64>,
    /// Its intervals in ticks.
    pub intervals: Vec<u64>,
    /// Its open time in ticks.
    pub open: u64,
}

impl Subject {
    /// Asks the library for all that is drawn.
    pub fn of(image: &Image, way: Way, (track, revolution): (u32, u32)) -> Result<Subject, Failure> {
        let place = (track, revolution);
        let on = way.track(image, place)?;
        let found = way.revolution(image, place)?;
        let rpm = way.speed(image, place)?;
        let mut intervals = Vec::new();
        let open = each_interval(image, way.flux(image, place)?, |interval| {
            intervals.push(interval.ticks);
            Ok(())
        })?;
        let (name, duration) = (image.input.name.clone(), found.duration);
        Ok(Subject { name, track, cylinder: on.cylinder, head: on.head, revolution, duration, rpm, intervals, open })
    }

    /// All ticks of the flux, the open time among them.
    pub fn total(&self) -> u64 {
        self.intervals.iter().sum::<u64>() + self.open
    }
}
