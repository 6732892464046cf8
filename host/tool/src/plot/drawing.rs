//! The drawing: intervals over time on the left, how often each occurs on the right.

use std::collections::BTreeMap;

use super::canvas::Canvas;
use super::scale::{greatest_shown, Axis, Histogram};
use super::subject::Subject;
use crate::numbers::{counted, grouped, microseconds, milliseconds, TICKS_PER_MICROSECOND, TICKS_PER_MILLISECOND};

/// The size of the drawing.
const SIZE: (f64, f64) = (1280.0, 700.0);

/// Left and right edge of the intervals over time.
const OVER_TIME: (f64, f64) = (76.0, 936.0);

/// Left and right edge of the histogram.
const HISTOGRAM: (f64, f64) = (972.0, 1248.0);

/// Room between the edges and the first and last time.
const ROOM: f64 = 6.0;

/// Bottom and top edge of both.
const UPRIGHT: (f64, f64) = (636.0, 112.0);

/// The bars of the histogram are at least 2 pixels high.
const MOST_BINS: u64 = 262;

/// The longest file name in the title, in letters.
const LONGEST_NAME: usize = 56;

/// Fewer dots than this are drawn dark.
const SPARSE: usize = 3000;

/// The looks of places with so many intervals, from and to, where there are few dots.
const SPARSE_CLASSES: [(&str, u64, u64); 3] = [("some", 1, 1), ("many", 2, 3), ("many", 4, u64::MAX)];

/// The same where there are many dots.
const DENSE_CLASSES: [(&str, u64, u64); 3] = [("few", 1, 1), ("some", 2, 3), ("many", 4, u64::MAX)];

/// What is drawn and on which axes.
struct Plan<'a> {
    subject: &'a Subject,
    histogram: Histogram,
    greatest: u64,
    time: Axis,
    interval: Axis,
    count: Axis,
}

/// The drawing of a revolution, as a standalone SVG.
pub fn svg(subject: &Subject) -> String {
    let plan = Plan::of(subject);
    let mut canvas = Canvas::new(SIZE.0, SIZE.1, &format!("{}, track {}, revolution {}", subject.name, subject.track, subject.revolution));
    plan.title(&mut canvas);
    plan.open_time(&mut canvas);
    plan.grid(&mut canvas);
    plan.frames(&mut canvas);
    plan.points(&mut canvas);
    plan.bars(&mut canvas);
    plan.clipped(&mut canvas);
    plan.legend(&mut canvas);
    canvas.finish()
}

/// Ticks in microseconds.
fn to_microseconds(ticks: u64) -> f64 {
    ticks as f64 / TICKS_PER_MICROSECOND as f64
}

/// Ticks in milliseconds.
fn to_milliseconds(ticks: u64) -> f64 {
    ticks as f64 / TICKS_PER_MILLISECOND as f64
}

impl<'a> Plan<'a> {
    /// Chooses what is shown.
    fn of(subject: &'a Subject) -> Plan<'a> {
        let greatest = greatest_shown(&subject.intervals);
        let histogram = Histogram::of(&subject.intervals, greatest, MOST_BINS);
        let time = Axis::new(to_milliseconds(shown_time(subject)), (OVER_TIME.0 + ROOM, OVER_TIME.1 - ROOM), 10);
        let interval = Axis::new(to_microseconds(greatest), UPRIGHT, 12);
        let count = Axis::new(histogram.highest().max(1) as f64 * 1.25, HISTOGRAM, 4).whole();
        Plan { subject, histogram, greatest, time, interval, count }
    }

    /// File, place, and the numbers of the revolution.
    fn title(&self, canvas: &mut Canvas) {
        let Subject { track, cylinder, head, revolution, duration, rpm, .. } = self.subject;
        let name = short_name(&self.subject.name);
        let title = format!("{name}: track {track} (cylinder {cylinder}, head {head}), revolution {revolution}");
        canvas.text("title", (OVER_TIME.0, 34.0), &title);
        let duration = u64::from(*duration);
        let speed = rpm.map_or("no speed".to_string(), |rpm| format!("{rpm:.3} rpm"));
        let open = match self.subject.open {
            0 => "no open time".to_string(),
            open => format!("open time {} ticks ({} ms)", grouped(open), milliseconds(open)),
        };
        let count = counted(self.subject.intervals.len() as u64, "interval");
        let line = format!("duration {} ticks ({} ms), {speed}, {count}, {open}", grouped(duration), milliseconds(duration));
        canvas.text("label", (OVER_TIME.0, 60.0), &line);
    }

    /// The band of the open time at the end.
    fn open_time(&self, canvas: &mut Canvas) {
        let (total, open) = (self.subject.total(), self.subject.open);
        if open > 0 {
            let (left, right) = (self.time.place(to_milliseconds(total - open)), self.time.place(to_milliseconds(total)));
            canvas.path("open", &format!("M{left:.1} {}H{right:.1}V{}H{left:.1}z", UPRIGHT.0, UPRIGHT.1));
        }
    }

    /// The lines of the marks, their labels, and what the axes mean.
    fn grid(&self, canvas: &mut Canvas) {
        let (bottom, top) = UPRIGHT;
        for (value, label) in self.interval.marks() {
            let y = self.interval.place(value);
            canvas.path("grid", &format!("M{} {y:.1}H{}M{} {y:.1}H{}", OVER_TIME.0, OVER_TIME.1, HISTOGRAM.0, HISTOGRAM.1));
            canvas.text("end", (OVER_TIME.0 - 8.0, y + 4.5), &label);
        }
        for axis in [self.time, self.count] {
            for (value, label) in axis.marks() {
                let x = axis.place(value);
                canvas.path("grid", &format!("M{x:.1} {bottom}V{top}"));
                canvas.text("middle", (x, bottom + 20.0), &label);
            }
        }
        let middle = |(left, right): (f64, f64)| ((left + right) / 2.0, bottom + 46.0);
        canvas.upward_text("label middle", (26.0, (bottom + top) / 2.0), "interval (µs)");
        canvas.text("label middle", middle(OVER_TIME), "time within the revolution (ms)");
        let bin = format!("intervals per {} µs, peaks in µs", microseconds(self.histogram.width));
        canvas.text("label middle", middle(HISTOGRAM), &bin);
    }

    /// A dot for each interval at the time of its end; darker where several fall on one place.
    fn points(&self, canvas: &mut Canvas) {
        let mut cells: BTreeMap<(i64, i64), u64> = BTreeMap::new();
        for (end, ticks) in self.ends().filter(|&(_, ticks)| ticks <= self.greatest) {
            let (x, y) = (self.time.place(to_milliseconds(end)), self.interval.place(to_microseconds(ticks)));
            *cells.entry(((2.0 * x).round() as i64 * 5, (10.0 * y).round() as i64)).or_default() += 1;
        }
        let classes = if cells.len() < SPARSE { SPARSE_CLASSES } else { DENSE_CLASSES };
        for (class, least, most) in classes {
            let hit = cells.iter().filter(|(_, &count)| (least..=most).contains(&count));
            let places: Vec<(i64, i64)> = hit.map(|(&place, _)| place).collect();
            if !places.is_empty() {
                canvas.dots(class, self.dot_size(), &places);
            }
        }
        if self.subject.intervals.is_empty() {
            let middle = ((OVER_TIME.0 + OVER_TIME.1) / 2.0, (UPRIGHT.0 + UPRIGHT.1) / 2.0);
            canvas.text("label middle", middle, "no intervals");
        }
    }

    /// The size of a dot: smaller the more there are, but most of a tick's height where ticks can be told apart.
    fn dot_size(&self) -> f64 {
        let tick = (UPRIGHT.0 - UPRIGHT.1) / self.greatest as f64;
        let by_number = 4.2 - 0.6 * (self.subject.intervals.len().max(1) as f64).log10();
        by_number.clamp(1.2, 4.0).max((0.7 * tick).min(2.4))
    }

    /// The time at which each interval ends, and its ticks.
    fn ends(&self) -> impl Iterator<Item = (u64, u64)> + '_ {
        self.subject.intervals.iter().scan(0, |time, &ticks| {
            *time += ticks;
            Some((*time, ticks))
        })
    }

    /// The bars of the histogram, and the interval at each peak.
    fn bars(&self, canvas: &mut Canvas) {
        let (width, counts) = (self.histogram.width as f64, &self.histogram.counts);
        let at = |ticks: f64| self.interval.place(ticks / TICKS_PER_MICROSECOND as f64).clamp(UPRIGHT.1, UPRIGHT.0);
        let mut moves = String::new();
        for (bin, &count) in (0..).zip(counts).filter(|(_, &count)| count > 0) {
            let (bottom, top) = (at(f64::from(bin) * width - 0.5), at(f64::from(bin + 1) * width - 0.5));
            moves.push_str(&format!("M{} {bottom:.1}H{:.1}V{top:.1}H{}z", HISTOGRAM.0, self.count.place(count as f64), HISTOGRAM.0));
        }
        canvas.path("bars", &moves);
        for peak in self.histogram.peaks() {
            let middle = at((peak as f64 + 0.5) * width - 0.5);
            let mean = self.histogram.mean_about(peak) / TICKS_PER_MICROSECOND as f64;
            let decimals = 3 - (mean.max(1.0).log10() as usize).min(3);
            canvas.text("small", (self.count.place(counts[peak] as f64) + 5.0, middle + 4.0), &format!("{mean:.decimals$}"));
        }
    }

    /// The edges of both parts, and the index.
    fn frames(&self, canvas: &mut Canvas) {
        let (bottom, top) = UPRIGHT;
        for (left, right) in [OVER_TIME, HISTOGRAM] {
            canvas.path("frame", &format!("M{left} {bottom}H{right}V{top}H{left}z"));
        }
        if self.shows_index() {
            let x = self.time.place(to_milliseconds(u64::from(self.subject.duration)));
            canvas.path("index", &format!("M{x:.1} {bottom}V{top}"));
        }
    }

    /// Whether the end of the stored duration is in the drawing.
    fn shows_index(&self) -> bool {
        let duration = self.subject.duration;
        duration > 0 && u64::from(duration) <= shown_time(self.subject)
    }

    /// A mark at the top edge for intervals that are too long to be shown.
    fn clipped(&self, canvas: &mut Canvas) {
        let long = self.ends().filter(|&(_, ticks)| ticks > self.greatest);
        let mut places: Vec<i64> = long.map(|(end, _)| self.time.place(to_milliseconds(end)).round() as i64).collect();
        places.dedup();
        if !places.is_empty() {
            let moves: String = places.iter().map(|x| triangle(*x as f64, UPRIGHT.1)).collect();
            canvas.path("clipped", &moves);
        }
    }

    /// What the marks mean, from left to right.
    fn legend(&self, canvas: &mut Canvas) {
        let y = 88.0;
        let long = self.subject.intervals.iter().filter(|&&ticks| ticks > self.greatest);
        let mut x = OVER_TIME.0;
        let mut entry = |canvas: &mut Canvas, text: &str| {
            let place = x;
            canvas.text("small", (place + 16.0, y), text);
            x += 40.0 + 6.6 * text.chars().count() as f64;
            place
        };
        if !self.subject.intervals.is_empty() {
            let place = entry(canvas, "interval at its end, darker where several coincide") + 6.0;
            canvas.dots("some", 5.0, &[((10.0 * place) as i64, (10.0 * y) as i64 - 40)]);
        }
        if let Some(&longest) = long.clone().max() {
            let (count, limit) = (grouped(long.count() as u64), microseconds(self.greatest));
            let place = entry(canvas, &format!("{count} clipped: longer than {limit} µs, up to {} µs", microseconds(longest)));
            canvas.path("clipped", &triangle(place + 6.0, y - 9.0));
        }
        if self.shows_index() {
            let place = entry(canvas, "end of the stored duration");
            canvas.path("index", &format!("M{} {}h16", place - 4.0, y - 4.0));
        }
        if self.subject.open > 0 {
            let place = entry(canvas, "open time");
            canvas.path("open", &format!("M{place} {}h12v10h-12z", y - 9.0));
        }
    }
}

/// The ticks that the time axis shows: the flux, and the stored duration unless that is far beyond it.
fn shown_time(subject: &Subject) -> u64 {
    let (total, duration) = (subject.total(), u64::from(subject.duration));
    match (total, duration) {
        (0, 0) => TICKS_PER_MILLISECOND,
        (0, _) => duration,
        _ if duration <= total.saturating_mul(2) => total.max(duration),
        _ => total,
    }
}

/// A triangle with its tip at a place.
fn triangle(x: f64, y: f64) -> String {
    format!("M{x:.1} {y:.1}l-4 8h8z")
}

/// The last part of a path, without its middle if it is long.
fn short_name(name: &str) -> String {
    let last: Vec<char> = name.rsplit('/').next().unwrap_or(name).chars().collect();
    if last.len() <= LONGEST_NAME {
        return last.into_iter().collect();
    }
    let half = LONGEST_NAME / 2;
    let (start, end) = (&last[..half], &last[last.len() - half..]);
    start.iter().chain(&['…']).chain(end).collect()
}
