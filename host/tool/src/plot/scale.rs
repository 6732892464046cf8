//! What part of the values a drawing shows, and its round marks.

/// An axis from 0 up, on a stretch of the drawing.
#[derive(Clone, Copy)]
pub struct Axis {
    /// The greatest value shown.
    pub high: f64,
    /// Where 0 lies.
    from: f64,
    /// Where the greatest value lies.
    to: f64,
    /// The distance of two marks.
    step: f64,
}

impl Axis {
    /// An axis for values to `high`, with at most so many marks after 0.
    pub fn new(high: f64, (from, to): (f64, f64), marks: u32) -> Axis {
        Axis { high, from, to, step: round_step(high / f64::from(marks)) }
    }

    /// The axis with marks at whole numbers only.
    pub fn whole(self) -> Axis {
        Axis { step: self.step.max(1.0), ..self }
    }

    /// Where a value lies.
    pub fn place(&self, value: f64) -> f64 {
        self.from + (self.to - self.from) * value / self.high
    }

    /// The marks with their labels.
    pub fn marks(&self) -> Vec<(f64, String)> {
        let decimals = (-self.step.log10().floor()).clamp(0.0, 6.0) as usize;
        let count = (self.high / self.step * (1.0 + 1e-9)) as u32;
        (0..=count).map(|index| f64::from(index) * self.step).map(|value| (value, format!("{value:.decimals$}"))).collect()
    }
}

/// The least of 1, 2 and 5 times a power of ten that is not below the size.
fn round_step(size: f64) -> f64 {
    let power = 10_f64.powf(size.log10().floor());
    let factor = [1.0, 2.0, 5.0].into_iter().find(|factor| factor * power >= size * (1.0 - 1e-9));
    factor.unwrap_or(10.0) * power
}

/// The longest interval shown, in ticks: all of them if they are near each other, else half as much again as the 95th
/// percentile or four medians, so that a few long ones do not squash the rest.
pub fn greatest_shown(intervals: &[u64]) -> u64 {
    let mut sorted = intervals.to_vec();
    sorted.sort_unstable();
    let rank = |percent: usize| sorted.len().checked_sub(1).and_then(|last| sorted.get(last * percent / 100)).copied();
    let (Some(median), Some(high), Some(longest)) = (rank(50), rank(95), rank(100)) else {
        return DEFAULT_SHOWN;
    };
    let limit = high.min(median.saturating_mul(4)).saturating_mul(3) / 2;
    if longest <= limit {
        return longest + longest / 10 + 1;
    }
    limit.max(1)
}

/// What is shown where there are no intervals: 10 microseconds.
const DEFAULT_SHOWN: u64 = 400;

/// How often each bin of intervals occurs.
pub struct Histogram {
    /// The ticks of a bin.
    pub width: u64,
    /// The intervals of each bin.
    pub counts: Vec<u64>,
    /// The sum of the intervals of each bin, in ticks.
    sums: Vec<u64>,
}

impl Histogram {
    /// Counts the intervals up to `greatest` in at most so many bins.
    pub fn of(intervals: &[u64], greatest: u64, most: u64) -> Histogram {
        let width = greatest / most + 1;
        let bins = (greatest / width) as usize + 1;
        let (mut counts, mut sums) = (vec![0; bins], vec![0_u64; bins]);
        for &ticks in intervals.iter().filter(|&&ticks| ticks <= greatest) {
            let bin = (ticks / width) as usize;
            counts[bin] += 1;
            sums[bin] = sums[bin].saturating_add(ticks);
        }
        Histogram { width, counts, sums }
    }

    /// The greatest count.
    pub fn highest(&self) -> u64 {
        self.counts.iter().copied().max().unwrap_or(0)
    }

    /// The bins that stand out: they have a twentieth of the highest or more, no bin near them is higher, and on both sides
    /// the bins near them fall to half their height.
    pub fn peaks(&self) -> Vec<usize> {
        let stands_out = |&bin: &usize| {
            let (before, after) = self.near(bin);
            let count = self.counts[bin];
            let falls = |side: &[u64]| side.len() < self.nearness() || side.iter().any(|&other| 2 * other <= count);
            let above = before.iter().all(|&other| other < count) && after.iter().all(|&other| other <= count);
            above && falls(before) && falls(after) && count > 0 && 20 * count >= self.highest()
        };
        (0..self.counts.len()).filter(stands_out).collect()
    }

    /// The mean in ticks of the intervals about a peak: of the bins near it, as far as they have a tenth of its height.
    pub fn mean_about(&self, peak: usize) -> f64 {
        let (before, after) = self.near(peak);
        let high = |bin: &usize| 10 * self.counts[*bin] >= self.counts[peak];
        let lower = (peak - before.len()..peak).rev().take_while(high);
        let upper = (peak..=peak + after.len()).take_while(high);
        let add = |(sum, count), bin: usize| (sum + self.sums[bin] as f64, count + self.counts[bin]);
        let (sum, count) = lower.chain(upper).fold((0.0, 0), add);
        sum / (count as f64).max(1.0)
    }

    /// How many bins are near another, on each side.
    fn nearness(&self) -> usize {
        (self.counts.len() / 16).max(1)
    }

    /// The counts of the bins near another, before and after it.
    fn near(&self, bin: usize) -> (&[u64], &[u64]) {
        let (start, end) = (bin.saturating_sub(self.nearness()), (bin + self.nearness() + 1).min(self.counts.len()));
        (&self.counts[start..bin], &self.counts[bin + 1..end])
    }
}

#[cfg(test)]
mod tests {
    use super::*;

    #[test]
    fn marks_are_round() {
        let labels = |high| Axis::new(high, (0.0, 100.0), 8).marks().into_iter().map(|(_, label)| label).collect::<Vec<_>>();
        assert_eq!(labels(12.0), ["0", "2", "4", "6", "8", "10", "12"]);
        assert_eq!(labels(0.4), ["0.00", "0.05", "0.10", "0.15", "0.20", "0.25", "0.30", "0.35", "0.40"]);
        assert_eq!(labels(200.5).len(), 5);
    }

    #[test]
    fn long_intervals_do_not_squash_the_rest() {
        assert_eq!(greatest_shown(&[]), DEFAULT_SHOWN);
        assert_eq!(greatest_shown(&[160]), 177);
        assert_eq!(greatest_shown(&[160, 65_537, 240]), 360);
        assert_eq!(greatest_shown(&[u64::MAX / 4]), u64::MAX / 4 + u64::MAX / 40 + 1);
        let mut intervals = vec![160; 1000];
        intervals.extend([320; 100]);
        assert_eq!(greatest_shown(&intervals), 353);
        intervals.extend([100_000; 10]);
        assert_eq!(greatest_shown(&intervals), 480);
    }

    #[test]
    fn a_slope_has_no_peak() {
        let slope: Vec<u64> = (100..300).flat_map(|ticks| vec![ticks; 400 - ticks as usize]).collect();
        assert_eq!(Histogram::of(&slope, 320, 1000).peaks(), []);
        let hill: Vec<u64> = [slope, vec![200; 1000]].concat();
        let histogram = Histogram::of(&hill, 320, 1000);
        assert_eq!((histogram.peaks(), histogram.mean_about(200).round()), (vec![200], 199.0));
    }

    #[test]
    fn every_shown_interval_is_counted() {
        let histogram = Histogram::of(&[0, 1, 160, 160, 360, 361, 9000], 360, 260);
        assert_eq!((histogram.width, histogram.counts.iter().sum::<u64>(), histogram.highest()), (2, 5, 2));
        assert_eq!((histogram.peaks(), histogram.mean_about(80)), (vec![0, 80, 180], 160.0));
    }
}
