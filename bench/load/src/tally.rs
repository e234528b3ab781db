//! What the clients did, and its summary.

use crate::arguments::Arguments;
use std::fs;
use std::io;
use std::time::{Duration, Instant};

/// Ticks a second in which Linux counts the time of a processor.
const TICKS: f64 = 100.0;

/// A pair that was done.
#[derive(Clone, Copy, Debug)]
pub struct Pair {
    ended: Instant,
    took: Duration,
}

impl From<Instant> for Pair {
    /// A pair that was begun then and ends now.
    fn from(asked: Instant) -> Pair {
        let ended = Instant::now();
        let took = ended - asked;
        Pair { ended, took }
    }
}

/// What one client did.
#[derive(Debug, Default)]
pub struct Record {
    /// How long it took from the start of the program until the first pair was done.
    pub ready: Duration,
    /// The pairs after the first.
    pub pairs: Vec<Pair>,
    /// How many requests were sent again.
    pub repeated: u64,
    /// How many pairs failed.
    pub errors: u32,
    error: Option<String>,
}

impl Record {
    /// Counts an error, and keeps the first.
    pub fn fail(&mut self, error: &io::Error) {
        self.errors += 1;
        self.error.get_or_insert_with(|| error.to_string());
    }
}

/// What all clients did together.
#[derive(Debug, Default)]
pub struct Summary {
    seconds: f64,
    ready: Duration,
    // from the shortest to the longest
    took: Vec<Duration>,
    gap: Duration,
    repeated: u64,
    errors: u32,
    error: String,
}

impl Summary {
    /// The summary of a run whose clients began then.
    pub fn of(records: &[Record], begun: Instant) -> Summary {
        let pairs = || records.iter().flat_map(|it| &it.pairs);
        let mut ends: Vec<Instant> = pairs().map(|it| it.ended).collect();
        ends.sort_unstable();
        let mut took: Vec<Duration> = pairs().map(|it| it.took).collect();
        took.sort_unstable();
        let first_error = records.iter().find_map(|it| it.error.as_ref());
        Summary {
            seconds: ends.last().map_or(0.0, |it| (*it - begun).as_secs_f64()),
            ready: records.iter().map(|it| it.ready).min().unwrap_or_default(),
            took,
            gap: longest_gap(begun, &ends),
            repeated: records.iter().map(|it| it.repeated).sum(),
            errors: records.iter().map(|it| it.errors).sum(),
            error: first_error.cloned().unwrap_or_default(),
        }
    }

    /// The time that so many of a thousand pairs did not exceed, in milliseconds.
    fn within(&self, share: usize) -> f64 {
        let place = (self.took.len() * share).div_ceil(1000).saturating_sub(1);
        milliseconds(self.took.get(place).copied().unwrap_or_default())
    }

    fn pairs_per_second(&self) -> f64 {
        self.took.len() as f64 / self.seconds.max(f64::MIN_POSITIVE)
    }

    /// The summary as one line of JSON.
    pub fn json(&self, arguments: &Arguments) -> String {
        let figures = [
            ("clients", f64::from(arguments.clients)),
            ("seconds", self.seconds),
            ("pairs", self.took.len() as f64),
            ("pairs_per_second", self.pairs_per_second()),
            ("p50_ms", self.within(500)),
            ("p99_ms", self.within(990)),
            ("p999_ms", self.within(999)),
            ("slowest_ms", self.within(1000)),
            ("gap_ms", milliseconds(self.gap)),
            ("ready_ms", milliseconds(self.ready)),
            ("repeated", self.repeated as f64),
            ("errors", f64::from(self.errors)),
            ("processor_seconds", processor_seconds()),
        ];
        let fields = figures.map(|(name, figure)| format!("\"{name}\": {}", rounded(figure)));
        format!("{{{}, \"error\": {:?}}}", fields.join(", "), self.error)
    }
}

/// The longest time in which no pair ended, from the beginning on.
fn longest_gap(begun: Instant, ends: &[Instant]) -> Duration {
    let starts = std::iter::once(&begun).chain(ends);
    let gaps = ends.iter().zip(starts).map(|(end, start)| *end - *start);
    gaps.max().unwrap_or_default()
}

fn milliseconds(time: Duration) -> f64 {
    time.as_secs_f64() * 1e3
}

/// A figure with three digits behind the point, or none where it is whole.
fn rounded(figure: f64) -> f64 {
    (figure * 1e3).round() / 1e3
}

/// The time of processors that this program has used.
fn processor_seconds() -> f64 {
    let text = fs::read_to_string("/proc/self/stat").unwrap_or_default();
    let behind_name = text.rsplit(')').next().unwrap_or_default();
    let ticks = behind_name.split_whitespace().skip(11).take(2);
    ticks.filter_map(|it| it.parse::<f64>().ok()).sum::<f64>() / TICKS
}

#[cfg(test)]
mod tests {
    use super::*;

    /// A client whose pairs ended so many milliseconds after the beginning, and took so long.
    fn record(begun: Instant, pairs: &[(u64, u64)]) -> Record {
        let pair = |&(ended, took)| Pair {
            ended: begun + Duration::from_millis(ended),
            took: Duration::from_millis(took),
        };
        Record {
            pairs: pairs.iter().map(pair).collect(),
            ..Record::default()
        }
    }

    #[test]
    fn half_of_the_pairs_take_at_most_the_median_and_all_at_most_the_longest() {
        let begun = Instant::now();
        let pairs: Vec<(u64, u64)> = (1..=200).map(|it| (it, it)).collect();
        let summary = Summary::of(&[record(begun, &pairs)], begun);
        let found = [500, 990, 999, 1000].map(|share| summary.within(share) as u64);
        assert_eq!(found, [100, 198, 200, 200]);
    }

    #[test]
    fn a_gap_is_one_of_all_clients_together() {
        let begun = Instant::now();
        let records = [
            record(begun, &[(10, 1), (500, 1)]),
            record(begun, &[(200, 1)]),
        ];
        let summary = Summary::of(&records, begun);
        assert_eq!(milliseconds(summary.gap) as u64, 300);
        assert_eq!(summary.pairs_per_second() as u64, 6);
    }

    #[test]
    fn a_run_without_a_pair_has_figures_too() {
        let summary = Summary::of(&[], Instant::now());
        assert_eq!(summary.within(500) as u64, 0);
        assert_eq!(summary.pairs_per_second() as u64, 0);
    }
}
