//! A histogram of times. Standard library only.
use std::fmt;

/// How many buckets there are for each power of two, as a power of two.
const PARTS: u32 = 7;

/// Counts of times in nanoseconds, in 128 buckets for each power of two: so a time that it returns
/// is up to one part in 128 too long.
pub struct Histogram {
    counts: Vec<u64>,
    count: u64,
    greatest: u64,
}

impl Default for Histogram {
    fn default() -> Histogram {
        Histogram { counts: vec![0; bucket(u64::MAX) + 1], count: 0, greatest: 0 }
    }
}

/// The bucket of a time.
fn bucket(time: u64) -> usize {
    let shift = u64::BITS - 1 - PARTS - time.max(1 << PARTS).leading_zeros();
    ((shift as usize) << PARTS) + (time >> shift) as usize
}

/// The longest time of a bucket.
fn longest(bucket: usize) -> u64 {
    let shift = (bucket >> PARTS).saturating_sub(1);
    let part = (bucket - (shift << PARTS)) as u64;
    (part << shift) + ((1 << shift) - 1)
}

impl Histogram {
    pub fn add(&mut self, time: u64) {
        self.counts[bucket(time)] += 1;
        self.count += 1;
        self.greatest = self.greatest.max(time);
    }

    pub fn add_all(&mut self, other: &Histogram) {
        for (own, more) in self.counts.iter_mut().zip(&other.counts) {
            *own += more;
        }
        self.count += other.count;
        self.greatest = self.greatest.max(other.greatest);
    }

    /// The time that this share of the times, of 1, is at most; 0 where there is no time.
    pub fn at(&self, share: f64) -> u64 {
        let wanted = ((self.count as f64 * share).ceil() as u64).max(1);
        let mut below = 0;
        let found = self.counts.iter().position(|count| {
            below += count;
            below >= wanted
        });
        found.map_or(self.greatest, |bucket| longest(bucket).min(self.greatest))
    }
}

/// A JSON object of microseconds.
impl fmt::Display for Histogram {
    fn fmt(&self, out: &mut fmt::Formatter) -> fmt::Result {
        let micros = |time: u64| time as f64 / 1_000.0;
        write!(out, r#"{{"count": {}, "median": {:.3}, "#, self.count, micros(self.at(0.5)))?;
        write!(out, r#""99th": {:.3}, "#, micros(self.at(0.99)))?;
        write!(out, r#""99.9th": {:.3}, "#, micros(self.at(0.999)))?;
        write!(out, r#""greatest": {:.3}}}"#, micros(self.greatest))
    }
}
