//! Schedules by themselves: ranges of a day, built, added and listed.

use crate::{Entry, Kind, MOST_ENTRIES, MOST_RANGES, Refusal, entries, words};

/// Ranges of a day. Whether they are sound is asked where they are used (refusal 10).
#[derive(Clone, Debug, Default, PartialEq, Eq)]
pub struct Schedule {
    words: Vec<u32>,
}

impl Schedule {
    /// A schedule of one kind and comment from (start, end) minutes; overlapping and touching ranges join.
    pub fn build(given: &[(u16, u16)], kind: Kind, comment: u8) -> Result<Schedule, Refusal> {
        let given: Vec<u32> = given.iter().map(|&(start, end)| u32::from(start) << 16 | u32::from(end)).collect();
        let mut out = [0; MOST_RANGES];
        let built = words::build(&given, kind as u8, comment, &mut out)?;
        Ok(Schedule { words: built.to_vec() })
    }

    /// A schedule of ranges as they are.
    pub fn offered(ranges: &[Entry]) -> Schedule {
        Schedule { words: ranges.iter().map(Entry::word).collect() }
    }

    /// This schedule with another laid over it.
    pub fn add(&self, over: &Schedule) -> Result<Schedule, Refusal> {
        let mut out = [0; MOST_RANGES];
        let sum = words::addition(&self.words, &over.words, &mut out)?;
        Ok(Schedule { words: sum.to_vec() })
    }

    /// The whole day, gaps shown as closed.
    pub fn list(&self) -> Result<Vec<Entry>, Refusal> {
        let mut out = [0; MOST_ENTRIES];
        Ok(entries(words::listing(&self.words, &mut out)?))
    }

    /// The stored ranges.
    pub fn ranges(&self) -> Vec<Entry> {
        entries(&self.words)
    }
}
