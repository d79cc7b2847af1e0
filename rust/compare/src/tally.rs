//! Counts per class, and the differences found.

use std::collections::BTreeMap;

#[derive(Clone, Copy, Debug, PartialEq, Eq)]
pub enum Outcome {
    Equal,
    /// Equal, and one closed entry for the whole day.
    Closed,
    /// Refused by both, or outside the original's domain and refused here by 1 to 7.
    Refused,
    /// Refused here by 8, which the original does not do.
    Refused8,
    /// The original stopped.
    Panic,
    /// A difference that is on record.
    Known,
    Different,
}

const COLUMNS: [(&str, Outcome); 7] = [
    ("equal", Outcome::Equal),
    ("closed", Outcome::Closed),
    ("refused", Outcome::Refused),
    ("refused8", Outcome::Refused8),
    ("panic", Outcome::Panic),
    ("known", Outcome::Known),
    ("different", Outcome::Different),
];

#[derive(Default)]
pub struct Tally {
    classes: BTreeMap<String, [u64; 7]>,
}

impl Tally {
    pub fn count(&mut self, class: &str, outcome: Outcome) {
        self.classes.entry(class.into()).or_default()[outcome as usize] += 1;
    }

    pub fn total(&self, outcome: Outcome) -> u64 {
        self.classes.values().map(|counts| counts[outcome as usize]).sum()
    }

    pub fn print(&self) {
        print!("{:<24}{:>10}", "class", "cases");
        COLUMNS.iter().for_each(|(name, _)| print!("{name:>10}"));
        println!();
        let mut all = [0; 7];
        for (class, counts) in &self.classes {
            line(class, counts);
            all.iter_mut().zip(counts).for_each(|(sum, count)| *sum += count);
        }
        line("all", &all);
    }
}

fn line(class: &str, counts: &[u64; 7]) {
    print!("{class:<24}{:>10}", counts.iter().sum::<u64>());
    COLUMNS.iter().for_each(|(_, outcome)| print!("{:>10}", counts[*outcome as usize]));
    println!();
}
