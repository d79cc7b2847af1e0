//! Build, addition and listing by themselves, against the original's and against painted minutes.

use kumolendi::words::{addition, build, listing};
use kumolendi::{MOST_ENTRIES, MOST_RANGES, Refusal};

use crate::dice::Dice;
use crate::oracle::{Oracle, split};
use crate::ours::text;
use crate::tally::{Outcome, Tally};

const BATCH: u64 = 4000;
const KINDS: [&str; 3] = ["open", "closed", "unknown"];

/// How the ranges of a build lie to each other.
#[derive(Clone, Copy, Debug, PartialEq)]
enum Lie {
    Apart,
    /// Touching or overlapping, none inside another.
    Overlapping,
    /// Anyhow: the original shortens a range that holds another.
    Holding,
}

struct Built {
    kind: usize,
    comment: u32,
    ranges: Vec<(u32, u32)>,
}

/// Compares so many random sums of builds; the number of differences that are not known ones.
pub fn run(oracle: &Oracle, cases: u64, seed: u64) -> Result<u64, String> {
    let mut tally = Tally::default();
    for first in (0..cases).step_by(BATCH as usize) {
        let sums: Vec<(Lie, Vec<Built>)> = (first..cases.min(first + BATCH)).map(|number| sum(seed, number)).collect();
        let commands: String = sums.iter().map(|(_, parts)| commands(parts)).collect();
        let theirs = split(&oracle.run(&["schedule"], commands.into_bytes())?);
        if theirs.len() != sums.len() + 1 {
            return Err(format!("{} answers to {} sums", theirs.len(), sums.len()));
        }
        for ((lie, parts), theirs) in sums.iter().zip(&theirs) {
            tally.count(&format!("{lie:?}"), judge(*lie, parts, theirs));
        }
    }
    tally.print();
    Ok(tally.total(Outcome::Different))
}

fn sum(seed: u64, number: u64) -> (Lie, Vec<Built>) {
    let mut dice = Dice::of_case(seed, number);
    let lie = dice.pick(&[Lie::Apart, Lie::Apart, Lie::Overlapping, Lie::Overlapping, Lie::Holding]);
    let parts = dice.pick(&[1, 2, 2, 3, 4, 10]);
    (lie, (0..parts).map(|_| built(lie, &mut dice)).collect())
}

fn built(lie: Lie, dice: &mut Dice) -> Built {
    let count = dice.pick(&[0, 1, 2, 3, 8, 30, 64]);
    let ranges = if lie == Lie::Holding { anyhow(count, dice) } else { rising(lie, count, dice) };
    Built { kind: dice.below(3), comment: dice.pick(&[0, 0, 1, 255]), ranges }
}

fn anyhow(count: usize, dice: &mut Dice) -> Vec<(u32, u32)> {
    (0..count).map(|_| (dice.number(0, 1440), dice.number(0, 1440))).collect()
}

/// Rising starts and rising ends, then shuffled; some ranges are empty or the wrong way round.
fn rising(lie: Lie, count: usize, dice: &mut Dice) -> Vec<(u32, u32)> {
    let mut minutes: Vec<u32> = (0..2 * count).map(|_| dice.number(0, 1440)).collect();
    minutes.sort_unstable();
    minutes.dedup();
    let reach = if lie == Lie::Apart { 1 } else { dice.from(1, 5) as usize };
    let step = if lie == Lie::Apart { 2 } else { 1 };
    let pairs = minutes.iter().zip(minutes.iter().skip(reach)).step_by(step);
    let mut ranges: Vec<(u32, u32)> = pairs.map(|(start, end)| (*start, *end)).take(count).collect();
    for i in (1..ranges.len()).rev() {
        ranges.swap(i, dice.below(i + 1));
    }
    if let Some(last) = ranges.last_mut()
        && dice.chance(20)
    {
        *last = (last.1, last.0);
    }
    ranges
}

/// The original's commands for a sum and its listing.
fn commands(parts: &[Built]) -> String {
    let mut text = String::new();
    for (i, part) in parts.iter().enumerate() {
        text += &format!("build {} {}", KINDS[part.kind], part.comment);
        part.ranges.iter().for_each(|(start, end)| text += &format!(" {start}-{end}"));
        text += if i == 0 { "\n" } else { "\nadd\n" };
    }
    text + "list\n"
}

/// The same by the library.
fn listed(parts: &[Built]) -> Result<String, Refusal> {
    let mut sum = Vec::new();
    for part in parts {
        let given: Vec<u32> = part.ranges.iter().map(|(start, end)| start << 16 | end).collect();
        let (mut own, mut both) = ([0; MOST_RANGES], [0; MOST_RANGES]);
        let own = build(&given, part.kind as u8, part.comment as u8, &mut own)?;
        sum = addition(&sum, own, &mut both)?.to_vec();
    }
    let mut out = [0; MOST_ENTRIES];
    listing(&sum, &mut out).map(text)
}

/// A day by minutes; what no range covers is none.
type Minutes = [Option<(usize, u32)>; 1440];

/// The first minutes of the runs of equal states.
fn runs(day: &Minutes) -> Vec<usize> {
    (0..1440).filter(|t| *t == 0 || day[*t] != day[*t - 1]).collect()
}

/// The same by minutes, a later part over an earlier one; none where more than 64 ranges would be kept.
fn painted(parts: &[Built]) -> Option<String> {
    let mut day: Minutes = [None; 1440];
    for part in parts {
        for minute in part.ranges.iter().flat_map(|(start, end)| *start..*end) {
            day[minute as usize] = Some((part.kind, part.comment));
        }
        if runs(&day).into_iter().filter(|t| day[*t].is_some()).count() > MOST_RANGES {
            return None;
        }
    }
    // What is not shown is closed without comment.
    let shown = day.map(|state| Some(state.unwrap_or((1, 0))));
    let starts = runs(&shown);
    let ends = starts.iter().skip(1).copied().chain([1440]);
    let line = |(start, end): (&usize, usize)| {
        let (kind, comment) = shown[*start].expect("filled in");
        format!("{:02}:{:02} {:02}:{:02} {} {comment}\n", start / 60, start % 60, end / 60, end % 60, KINDS[kind])
    };
    Some(starts.iter().zip(ends).map(line).collect())
}

fn judge(lie: Lie, parts: &[Built], theirs: &str) -> Outcome {
    let ours = listed(parts);
    let due = painted(parts);
    let outcome = match &ours {
        Ok(text) if due.as_ref() != Some(text) => Outcome::Different,
        Ok(text) if text == theirs => Outcome::Equal,
        Ok(_) if lie == Lie::Holding => Outcome::Known,
        Err(refusal) if refusal.number == 8 && refusal.place == 0 && due.is_none() => Outcome::Refused8,
        _ => Outcome::Different,
    };
    if outcome == Outcome::Different {
        println!("{outcome:?}, {lie:?}:\n{}ours:\n{ours:?}\ntheirs:\n{theirs}", commands(parts));
    }
    outcome
}
