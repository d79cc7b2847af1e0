//! The next change: against the original's days one by one, and against the original's own search with its hints.

use std::collections::BTreeMap;

use kumolendi::words::next_change;
use kumolendi::{Date, KumolendiChange, Moment};

use crate::calendar::{END, number};
use crate::case::{Case, hex};
use crate::oracle::Oracle;
use crate::random;
use crate::shrink::{forms, simpler};
use crate::tally::{Outcome, Tally};

const BATCH: u64 = 1000;
/// The days of a search, one after the other for each batch; 0 means 366.
const DAYS: [u32; 5] = [0, 1, 30, 400, 7];
/// The original's own search has a bound in days, which must lie behind every answer within 366 days.
const OWN: [&str; 5] = ["--constant", "never", "--bound", "370", "next-batch"];
const OWN_DAYS: u32 = 366;
/// Differences that are made smaller; each takes some dozen runs of the original.
const SHRUNK: usize = 300;

fn ours(case: &Case, days: u32) -> KumolendiChange {
    next_change(&case.input().inputs(), case.date, case.minute, days)
}

fn frames(cases: &[Case]) -> Vec<Vec<u8>> {
    cases.iter().map(|case| case.input().frame_at(case.minute)).collect()
}

/// The answer in the original's words.
fn moment(found: &KumolendiChange) -> String {
    let date = Date::new(found.year, found.month, found.day);
    if found.year == 0 { "none\n".into() } else { format!("{}\n", Moment { date, minute: found.minute }) }
}

/// Against the original's days one by one: everything must be equal.
pub fn plain(oracle: &Oracle, cases: u64, seed: u64) -> Result<u64, String> {
    let mut tally = Tally::default();
    for (turn, first) in (0..cases).step_by(BATCH as usize).enumerate() {
        let asked = DAYS[turn % DAYS.len()];
        let days = if asked == 0 { 366 } else { asked };
        let case =
            |number| if number % 2 == 0 { random::case(seed, number) } else { random::sparse_case(seed, number) };
        let made: Vec<_> = (first..cases.min(first + BATCH)).map(case).collect();
        let batch: Vec<Case> = made.iter().map(|(_, case)| case.clone()).collect();
        let theirs = oracle.ask(&["plain-batch", &days.to_string()], &frames(&batch))?;
        for ((theme, case), theirs) in made.iter().zip(&theirs) {
            let found = ours(case, asked);
            let outcome = judge(case, &found, days, theirs);
            tally.count(&format!("{theme:?}"), outcome);
            if outcome == Outcome::Different {
                println!("{theme:?}, {asked} days: {}", hex(&case.input().frame_at(case.minute)));
                println!("ours:\n{found:?}\ntheirs:\n{theirs}");
            }
        }
    }
    tally.print();
    Ok(tally.total(Outcome::Different))
}

fn judge(case: &Case, found: &KumolendiChange, days: u32, theirs: &str) -> Outcome {
    let from = number(case.date);
    let left = (number(END) - from).clamp(0, days.into());
    let through = number(Date::new(found.year, found.month.max(1), found.day)) - from + 1;
    match found.refusal {
        8 if (1..=left).contains(&through) => Outcome::Refused8,
        0 if theirs.starts_with("panic") => Outcome::Panic,
        0 if theirs != moment(found) => Outcome::Different,
        0 if i64::from(found.examined) != if found.year == 0 { left } else { through } => Outcome::Different,
        0 if found.year == 0 => Outcome::Closed,
        0 => Outcome::Equal,
        _ => Outcome::Different,
    }
}

/// The original's own answer as far as 366 days see it.
fn within(case: &Case, theirs: &str) -> String {
    let parts: Vec<u32> = theirs.split(['-', ' ', ':', '\n']).filter_map(|part| part.parse().ok()).collect();
    match parts[..] {
        [year, month, day, _, _] if number(Date::new(year, month, day)) - number(case.date) >= OWN_DAYS.into() => {
            "none\n".into()
        }
        _ => theirs.into(),
    }
}

/// Whether the original's own search answers otherwise; not asked where a day is refused by 8.
fn differing(oracle: &Oracle, cases: &[Case]) -> Result<Vec<Option<String>>, String> {
    let theirs = oracle.ask(&OWN, &frames(cases))?;
    let judge = |(case, theirs): (&Case, String)| {
        let found = ours(case, OWN_DAYS);
        let theirs = within(case, &theirs);
        (found.refusal == 0 && moment(&found) != theirs).then_some(theirs)
    };
    Ok(cases.iter().zip(theirs).map(judge).collect())
}

/// Takes the first simpler case that still differs, as long as there is one.
fn shrunk(oracle: &Oracle, mut case: Case) -> Result<Case, String> {
    loop {
        let smaller = simpler(&case);
        let differ = differing(oracle, &smaller)?;
        match smaller.into_iter().zip(differ).find(|(_, differs)| differs.is_some()) {
            Some((found, _)) => case = found,
            None => return Ok(case),
        }
    }
}

/// Against the original's own search: differences are expected; they are made small and sorted by form.
pub fn own(oracle: &Oracle, cases: u64, seed: u64) -> Result<u64, String> {
    let mut found = Vec::new();
    for first in (0..cases).step_by(BATCH as usize) {
        let numbers = first..cases.min(first + BATCH);
        let batch: Vec<Case> = numbers.map(|number| random::sparse_case(seed, number).1).collect();
        let differ = differing(oracle, &batch)?;
        found.extend(batch.into_iter().zip(differ).filter_map(|(case, differs)| differs.map(|_| case)));
    }
    println!(
        "{} of {cases} differ from the original's own search; made smaller: {}",
        found.len(),
        found.len().min(SHRUNK)
    );
    let mut classes: BTreeMap<String, (u64, Case)> = BTreeMap::new();
    for case in found.into_iter().take(SHRUNK) {
        let small = shrunk(oracle, case)?;
        let size = |case: &Case| case.input().frame().len();
        let class = classes.entry(class(oracle, &small)?).or_insert((0, small.clone()));
        class.0 += 1;
        if size(&small) < size(&class.1) {
            class.1 = small;
        }
    }
    for (form, (count, case)) in &classes {
        report(oracle, form, *count, case)?;
    }
    Ok(0)
}

/// The forms that a difference needs, and whether the original finds nothing, too late or too early a moment.
fn class(oracle: &Oracle, case: &Case) -> Result<String, String> {
    let theirs = differing(oracle, std::slice::from_ref(case))?.remove(0).unwrap_or_default();
    let ours = moment(&ours(case, OWN_DAYS));
    let side = match theirs.as_str() {
        "none\n" => "finds none",
        panic if panic.starts_with("panic") => "stops",
        _ if ours == "none\n" || theirs < ours => "finds too early a moment",
        _ => "finds too late a moment",
    };
    Ok(format!("{}: the original {side}", forms(case)))
}

fn report(oracle: &Oracle, form: &str, count: u64, case: &Case) -> Result<(), String> {
    let theirs = differing(oracle, std::slice::from_ref(case))?.remove(0).unwrap_or_default();
    let start = Moment { date: case.date, minute: case.minute };
    println!("{count} of the form: {form}");
    println!("  from {start}, rules {}", hex(&case.input().rules));
    println!("  ours {}  theirs {}", moment(&ours(case, OWN_DAYS)).trim_end(), theirs.trim_end());
    println!("  input {}", hex(&case.input().frame_at(case.minute)));
    Ok(())
}
