//! Listings against the original, and damaged copies of each input.

use crate::case::{Case, Input, hex};
use crate::damage::damaged;
use crate::dice::Dice;
use crate::oracle::Oracle;
use crate::ours::{Answer, list, shown, text};
use crate::random;
use crate::tally::{Outcome, Tally};

const BATCH: u64 = 4000;
/// Damaged copies of each input.
const COPIES: u64 = 2;

struct Asked {
    class: String,
    input: Input,
    /// The values, where the input was made from some.
    case: Option<Case>,
}

/// Compares so many random cases; the number of differences.
pub fn run(oracle: &Oracle, cases: u64, seed: u64) -> Result<u64, String> {
    let mut tally = Tally::default();
    let mut eights = Eights::default();
    for first in (0..cases).step_by(BATCH as usize) {
        let asked: Vec<Asked> = (first..cases.min(first + BATCH)).flat_map(|number| questions(seed, number)).collect();
        let frames: Vec<Vec<u8>> = asked.iter().map(|question| question.input.frame()).collect();
        let theirs = oracle.ask(&["batch"], &frames)?;
        let mut refused = Vec::new();
        for (question, theirs) in asked.iter().zip(&theirs) {
            let outcome = judge(question, theirs, &mut refused);
            tally.count(&question.class, outcome);
        }
        eights.confirm(oracle, &refused)?;
        if first % (25 * BATCH) == 0 {
            eprintln!("{first} of {cases} cases, {} differences", tally.total(Outcome::Different));
        }
    }
    tally.print();
    eights.print();
    Ok(tally.total(Outcome::Different) + eights.contradicted)
}

/// A random case and its damaged copies.
fn questions(seed: u64, number: u64) -> Vec<Asked> {
    let (theme, case) = random::case(seed, number);
    let input = case.input();
    let mut dice = Dice::of_case(!seed, number);
    let mut asked = Vec::new();
    for _ in 0..COPIES {
        asked.push(Asked { class: "~ damaged".into(), input: damaged(&input, &mut dice), case: None });
    }
    asked.push(Asked { class: format!("{theme:?}"), input, case: Some(case) });
    asked
}

/// Holds our answer to the original's; a refusal by 8 is kept for a closer look.
fn judge(question: &Asked, theirs: &str, refused: &mut Vec<(Case, usize)>) -> Outcome {
    let (outcome, ours) = match list(&question.input) {
        Answer::Wrong(what) => (Outcome::Different, what),
        Answer::Refused(refusal) if refusal.number == 8 => {
            if let Some(case) = &question.case {
                refused.push((case.clone(), refusal.place as usize));
            }
            (Outcome::Refused8, refusal.to_string())
        }
        Answer::Refused(refusal) if theirs == "oracle: not in domain\n" => (Outcome::Refused, refusal.to_string()),
        Answer::Refused(refusal) => (Outcome::Different, refusal.to_string()),
        Answer::Listed(_) if theirs.starts_with("panic") => (Outcome::Panic, String::new()),
        Answer::Listed(words) => {
            let ours = text(&words);
            // More than 64 shown ranges can't come from an addition that was kept.
            let fits = ours == theirs && shown(theirs) <= 64;
            let same = if words.len() == 1 && words[0] & 1023 == 256 { Outcome::Closed } else { Outcome::Equal };
            (if fits { same } else { Outcome::Different }, ours)
        }
    };
    if matches!(outcome, Outcome::Different | Outcome::Panic) {
        println!("{outcome:?}, {}: {}", question.class, hex(&question.input.frame()));
        println!("ours:\n{}\ntheirs:\n{theirs}", ours.trim_end());
    }
    outcome
}

/// Refusals by 8, held to the number of ranges that the original shows after the refused rule.
#[derive(Default)]
struct Eights {
    confirmed: u64,
    /// Closed ranges without comment count but don't show, so that nothing can be said.
    hidden: u64,
    contradicted: u64,
}

impl Eights {
    fn confirm(&mut self, oracle: &Oracle, refused: &[(Case, usize)]) -> Result<(), String> {
        let cut = |(case, place): &(Case, usize)| Case { rules: case.rules[..=*place].to_vec(), ..case.clone() };
        let cases: Vec<Case> = refused.iter().map(cut).collect();
        let frames: Vec<Vec<u8>> = cases.iter().map(|case| case.input().frame()).collect();
        for (case, theirs) in cases.iter().zip(oracle.ask(&["batch"], &frames)?) {
            if shown(&theirs) > 64 {
                self.confirmed += 1;
            } else if case.rules.iter().any(|rule| rule.kind == 1 && rule.comment == 0) {
                self.hidden += 1;
            } else {
                self.contradicted += 1;
                println!("8 without 65 ranges: {}", hex(&case.input().frame()));
            }
        }
        Ok(())
    }

    fn print(&self) {
        println!(
            "refused by 8: {} with over 64 ranges in the original, {} with ranges that don't show, {} contradicted",
            self.confirmed, self.hidden, self.contradicted
        );
    }
}
