//! The library's side, with what must hold of every answer whatever the input was.

use kumolendi::words::{check_rules, list_day};
use kumolendi::{Entry, MOST_ENTRIES, Refusal};

use crate::case::Input;

pub enum Answer {
    Listed(Vec<u32>),
    Refused(Refusal),
    /// Something that no input may cause.
    Wrong(String),
}

/// No entry: its start lies behind its end.
const MARK: u32 = 0xA5A5_A5A5;

/// The listing, checked: the output untouched behind it or under a refusal, the day covered, the number in the table.
pub fn list(input: &Input) -> Answer {
    let mut out = [MARK; MOST_ENTRIES + 3];
    let answer = list_day(&input.inputs(), input.date, &mut out).map(<[u32]>::to_vec);
    let used = answer.as_ref().map_or(0, Vec::len);
    if out[used..].iter().any(|word| *word != MARK) {
        return Answer::Wrong("cells were touched that must not be".into());
    }
    match answer {
        Ok(words) if tiles(&words) => short_output(input, words),
        Ok(words) => Answer::Wrong(format!("entries don't cover the day: {}", text(&words))),
        Err(refusal) => refused(input, refusal),
    }
}

/// From 0 to 1440 without gap or overlap, neighbours of different states, kinds 0 to 2.
fn tiles(words: &[u32]) -> bool {
    let mut at = 0;
    let mut state = None;
    for word in words {
        let (start, end, here) = (word >> 21, word >> 10 & 2047, word & 1023);
        if start != at || start >= end || here >> 8 == 3 || state == Some(here) {
            return false;
        }
        (at, state) = (end, Some(here));
    }
    at == 1440
}

/// With a cell less the same listing is refused by 9, and nothing is touched.
fn short_output(input: &Input, words: Vec<u32>) -> Answer {
    let mut out = [MARK; MOST_ENTRIES];
    let cells = words.len() - 1;
    let due = Refusal { number: 9, place: words.len() as u32, date: None };
    let answer = list_day(&input.inputs(), input.date, &mut out[..cells]).map(<[u32]>::to_vec);
    if answer != Err(due) || out.iter().any(|word| *word != MARK) {
        return Answer::Wrong(format!("{cells} cells for {} entries: {answer:?}", words.len()));
    }
    Answer::Listed(words)
}

/// The refusals of a listing with enough room are 1 to 8, and 1 to 4 are those of the rules alone.
fn refused(input: &Input, refusal: Refusal) -> Answer {
    let rules = check_rules(&input.rules);
    let agrees = match refusal.number {
        1..=4 => rules == Err(refusal) && refusal.place as usize <= 8 * input.rules.len(),
        5 | 6 => rules.is_ok() && refusal.place < 4,
        7 => rules.is_ok() && refusal.place == 0,
        8 => rules.is_ok_and(|count| refusal.place < count),
        _ => false,
    };
    if agrees { Answer::Refused(refusal) } else { Answer::Wrong(format!("{refusal:?} with rules {rules:?}")) }
}

/// The listing in the program's format.
pub fn text(words: &[u32]) -> String {
    let line = |word: &u32| Entry::of(*word).map_or(format!("word {word:08x}\n"), |entry| format!("{entry}\n"));
    words.iter().map(line).collect()
}

/// Entries that are not closed without a comment.
pub fn shown(text: &str) -> usize {
    text.lines().filter(|line| !line.ends_with(" closed 0")).count()
}
