//! Both sides in one process: nanoseconds per call, and ours as a part or multiple of the original's.

// Shared files have more than is needed here.
#[allow(dead_code)]
mod case;
mod clock;
#[allow(dead_code)]
mod image;
mod original;
#[allow(dead_code)]
mod sheet;
mod sheets;

use std::hint::black_box;
use std::sync::Arc;

use kumolendi::words::{self, Inputs};
use kumolendi::{Date, MOST_ENTRIES, MOST_RANGES};
use opening_hours::RuleKind;

use crate::case::Case;
use crate::clock::fastest;

const START: Date = Date::new(2024, 1, 1);

/// Keeps the compiler from leaving out a call whose result nobody needs.
fn used<T>(result: T) {
    black_box(result);
}

fn line(what: &str, ours: f64, theirs: f64) {
    println!("{what:<58}{ours:>12.0}{theirs:>12.0}{:>9.2}", ours / theirs);
}

/// A year's first 28 days, so that weekdays and holidays take their turns.
fn list_from_bytes(rules: usize) {
    let case = sheets::case(sheets::rules(rules), START);
    let (input, shop) = (case.input(), original::shop(&case));
    let inputs = input.inputs();
    let dates: Vec<Date> = (1..=28).map(|day| Date { day, ..START }).collect();
    let same: Vec<_> = dates.iter().map(|date| original::date(*date)).collect();
    let mut out = [0; MOST_ENTRIES];
    let mut ours = || {
        for date in &dates {
            used(words::list_day(black_box(&inputs), black_box(*date), &mut out).expect("not refused"));
        }
    };
    let mut theirs = || {
        for date in &same {
            used(original::walk(black_box(&shop).schedule_at(black_box(*date))));
        }
    };
    let [ours, theirs] = fastest([&mut ours, &mut theirs]);
    line(&format!("(a) list a day from bytes, {rules} rules"), ours / 28.0, theirs / 28.0);
}

/// A day of a sheet read once: what 999 further days cost a search that finds nothing.
fn list_from_read(rules: usize) {
    let case = sheets::case(sheets::unchanging(rules), START);
    let (input, shop) = (case.input(), original::shop(&case));
    let inputs = input.inputs();
    let search = |days: u32| {
        let found = words::next_change(black_box(&inputs), START, 0, days);
        assert_eq!((found.refusal, found.year, found.examined), (0, 0, days), "a sheet that never changes");
    };
    let days: Vec<_> = original::date(START).iter_days().take(1000).collect();
    let [long, short, at, walked] = fastest([
        &mut || search(1000),
        &mut || search(1),
        &mut || days.iter().for_each(|day| used(black_box(&shop).schedule_at(black_box(*day)))),
        &mut || days.iter().for_each(|day| used(original::walk(black_box(&shop).schedule_at(black_box(*day))))),
    ]);
    let ours = (long - short) / 999.0;
    line(&format!("(b) a day of a sheet read once, {rules} rules; schedule_at"), ours, at / 1000.0);
    line("(b) the same; schedule_at and its listing", ours, walked / 1000.0);
}

fn next_change(what: &str, case: &Case) {
    let (input, shop) = (case.input(), original::shop(case));
    let inputs: Inputs = input.inputs();
    let moment = original::moment(case.date, case.minute);
    let found = words::next_change(&inputs, case.date, case.minute, 0);
    let same = shop.next_change(moment).expect("a change");
    let ours = original::moment(Date::new(found.year, found.month, found.day), found.minute);
    assert_eq!(ours, same, "both sides find the same");
    let mut ours = || used(words::next_change(black_box(&inputs), case.date, case.minute, 0));
    let mut theirs = || used(black_box(&shop).next_change(black_box(moment)));
    let [ours, theirs] = fastest([&mut ours, &mut theirs]);
    line(&format!("(c) next change, {what}, {} days examined", found.examined), ours, theirs);
}

fn read(what: &str, rules: Vec<sheet::Rule>) {
    let image = sheet::sheet_image(&rules);
    let [ours] = fastest([&mut || used(words::check_rules(black_box(&image)).expect("a sound image"))]);
    let what = format!("(d) read {what}, {} bytes", image.len());
    println!("{what:<58}{ours:>12.0}{:>12}{:>9}", "-", "-");
}

/// Ranges of a width, twenty minutes apart.
fn ladder(count: u32, width: u32) -> Vec<(u32, u32)> {
    (0..count).map(|i| (20 * i + 5, 20 * i + 5 + width)).collect()
}

fn schedules(count: u32) {
    let (ranges, over) = (ladder(count, 10), ladder(count, 12));
    let given: Vec<u32> = ranges.iter().map(|(start, end)| start << 16 | end).collect();
    let above: Vec<u32> = over.iter().map(|(start, end)| start << 16 | end).collect();
    let comment: Arc<str> = "".into();
    let (first, second) =
        (original::build(&ranges, RuleKind::Open, &comment), original::build(&over, RuleKind::Unknown, &comment));
    let (mut a, mut b, mut out) = ([0; MOST_RANGES], [0; MOST_RANGES], [0; MOST_ENTRIES]);
    let a = words::build(&given, 0, 0, &mut a).expect("not refused");
    let b = words::build(&above, 2, 0, &mut b).expect("not refused");
    let mut room = [0; MOST_RANGES];
    let mut ours = || used(words::build(black_box(&given), 0, 0, &mut room).expect("not refused"));
    let mut theirs = || used(original::build(black_box(&ranges), RuleKind::Open, &comment));
    let [ours, theirs] = fastest([&mut ours, &mut theirs]);
    line(&format!("(e) build of {count} ranges"), ours, theirs);
    let [ours, theirs, copies] = fastest([
        &mut || used(words::addition(black_box(a), black_box(b), &mut room).expect("not refused")),
        &mut || used(black_box(&first).clone().addition(black_box(&second).clone())),
        &mut || used((black_box(&first).clone(), black_box(&second).clone())),
    ]);
    // The original's addition uses its schedules up, so that they are copied for each call.
    line(&format!("(e) addition of {count}+{count} ranges"), ours, theirs - copies);
    let [ours, theirs, copies] = fastest([
        &mut || used(words::listing(black_box(a), &mut out).expect("not refused")),
        &mut || used(original::walk(black_box(&first).clone())),
        &mut || used(black_box(&first).clone()),
    ]);
    line(&format!("(e) listing of {count} ranges"), ours, theirs - copies);
}

fn main() {
    println!("{:<58}{:>12}{:>12}{:>9}", "nanoseconds per call, fastest of 1000 rounds", "ours", "original", "ratio");
    [3, 10, 32].into_iter().for_each(list_from_bytes);
    [3, 10, 32].into_iter().for_each(list_from_read);
    next_change("a shop open daily", &sheets::case(sheets::daily(), START));
    next_change("closed for half a year", &sheets::case(sheets::winter(), Date::new(2024, 5, 1)));
    next_change("32 rules", &sheets::case(sheets::rules(32), START));
    read("the worked example", sheets::example());
    read("a sheet of 10 rules", sheets::rules(10));
    read("the longest image", sheets::longest());
    [2, 8, 64].into_iter().for_each(schedules);
}
