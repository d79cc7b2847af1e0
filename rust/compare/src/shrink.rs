//! Simpler cases, and the form that a case has left.

use crate::case::Case;
use crate::sheet::{Bound, Form, Monthday, Rule, Time, Weekday};

/// Cases that are one step simpler, the largest steps first.
pub fn simpler(case: &Case) -> Vec<Case> {
    let mut found = Vec::new();
    for at in 0..case.rules.len() {
        let mut rules = case.rules.clone();
        rules.remove(at);
        found.push(Case { rules, ..case.clone() });
    }
    for slot in 0..4 {
        if case.holidays[slot].is_some() {
            let mut holidays = case.holidays.clone();
            holidays[slot] = None;
            found.push(Case { holidays, ..case.clone() });
        }
    }
    for (at, rule) in case.rules.iter().enumerate() {
        for simple in simpler_rules(rule) {
            let mut rules = case.rules.clone();
            rules[at] = simple;
            found.push(Case { rules, ..case.clone() });
        }
    }
    found.extend(fewer_holidays(case));
    if case.minute != 0 {
        found.push(Case { minute: 0, ..case.clone() });
    }
    if case.events != [65535; 4] {
        found.push(Case { events: [65535; 4], ..case.clone() });
    }
    found
}

/// Half of a file's days, or all but one.
fn fewer_holidays(case: &Case) -> Vec<Case> {
    let mut found = Vec::new();
    for (slot, file) in case.holidays.iter().enumerate() {
        let Some(file) = file else { continue };
        let half = file.days.len() / 2;
        let mut parts = vec![file.days[..half].to_vec(), file.days[half..].to_vec()];
        if file.days.len() <= 6 {
            parts.extend((0..file.days.len()).map(|at| without(&file.days, at)));
        }
        for days in parts.into_iter().filter(|days| days.len() < file.days.len()) {
            let mut simple = case.clone();
            simple.holidays[slot].as_mut().expect("this file").days = days;
            found.push(simple);
        }
    }
    found
}

fn without<T: Clone>(list: &[T], at: usize) -> Vec<T> {
    let mut rest = list.to_vec();
    rest.remove(at);
    rest
}

/// The list with one element replaced, for each simpler form of each element.
fn eased<T: Clone + PartialEq>(list: &[T], ease: impl Fn(&T) -> Vec<T>) -> Vec<Vec<T>> {
    let mut found = Vec::new();
    for (at, item) in list.iter().enumerate() {
        found.push(without(list, at));
        for simple in ease(item).into_iter().filter(|simple| simple != item) {
            let mut copy = list.to_vec();
            copy[at] = simple;
            found.push(copy);
        }
    }
    found
}

fn simpler_rules(rule: &Rule) -> Vec<Rule> {
    let mut found = Vec::new();
    let full_day = vec![(Time::Fixed(0), Time::Fixed(1440))];
    let plain = Rule { operator: 0, kind: 0, comment: 0, ..rule.clone() };
    for simple in [
        plain,
        Rule { operator: 0, ..rule.clone() },
        Rule { kind: 0, ..rule.clone() },
        Rule { comment: 0, ..rule.clone() },
    ] {
        if simple != *rule {
            found.push(simple);
        }
    }
    if rule.spans != full_day {
        found.push(Rule { spans: full_day, ..rule.clone() });
    }
    found.extend(eased(&rule.years, ease_years).into_iter().map(|years| Rule { years, ..rule.clone() }));
    found.extend(eased(&rule.monthdays, ease_monthday).into_iter().map(|monthdays| Rule { monthdays, ..rule.clone() }));
    found.extend(eased(&rule.weeks, ease_weeks).into_iter().map(|weeks| Rule { weeks, ..rule.clone() }));
    found.extend(eased(&rule.weekdays, ease_weekday).into_iter().map(|weekdays| Rule { weekdays, ..rule.clone() }));
    found
}

fn ease_years(item: &[u32; 3]) -> Vec<[u32; 3]> {
    vec![[item[0], item[1], 1], [1900, item[1], item[2]], [item[0], 9999, item[2]]]
}

fn ease_weeks(item: &[u32; 3]) -> Vec<[u32; 3]> {
    vec![[item[0], item[1], 1], [1, item[1], item[2]], [item[0], 53, item[2]]]
}

fn ease_weekday(item: &Weekday) -> Vec<Weekday> {
    match *item {
        Weekday::Days { start, end, from_start, from_end, offset } => vec![
            Weekday::Days { start, end, from_start, from_end, offset: 0 },
            Weekday::Days { start, end, from_start: 31, from_end: 0, offset },
            Weekday::Days { start: 0, end: 6, from_start, from_end, offset },
        ],
        Weekday::Holiday { school, .. } => vec![Weekday::Holiday { school, offset: 0 }],
    }
}

fn ease_monthday(item: &Monthday) -> Vec<Monthday> {
    let Monthday::Dates { start, end } = *item else { return Vec::new() };
    let mut found = vec![Monthday::Dates { start: Bound { year: 0, ..start }, end: Bound { year: 0, ..end } }];
    found.extend(ease_bound(&start).into_iter().map(|start| Monthday::Dates { start, end }));
    found.extend(ease_bound(&end).into_iter().map(|end| Monthday::Dates { start, end }));
    found
}

/// Forms that any other may become, the simplest first.
const SIMPLE: [Form; 3] =
    [Form::Fixed { month: 1, day: 1 }, Form::Fixed { month: 12, day: 31 }, Form::Nth { month: 1, weekday: 0, nth: 0 }];

fn ease_bound(bound: &Bound) -> Vec<Bound> {
    // Only forms before its own, so that no step is ever taken back.
    let rank = SIMPLE.iter().position(|form| *form == bound.form).unwrap_or(SIMPLE.len());
    let mut found: Vec<Bound> = SIMPLE[..rank].iter().map(|form| Bound { form: *form, ..*bound }).collect();
    found.extend([
        Bound { year: 0, ..*bound },
        Bound { offset: 0, ..*bound },
        Bound { offset: bound.offset / 2, ..*bound },
        Bound { offset: bound.offset - bound.offset.signum(), ..*bound },
    ]);
    found
}

/// What a case is made of, in words: rules and the forms of their items.
pub fn forms(case: &Case) -> String {
    let mut parts: Vec<String> = case.rules.iter().map(rule_forms).collect();
    for (slot, file) in case.holidays.iter().enumerate() {
        if file.is_some() {
            parts.push(format!("holidays in slot {slot}"));
        }
    }
    parts.join("; ")
}

fn rule_forms(rule: &Rule) -> String {
    let operator = ["normal", "additional", "fallback"][rule.operator as usize];
    let mut parts = vec![operator.to_string()];
    if rule.kind == 1 {
        parts.push("closed".into());
    }
    parts.extend(rule.years.iter().map(|item| format!("years{}", if item[2] > 1 { " by step" } else { "" })));
    parts.extend(rule.monthdays.iter().map(monthday_form));
    parts.extend(rule.weeks.iter().map(|item| format!("weeks{}", if item[2] > 1 { " by step" } else { "" })));
    parts.extend(rule.weekdays.iter().map(weekday_form));
    if rule.spans.iter().any(|span| *span != (Time::Fixed(0), Time::Fixed(1440))) {
        parts.push("spans".into());
    }
    parts.dedup();
    parts.join(", ")
}

fn monthday_form(item: &Monthday) -> String {
    match item {
        Monthday::Months { .. } => "months".into(),
        Monthday::YearMonths { .. } => "months of a year".into(),
        Monthday::Dates { start, end } => format!("{} to {}", bound_form(start), bound_form(end)),
    }
}

fn bound_form(bound: &Bound) -> String {
    let form = match bound.form {
        Form::Fixed { month: 2, day: 29 } => "29 February",
        Form::Fixed { .. } => "fixed",
        Form::Nth { nth: -4..=-1 | 1..=4, .. } => "nth",
        Form::Nth { nth: -5 | 5, .. } => "fifth",
        Form::Nth { .. } => "nth that no month has",
        Form::Easter => "Easter",
    };
    let year = if bound.year != 0 { " of a year" } else { "" };
    let offset = if bound.offset != 0 { " with offset" } else { "" };
    format!("{form}{year}{offset}")
}

fn weekday_form(item: &Weekday) -> String {
    let (form, offset) = match *item {
        Weekday::Days { from_start: 31, offset, .. } => ("weekdays", offset),
        Weekday::Days { offset, .. } => ("weekdays by flags", offset),
        Weekday::Holiday { school: false, offset } => ("public holidays", offset),
        Weekday::Holiday { school: true, offset } => ("school holidays", offset),
    };
    format!("{form}{}", if offset != 0 { " with offset" } else { "" })
}
