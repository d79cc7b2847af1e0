//! The measured sheets: what shops have, in the order that a sheet would have it.

use kumolendi::Date;

use crate::case::Case;
use crate::sheet::{Bound, Form, HolidayFile, Monthday, Rule, Time, Weekday};

fn days(start: u32, end: u32) -> Weekday {
    Weekday::Days { start, end, from_start: 31, from_end: 31, offset: 0 }
}

fn span(start: u32, end: u32) -> (Time, Time) {
    (Time::Fixed(start), Time::Fixed(end))
}

fn fixed(month: u32, day: u32) -> Bound {
    Bound { year: 0, form: Form::Fixed { month, day }, offset: 0 }
}

fn easter(offset: i32) -> Bound {
    Bound { year: 0, form: Form::Easter, offset }
}

fn dates(start: Bound, end: Bound) -> Vec<Monthday> {
    vec![Monthday::Dates { start, end }]
}

/// Ten rules of a shop; `turn` moves months and hours, so that a longer sheet does not repeat itself.
fn ten(turn: u32) -> Vec<Rule> {
    let rule = Rule::default();
    let added = Rule { operator: 1, ..Rule::default() };
    let off = Rule { kind: 1, spans: vec![span(0, 1440)], ..Rule::default() };
    let maybe = Rule { kind: 2, comment: 7 + turn, ..Rule::default() };
    let halves = vec![span(480 + 10 * turn, 720), span(840, 1080 + 10 * turn)];
    let summer = vec![Monthday::Months { start: 6 + turn, end: 8 + turn }];
    let last_friday = Weekday::Days { start: 4, end: 4, from_start: 0, from_end: 16, offset: 0 };
    let evening = vec![span(1080, 1200)];
    let till_dusk = vec![(Time::Fixed(540), Time::Event { event: 2, offset: -30 })];
    let years = vec![[2020, 2030, 1 + turn]];
    vec![
        Rule { weekdays: vec![days(0, 4)], spans: halves, ..rule.clone() },
        Rule { weekdays: vec![days(5, 5)], spans: vec![span(540, 780)], ..rule.clone() },
        Rule { weekdays: vec![Weekday::Holiday { school: false, offset: 0 }], ..off.clone() },
        Rule { monthdays: summer, weekdays: vec![days(0, 5)], spans: vec![span(420, 1260)], ..rule },
        Rule { monthdays: dates(fixed(12, 24 + turn), fixed(1, 1 + turn)), ..off.clone() },
        Rule { monthdays: dates(easter(-2), easter(1 + turn as i32)), ..off },
        Rule { weekdays: vec![last_friday], spans: vec![span(1200, 1500)], ..added.clone() },
        Rule { weeks: vec![[1, 53, 2 + turn]], weekdays: vec![days(3, 3)], spans: evening, ..added },
        Rule { operator: 1, years, weekdays: vec![days(6, 6)], spans: till_dusk, ..maybe.clone() },
        Rule { operator: 2, spans: vec![span(600, 960)], ..maybe },
    ]
}

/// The first rules of as many turns as it takes.
pub fn rules(count: usize) -> Vec<Rule> {
    (0..4).flat_map(ten).take(count).collect()
}

pub fn case(rules: Vec<Rule>, date: Date) -> Case {
    let holidays = [(1, 1), (5, 1), (12, 25)];
    let days = (2024..2028).flat_map(|year| holidays.map(|(month, day)| Date::new(year, month, day))).collect();
    let file = HolidayFile { first: 2024, years: 4, days };
    Case { rules, events: [360, 420, 1140, 1200], holidays: [Some(file), None, None, None], date, minute: 0 }
}

/// The same rules under one that is open all day, so that nothing ever changes and every rule is still evaluated.
pub fn unchanging(count: usize) -> Vec<Rule> {
    let mut all = rules(count - 1);
    all.push(Rule { operator: 1, spans: vec![span(0, 1440)], ..Rule::default() });
    all
}

/// Monday to Friday 10:00-18:00, the worked example of 13 bytes.
pub fn example() -> Vec<Rule> {
    let weekdays = vec![Weekday::Days { start: 0, end: 4, from_start: 31, from_end: 0, offset: 0 }];
    vec![Rule { weekdays, spans: vec![span(600, 1080)], ..Rule::default() }]
}

pub fn daily() -> Vec<Rule> {
    vec![Rule { spans: vec![span(600, 1080)], ..Rule::default() }]
}

/// Open from November to April.
pub fn winter() -> Vec<Rule> {
    let months = vec![Monthday::Months { start: 11, end: 4 }];
    vec![Rule { monthdays: months, spans: vec![span(600, 1080)], ..Rule::default() }]
}

/// The longest sheet: 32 rules of eight items each in their longest forms, 6,370 bytes.
pub fn longest() -> Vec<Rule> {
    let nth = |offset| Bound { year: 2024, form: Form::Nth { month: 5, weekday: 3, nth: -1 }, offset };
    let event = |event, offset| Time::Event { event, offset };
    let rule = Rule {
        operator: 1,
        kind: 2,
        comment: 255,
        years: vec![[1900, 9999, 1]; 8],
        monthdays: vec![Monthday::Dates { start: nth(-366), end: nth(366) }; 8],
        weeks: vec![[1, 53, 1]; 8],
        weekdays: vec![Weekday::Days { start: 0, end: 6, from_start: 31, from_end: 31, offset: 1 }; 8],
        spans: vec![(event(0, -1440), event(3, 1440)); 8],
    };
    vec![rule; 32]
}
