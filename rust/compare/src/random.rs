//! Random questions in the domain that both sides answer, each under a theme that it is rich in.

use kumolendi::Date;

use crate::calendar::{easter, month_length, rough_week, shifted, weekday};
use crate::case::Case;
use crate::dice::Dice;
use crate::sheet::{Bound, Form, HolidayFile, Monthday, Rule, Time, Weekday};

#[derive(Clone, Copy, Debug, PartialEq, Eq, PartialOrd, Ord)]
pub enum Theme {
    Mixed,
    Years,
    Months,
    FixedDates,
    LeapDays,
    NthWeekdays,
    Easter,
    Weeks,
    Weekdays,
    Holidays,
    Events,
    Nights,
    Operators,
    Crowded,
    Edges,
}

pub const THEMES: [Theme; 15] = [
    Theme::Mixed,
    Theme::Years,
    Theme::Months,
    Theme::FixedDates,
    Theme::LeapDays,
    Theme::NthWeekdays,
    Theme::Easter,
    Theme::Weeks,
    Theme::Weekdays,
    Theme::Holidays,
    Theme::Events,
    Theme::Nights,
    Theme::Operators,
    Theme::Crowded,
    Theme::Edges,
];

/// The case of a number under a seed.
pub fn case(seed: u64, number: u64) -> (Theme, Case) {
    made(seed, number, false)
}

/// The same with few rules that each leave out most days, so that a search has far to go.
pub fn sparse_case(seed: u64, number: u64) -> (Theme, Case) {
    made(seed, number, true)
}

fn made(seed: u64, number: u64, sparse: bool) -> (Theme, Case) {
    let mut dice = Dice::of_case(seed, number);
    let theme = dice.pick(&THEMES);
    let date = random_date(&mut dice, theme);
    let silent = dice.chance(40);
    let mut maker = Maker { dice, theme, near: date, sparse, silent };
    let rules = maker.sheet();
    let holidays = [0, 1, 2, 3].map(|slot| maker.holidays(slot, &rules));
    let events = [0, 1, 2, 3].map(|event| maker.event(event));
    let minute = maker.dice.number(0, 1439);
    (theme, Case { rules, events, holidays, date, minute })
}

fn random_date(dice: &mut Dice, theme: Theme) -> Date {
    let year = match (theme, dice.below(10)) {
        (Theme::Edges, 0) => dice.pick(&[1, 1899, 10000, 12000]),
        (Theme::Edges, _) | (_, 0) => dice.pick(&[1900, 1901, 1999, 2000, 2100, 9998, 9999]),
        (_, 1..5) => dice.number(2015, 2030),
        _ => dice.number(1900, 9999),
    };
    let close = dice.from(-3, 3);
    match theme {
        Theme::Easter if dice.chance(60) => return shifted(easter(year), close),
        Theme::LeapDays if dice.chance(60) => return shifted(Date::new(year, 3, 1), close),
        _ => {}
    }
    let month = match theme {
        Theme::Edges => dice.pick(&[1, 12]),
        _ => [dice.number(1, 12), 1, 2, 3, 9, 12][dice.below(6)],
    };
    let day = [dice.number(1, 31), 1, 2, 20, 22, 28, 29, 31][dice.below(8)];
    Date::new(year, month, day.min(month_length(year, month)))
}

/// Makes values near a date, so that what is drawn often matters on it.
struct Maker {
    dice: Dice,
    theme: Theme,
    near: Date,
    sparse: bool,
    /// Whether a crowded sheet may have ranges that are closed without comment, which count but don't show.
    silent: bool,
}

impl Maker {
    fn is(&self, theme: Theme) -> bool {
        self.theme == theme
    }

    fn sheet(&mut self) -> Vec<Rule> {
        let count = match self.theme {
            _ if self.sparse => self.dice.pick(&[1, 1, 1, 2, 3]),
            Theme::Crowded => [self.dice.from(7, 12), self.dice.from(8, 32)][self.dice.below(2)],
            Theme::Operators => self.dice.from(2, 8),
            _ => [1, 1, 2, 2, 3, 4, self.dice.from(0, 6)][self.dice.below(7)],
        };
        (0..count).map(|_| self.rule()).collect()
    }

    fn rule(&mut self) -> Rule {
        let mut rule = self.any_rule();
        let items = rule.years.len() + rule.monthdays.len() + rule.weeks.len() + rule.weekdays.len();
        match self.dice.below(5) {
            _ if !self.sparse || items > 0 => {}
            0 => rule.years.push(self.years()),
            1 => rule.weeks.push(self.weeks()),
            2 => rule.weekdays.push(self.weekday()),
            _ => rule.monthdays.push(self.monthday()),
        }
        rule
    }

    fn any_rule(&mut self) -> Rule {
        let plain = self.is(Theme::Crowded) || self.is(Theme::Operators);
        let least = u32::from(self.is(Theme::Crowded) && !self.silent);
        Rule {
            operator: self.operator(),
            kind: self.dice.pick(&[0, 0, 1, 2]),
            comment: [least, least, 1, self.dice.number(least, 255)][self.dice.below(4)],
            years: self.some(Theme::Years, if plain { 1 } else { 12 }, Self::years),
            monthdays: self.monthdays(if plain { 4 } else { 30 }),
            weeks: self.some(Theme::Weeks, if plain { 1 } else { 12 }, Self::weeks),
            weekdays: self.weekdays(if plain { 10 } else { 35 }),
            spans: self.spans(),
        }
    }

    fn operator(&mut self) -> u32 {
        match self.theme {
            Theme::Crowded => self.dice.pick(&[1, 1, 1, 1, 1, 0, 2]),
            _ => self.dice.pick(&[0, 0, 1, 2]),
        }
    }

    /// A list of items: nearly always present under its own theme, seldom under another, where it would hide that one.
    fn some<T>(&mut self, theme: Theme, percent: usize, make: impl Fn(&mut Self) -> T) -> Vec<T> {
        let percent = match self.theme {
            own if own == theme => 92,
            Theme::Mixed => percent,
            _ => percent / 3,
        };
        if !self.dice.chance(percent) {
            return Vec::new();
        }
        let count = self.dice.pick(&[1, 1, 1, 2, 3, 8]);
        (0..count).map(|_| make(self)).collect()
    }

    fn year(&mut self) -> u32 {
        let dice = &mut self.dice;
        let near = self.near.year as i32 + dice.from(-2, 2);
        let year = [self.near.year as i32, near, dice.from(1900, 9999), dice.pick(&[1900, 1901, 9998, 9999])];
        year[dice.below(4)].clamp(1900, 9999) as u32
    }

    fn years(&mut self) -> [u32; 3] {
        let (start, end) = (self.year(), self.year());
        let swap = start > end && self.dice.chance(70);
        let step = [1, 1, 2, 4, self.dice.number(1, 9999)][self.dice.below(5)];
        if swap { [end, start, step] } else { [start, end, step] }
    }

    fn weeks(&mut self) -> [u32; 3] {
        let near = rough_week(self.near);
        let step = [1, 1, 2, self.dice.number(1, 53)][self.dice.below(4)];
        let ends = match self.dice.below(4) {
            0 => [self.dice.from(1, 53), self.dice.from(1, 53)],
            1 => [self.dice.pick(&[1, 52, 53]), 53],
            _ => [near + self.dice.from(-3, 1), near + self.dice.from(-1, 3)],
        };
        [ends[0].clamp(1, 53) as u32, ends[1].clamp(1, 53) as u32, step]
    }

    fn offset(&mut self) -> i32 {
        let dice = &mut self.dice;
        let all = [0, 0, 0, dice.from(-7, 7), dice.from(-366, 366), dice.pick(&[-366, -365, 365, 366])];
        all[dice.below(6)]
    }

    fn month(&mut self) -> u32 {
        [self.near.month, self.dice.number(1, 12), 2][self.dice.below(3)]
    }

    fn monthdays(&mut self, percent: usize) -> Vec<Monthday> {
        let dated = [Theme::Months, Theme::FixedDates, Theme::LeapDays, Theme::NthWeekdays, Theme::Easter];
        let theme = if dated.contains(&self.theme) { self.theme } else { Theme::Months };
        self.some(theme, percent, Self::monthday)
    }

    fn monthday(&mut self) -> Monthday {
        let months = if self.is(Theme::Months) { 85 } else { 20 };
        if self.dice.chance(months) {
            let (start, end) = (self.month(), self.month());
            return match self.dice.below(2) {
                0 => Monthday::Months { start, end },
                _ => Monthday::YearMonths { year: self.year(), start, end },
            };
        }
        if self.dice.chance(if self.is(Theme::LeapDays) { 50 } else { 4 }) {
            let leap = |offset| Bound { year: 0, form: Form::Fixed { month: 2, day: 29 }, offset };
            return Monthday::Dates { start: leap(self.offset()), end: leap(self.offset()) };
        }
        let start = self.bound();
        let mut end = self.bound();
        if self.dice.chance(30) {
            end = Bound { offset: end.offset, ..start };
        }
        Monthday::Dates { start, end }
    }

    fn bound(&mut self) -> Bound {
        let year = if self.dice.chance(25) { self.year() } else { 0 };
        let offset = self.offset();
        let form = if self.dice.chance(50) { self.form_near(offset) } else { self.form() };
        Bound { year, form, offset }
    }

    fn tag(&mut self) -> u32 {
        match self.theme {
            Theme::FixedDates | Theme::LeapDays => self.dice.pick(&[0, 0, 0, 0, 1, 2]),
            Theme::NthWeekdays => self.dice.pick(&[0, 1, 1, 1, 1, 2]),
            Theme::Easter => self.dice.pick(&[0, 1, 2, 2, 2, 2]),
            _ => self.dice.pick(&[0, 0, 1, 2]),
        }
    }

    /// A date that with its offset falls on the day asked for or beside it.
    fn form_near(&mut self, offset: i32) -> Form {
        let day = shifted(self.near, self.dice.from(-2, 2) - offset);
        match self.tag() {
            0 => Form::Fixed { month: day.month, day: day.day },
            1 => {
                let left = month_length(day.year, day.month) - day.day;
                let nth = [(day.day as i32 - 1) / 7 + 1, -(left as i32 / 7) - 1][self.dice.below(2)];
                Form::Nth { month: day.month, weekday: weekday(day), nth }
            }
            _ => Form::Easter,
        }
    }

    fn form(&mut self) -> Form {
        let month = self.month();
        match self.tag() {
            0 if self.is(Theme::LeapDays) && self.dice.chance(60) => Form::Fixed { month: 2, day: 29 },
            0 => {
                let day = [self.near.day, self.dice.number(1, 31), 29, 30, 31, 1][self.dice.below(6)];
                Form::Fixed { month, day }
            }
            1 => {
                let nth = [self.dice.from(-8, 7), self.dice.from(-5, 5), 1, -1][self.dice.below(4)];
                Form::Nth { month, weekday: self.dice.number(0, 6), nth }
            }
            _ => Form::Easter,
        }
    }

    fn weekdays(&mut self, percent: usize) -> Vec<Weekday> {
        let theme = if self.is(Theme::Holidays) { Theme::Holidays } else { Theme::Weekdays };
        self.some(theme, percent, Self::weekday)
    }

    fn weekday(&mut self) -> Weekday {
        let holiday = if self.is(Theme::Holidays) { 75 } else { 25 };
        let offset = self.offset();
        if self.dice.chance(holiday) {
            return Weekday::Holiday { school: self.dice.chance(50), offset };
        }
        let any = (self.dice.number(0, 31), self.dice.number(0, 31));
        let (from_start, from_end) = [(31, 31), (31, 0), (0, 31), any][self.dice.below(4)];
        Weekday::Days { start: self.dice.number(0, 6), end: self.dice.number(0, 6), from_start, from_end, offset }
    }

    fn spans(&mut self) -> Vec<(Time, Time)> {
        if self.is(Theme::Crowded) && self.dice.chance(85) {
            return (0..8).map(|_| self.short_span()).collect();
        }
        if self.dice.chance(6) {
            return Vec::new();
        }
        let count = self.dice.pick(&[1, 1, 1, 2, 3, 8]);
        (0..count).map(|_| (self.time(), self.time())).collect()
    }

    /// A few minutes, so that many spans find room in a day or in the night after it.
    fn short_span(&mut self) -> (Time, Time) {
        let last = self.dice.pick(&[1430, 1430, 2870]);
        let start = self.dice.number(0, last);
        (Time::Fixed(start), Time::Fixed(start + self.dice.number(1, 9)))
    }

    fn time(&mut self) -> Time {
        let events = if self.is(Theme::Events) { 75 } else { 15 };
        let dice = &mut self.dice;
        if dice.chance(events) {
            let offset = [0, dice.from(-120, 120), dice.from(-1440, 1440), dice.pick(&[-1440, 1440])];
            return Time::Event { event: dice.number(0, 3), offset: offset[dice.below(4)] };
        }
        let late = [dice.number(1440, 2880), dice.pick(&[0, 1439, 1440, 1441, 2879, 2880])];
        let any = [dice.number(0, 1440), dice.number(0, 2880), 60 * dice.number(0, 48), late[dice.below(2)]];
        Time::Fixed(if self.theme == Theme::Nights { any[dice.below(2) + 2] } else { any[dice.below(4)] })
    }

    fn event(&mut self, event: usize) -> u16 {
        let usual = [360, 420, 1140, 1200][event];
        [65535, self.dice.number(0, 1439), usual, usual][self.dice.below(4)] as u16
    }

    fn holidays(&mut self, slot: usize, rules: &[Rule]) -> Option<HolidayFile> {
        if self.dice.chance(if self.is(Theme::Holidays) { 15 } else { 50 }) {
            return None;
        }
        let years = if self.dice.chance(1) { 200 } else { self.dice.pick(&[0, 1, 1, 2, 3, 3, 5, 12]) };
        let first = self.near.year as i32 + self.dice.from(-2, 1);
        let first = first.clamp(1900, 10000 - years.max(1) as i32) as u32;
        let mut days = Vec::new();
        for year in first..first + years {
            for _ in 0..self.dice.pick(&[0, 3, 12, 60]) {
                let month = [self.dice.number(1, 12), self.near.month][self.dice.below(2)];
                days.push(Date::new(year, month, self.dice.number(1, month_length(year, month))));
            }
        }
        days.extend(self.looked_up(slot, rules).into_iter().filter(|day| (first..first + years).contains(&day.year)));
        Some(HolidayFile { first, years, days })
    }

    /// Days that the sheet's holiday items ask about, half of them.
    fn looked_up(&mut self, slot: usize, rules: &[Rule]) -> Vec<Date> {
        let mut days = Vec::new();
        for item in rules.iter().flat_map(|rule| &rule.weekdays) {
            if let Weekday::Holiday { school, offset } = *item
                && school == (slot >= 2)
                && self.dice.chance(50)
            {
                days.push(shifted(self.near, -offset - self.dice.from(0, 1)));
            }
        }
        days
    }
}
