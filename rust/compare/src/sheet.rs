//! Rules and holidays as values, and their images.

use kumolendi::Date;

#[derive(Clone, Copy, Debug, PartialEq)]
pub enum Form {
    Fixed { month: u32, day: u32 },
    Nth { month: u32, weekday: u32, nth: i32 },
    Easter,
}

/// A date with its offset; year 0 for none.
#[derive(Clone, Copy, Debug, PartialEq)]
pub struct Bound {
    pub year: u32,
    pub form: Form,
    pub offset: i32,
}

#[derive(Clone, Copy, Debug, PartialEq)]
pub enum Monthday {
    Months { start: u32, end: u32 },
    YearMonths { year: u32, start: u32, end: u32 },
    Dates { start: Bound, end: Bound },
}

#[derive(Clone, Copy, Debug, PartialEq)]
pub enum Weekday {
    Days { start: u32, end: u32, from_start: u32, from_end: u32, offset: i32 },
    Holiday { school: bool, offset: i32 },
}

#[derive(Clone, Copy, Debug, PartialEq)]
pub enum Time {
    Fixed(u32),
    Event { event: u32, offset: i32 },
}

/// A start, an end and a step.
pub type Steps = [u32; 3];

#[derive(Clone, Debug, Default, PartialEq)]
pub struct Rule {
    pub operator: u32,
    pub kind: u32,
    pub comment: u32,
    pub years: Vec<Steps>,
    pub monthdays: Vec<Monthday>,
    pub weeks: Vec<Steps>,
    pub weekdays: Vec<Weekday>,
    pub spans: Vec<(Time, Time)>,
}

#[derive(Clone, Debug, PartialEq)]
pub struct HolidayFile {
    pub first: u32,
    pub years: u32,
    pub days: Vec<Date>,
}

/// Bits, the most significant first.
#[derive(Default)]
struct Bits {
    bytes: Vec<u8>,
    count: usize,
}

impl Bits {
    fn put(&mut self, value: u32, width: usize) {
        for bit in (0..width).rev() {
            if self.count.is_multiple_of(8) {
                self.bytes.push(0);
            }
            let last = self.bytes.len() - 1;
            self.bytes[last] |= ((value >> bit & 1) as u8) << (7 - self.count % 8);
            self.count += 1;
        }
    }

    fn signed(&mut self, value: i32, width: usize) {
        self.put(value as u32, width);
    }

    fn bound(&mut self, bound: &Bound) {
        let tag = match bound.form {
            Form::Fixed { .. } => 0,
            Form::Nth { .. } => 1,
            Form::Easter => 2,
        };
        self.put(tag, 2);
        self.put(u32::from(bound.year != 0), 1);
        self.put(bound.year, 14);
        match bound.form {
            Form::Fixed { month, day } => {
                self.put(month, 4);
                self.put(day, 5);
            }
            Form::Nth { month, weekday, nth } => {
                self.put(month, 4);
                self.put(weekday, 3);
                self.signed(nth, 4);
            }
            Form::Easter => {}
        }
        self.signed(bound.offset, 10);
    }

    fn monthday(&mut self, item: &Monthday) {
        match item {
            Monthday::Months { start, end } => {
                self.put(0, 2);
                self.put(*start, 4);
                self.put(*end, 4);
            }
            Monthday::YearMonths { year, start, end } => {
                self.put(1, 2);
                self.put(*year, 14);
                self.put(*start, 4);
                self.put(*end, 4);
            }
            Monthday::Dates { start, end } => {
                self.put(2, 2);
                self.bound(start);
                self.bound(end);
            }
        }
    }

    fn weekday(&mut self, item: &Weekday) {
        match *item {
            Weekday::Days { start, end, from_start, from_end, offset } => {
                self.put(0, 1);
                self.put(start, 3);
                self.put(end, 3);
                self.put(from_start, 5);
                self.put(from_end, 5);
                self.signed(offset, 10);
            }
            Weekday::Holiday { school, offset } => {
                self.put(1, 1);
                self.put(u32::from(school), 1);
                self.signed(offset, 10);
            }
        }
    }

    fn time(&mut self, time: &Time) {
        match *time {
            Time::Fixed(minute) => {
                self.put(0, 1);
                self.put(minute, 12);
            }
            Time::Event { event, offset } => {
                self.put(1, 1);
                self.put(event, 2);
                self.signed(offset, 12);
            }
        }
    }

    fn steps(&mut self, items: &[Steps], width: usize) {
        for value in items.iter().flatten() {
            self.put(*value, width);
        }
    }

    fn rule(&mut self, rule: &Rule) {
        self.put(rule.operator, 2);
        self.put(rule.kind, 2);
        self.put(rule.comment, 8);
        let counts = [rule.years.len(), rule.monthdays.len(), rule.weeks.len(), rule.weekdays.len(), rule.spans.len()];
        for count in counts {
            self.put(count as u32, 4);
        }
        self.steps(&rule.years, 14);
        rule.monthdays.iter().for_each(|item| self.monthday(item));
        self.steps(&rule.weeks, 6);
        rule.weekdays.iter().for_each(|item| self.weekday(item));
        for (start, end) in &rule.spans {
            self.time(start);
            self.time(end);
        }
    }
}

/// The image of a sheet.
pub fn sheet_image(rules: &[Rule]) -> Vec<u8> {
    let mut bits = Bits::default();
    bits.put(1, 4);
    bits.put(0, 6);
    bits.put(rules.len() as u32, 6);
    rules.iter().for_each(|rule| bits.rule(rule));
    bits.bytes
}

/// The image of a holiday file for a slot: public, public unknown, school, school unknown.
pub fn holiday_image(file: &HolidayFile, slot: usize) -> Vec<u8> {
    let mut bits = Bits::default();
    bits.put(file.first, 14);
    bits.put(file.years, 8);
    bits.put(slot as u32, 2);
    let mut image = bits.bytes;
    image.resize((24 + 372 * file.years as usize).div_ceil(8), 0);
    for day in &file.days {
        let at = 24 + 372 * (day.year - file.first) + 31 * (day.month - 1) + day.day - 1;
        image[at as usize / 8] |= 128 >> (at % 8);
    }
    image
}
