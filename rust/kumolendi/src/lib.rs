//! Shop opening hours from packed records: safe calls of the proved library.
//!
//! A record's bytes may be anything: what can't be read is refused with a number and a place. [`Shop`] has the typed
//! questions; [`words`] has one function for each C function, without allocation.
//!
//! ```
//! use kumolendi::{Date, Shop};
//!
//! // Monday to Friday 10:00-18:00
//! let rules = [0x10, 0x01, 0x00, 0x00, 0x00, 0x11, 0x09, 0xF0, 0x00, 0x02, 0x58, 0x21, 0xC0];
//! let shop = Shop { rules: &rules, ..Shop::default() };
//! let day = shop.list_day(Date::new(2024, 1, 1))?;
//! assert_eq!(day[1].to_string(), "10:00 18:00 open 0");
//! # Ok::<(), kumolendi::Refusal>(())
//! ```

#[rustfmt::skip]
mod raw;
mod refusal;
mod schedule;
mod types;
#[rustfmt::skip]
pub mod words;

pub use raw::KumolendiChange;
pub use refusal::{Reason, Refusal};
pub use schedule::Schedule;
pub use types::{Date, Entry, Events, Holidays, Kind, Moment, NextChange};

/// No listing of a day is longer.
pub const MOST_ENTRIES: usize = 129;
/// No schedule has more ranges.
pub const MOST_RANGES: usize = 64;

/// The entries of words that the library wrote.
fn entries(words: &[u32]) -> Vec<Entry> {
    words.iter().map(|word| Entry::of(*word).expect("the library writes kinds 0 to 2 only")).collect()
}

/// A shop's records: its rules, the event times of its place, and its holidays.
#[derive(Clone, Copy, Debug, Default, PartialEq, Eq)]
pub struct Shop<'a> {
    pub rules: &'a [u8],
    pub events: Events,
    pub holidays: Holidays<'a>,
}

impl Shop<'_> {
    fn inputs(&self) -> words::Inputs<'_> {
        let h = &self.holidays;
        words::Inputs {
            rules: self.rules,
            events: self.events.numbers(),
            holidays: [h.public, h.public_unknown, h.school, h.school_unknown],
        }
    }

    /// The whole day, from 0 to 1440, neighbours differing in kind or comment.
    pub fn list_day(&self, date: Date) -> Result<Vec<Entry>, Refusal> {
        let mut out = [0; MOST_ENTRIES];
        Ok(entries(words::list_day(&self.inputs(), date, &mut out)?))
    }

    /// The first minute after `from` with another state, within `days` days, the first included; 0 days means 366.
    pub fn next_change(&self, from: Moment, days: u32) -> Result<NextChange, Refusal> {
        let found = words::next_change(&self.inputs(), from.date, from.minute, days);
        let date = (found.year != 0).then_some(Date::new(found.year, found.month, found.day));
        if found.refusal != 0 {
            return Err(Refusal { number: found.refusal, place: found.place, date });
        }
        let change = date.map(|date| Moment { date, minute: found.minute });
        Ok(NextChange { change, examined: found.examined })
    }
}

/// The number of rules in an image.
pub fn check_rules(rules: &[u8]) -> Result<u32, Refusal> {
    words::check_rules(rules)
}

/// Whether a lone holiday image is sound.
pub fn check_holidays(image: &[u8]) -> Result<(), Refusal> {
    words::check_holidays(image).map(|_| ())
}

/// How many holidays an image has in a month.
pub fn holidays_in_month(image: &[u8], year: u32, month: u32) -> Result<u32, Refusal> {
    words::holidays_in_month(image, year, month)
}

/// The first holiday after a date, the date itself left out.
pub fn first_holiday_after(image: &[u8], date: Date) -> Result<Option<Date>, Refusal> {
    let found = words::first_holiday_after(image, date)?;
    Ok((found != 0).then_some(Date::new(found / 512, found / 32 % 16, found % 32)))
}
