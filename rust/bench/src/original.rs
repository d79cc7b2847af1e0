//! The original, from the same packed inputs.

use std::sync::Arc;

use chrono::{NaiveDate, NaiveDateTime, NaiveTime};
use opening_hours::localization::Localize;
use opening_hours::schedule::Schedule;
use opening_hours::{Context, ContextHolidays, OpeningHours, RuleKind};
use opening_hours_syntax::rules::time::TimeEvent;
use opening_hours_syntax::{ExtendedTime, Parser};

use crate::case::Case;
use crate::image::decode;

/// Local time with the same four event times on every day.
#[derive(Clone, Debug)]
pub struct Place([Option<NaiveTime>; 4]);

impl Localize for Place {
    type DateTime = NaiveDateTime;

    fn naive(&self, moment: NaiveDateTime) -> NaiveDateTime {
        moment
    }

    fn datetime(&self, moment: NaiveDateTime) -> NaiveDateTime {
        moment
    }

    fn event_time(&self, _: NaiveDate, event: TimeEvent) -> Option<NaiveTime> {
        match event {
            TimeEvent::Dawn => self.0[0],
            TimeEvent::Sunrise => self.0[1],
            TimeEvent::Sunset => self.0[2],
            TimeEvent::Dusk => self.0[3],
        }
    }
}

/// The original's value of a case, read beforehand.
pub fn shop(case: &Case) -> OpeningHours<Place> {
    let read = decode(&case.input().frame(), false).expect("a sound input");
    let [public, public_unknown, school, school_unknown] = read.holidays;
    let context = Context {
        holidays: ContextHolidays::new(public, school),
        holidays_unknown: ContextHolidays::new(public_unknown, school_unknown),
        locale: Place(read.events),
        approx_bound_interval_size: None,
    };
    OpeningHours::parse_with(&mut Parser::holding(read.expr), "").expect("the rules put in").with_context(context)
}

pub fn date(date: kumolendi::Date) -> NaiveDate {
    NaiveDate::from_ymd_opt(date.year as i32, date.month, date.day).expect("a date")
}

pub fn moment(day: kumolendi::Date, minute: u32) -> NaiveDateTime {
    let time = NaiveTime::from_hms_opt(minute / 60, minute % 60, 0).expect("a minute of a day");
    NaiveDateTime::new(date(day), time)
}

/// The number of entries of a listing, walked through as a caller would.
pub fn walk(schedule: Schedule) -> usize {
    schedule.into_iter().map(std::hint::black_box).count()
}

/// A build of one kind without comment.
pub fn build(ranges: &[(u32, u32)], kind: RuleKind, comment: &Arc<str>) -> Schedule {
    let time = |minute: u32| ExtendedTime::from_mins_from_midnight(minute as u16).expect("a minute");
    Schedule::from_ranges(ranges.iter().map(|(start, end)| time(*start)..time(*end)), kind, comment.clone())
}
