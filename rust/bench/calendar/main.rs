//! The calendar of two builds, and a floor in C, in one process: nanoseconds per call.

#[path = "../src/clock.rs"]
mod clock;

use std::hint::black_box;
use std::ptr::null;

use clock::{fastest, fastest_of};

/// The C struct of a next change.
#[repr(C)]
#[derive(Debug, PartialEq)]
struct Change {
    refusal: u32,
    place: u32,
    year: u32,
    month: u32,
    day: u32,
    minute: u32,
    examined: u32,
}

type DayNumber = unsafe extern "C" fn(u32, u32, u32) -> u32;
type DateOf = unsafe extern "C" fn(u32) -> u32;
type ListDay = unsafe extern "C" fn(
    *const u8, usize, u16, u16, u16, u16,
    *const u8, usize, *const u8, usize, *const u8, usize, *const u8, usize,
    u32, u32, u32, *mut u32, usize,
) -> u64;
type NextChange = unsafe extern "C" fn(
    *const u8, usize, u16, u16, u16, u16,
    *const u8, usize, *const u8, usize, *const u8, usize, *const u8, usize,
    u32, u32, u32, u32, u32,
) -> Change;

macro_rules! build {
    ($library:literal, $calls:literal, $number:ident, $date:ident, $list:ident, $next:ident) => {
        #[link(name = $library, kind = "static")]
        unsafe extern "C" {
            fn $list(
                rules: *const u8, rules_len: usize, dawn: u16, sunrise: u16, sunset: u16, dusk: u16,
                public: *const u8, public_len: usize, public_unknown: *const u8, public_unknown_len: usize,
                school: *const u8, school_len: usize, school_unknown: *const u8, school_unknown_len: usize,
                year: u32, month: u32, day: u32, out: *mut u32, out_len: usize,
            ) -> u64;
            fn $next(
                rules: *const u8, rules_len: usize, dawn: u16, sunrise: u16, sunset: u16, dusk: u16,
                public: *const u8, public_len: usize, public_unknown: *const u8, public_unknown_len: usize,
                school: *const u8, school_len: usize, school_unknown: *const u8, school_unknown_len: usize,
                year: u32, month: u32, day: u32, minute: u32, days: u32,
            ) -> Change;
        }
        #[link(name = $calls, kind = "static")]
        unsafe extern "C" {
            fn $number(year: u32, month: u32, day: u32) -> u32;
            fn $date(n: u32) -> u32;
        }
    };
}

build!("before_kumolendi_c", "before_calls", before_day_number, before_date_of, before_list_day, before_next_change);
build!("after_kumolendi_c", "after_calls", after_day_number, after_date_of, after_list_day, after_next_change);

#[link(name = "floor", kind = "static")]
unsafe extern "C" {
    fn floor_day_number(year: u32, month: u32, day: u32) -> u32;
    fn floor_date_of(n: u32) -> u32;
}

/// Monday to Friday 10:00-18:00, the worked example.
const RULES: [u8; 13] = [0x10, 0x01, 0, 0, 0, 0x11, 0x09, 0xf0, 0, 0x02, 0x58, 0x21, 0xc0];
const EVENTS: [u16; 4] = [360, 420, 1140, 1200];
const YEARS: [u32; 3] = [1, 2024, 9999];
const ALL: std::ops::RangeInclusive<u32> = 1900..=9999;
/// Of loops over all days, which last for seconds.
const FEW_ROUNDS: usize = 3;

fn month_length(year: u32, month: u32) -> u32 {
    let leap = year % 4 == 0 && (year % 100 != 0 || year % 400 == 0);
    [31, if leap { 29 } else { 28 }, 31, 30, 31, 30, 31, 31, 30, 31, 30, 31][month as usize - 1]
}

/// Calls with every date of the years.
fn dates(years: std::ops::RangeInclusive<u32>, mut call: impl FnMut(u32, u32, u32)) {
    for year in years {
        for month in 1..=12 {
            (1..=month_length(year, month)).for_each(|day| call(year, month, day));
        }
    }
}

fn number(call: DayNumber, years: std::ops::RangeInclusive<u32>) -> u32 {
    let mut sum = 0u32;
    // SAFETY: a date of the years 1 to 9999 meets the condition.
    dates(years, |year, month, day| sum = sum.wrapping_add(unsafe { call(year, month, day) }));
    sum
}

fn date(call: DateOf, first: u32, count: u32) -> u32 {
    // SAFETY: numbers from 1 to 100,000,000 meet the condition.
    (first..first + count).fold(0, |sum, n| sum.wrapping_add(unsafe { call(n) }))
}

fn list(call: ListDay, years: std::ops::RangeInclusive<u32>) -> u64 {
    let ([dawn, sunrise, sunset, dusk], mut out, mut sum) = (EVENTS, [0; 129], 0);
    dates(years, |year, month, day| {
        // SAFETY: every slice is a pointer with its length, empty ones null.
        sum += unsafe {
            call(
                RULES.as_ptr(), RULES.len(), dawn, sunrise, sunset, dusk,
                null(), 0, null(), 0, null(), 0, null(), 0,
                year, month, day, out.as_mut_ptr(), out.len(),
            )
        };
        sum += u64::from(black_box(&out)[0]);
    });
    sum
}

/// A next change over one day, on 28 days of January.
fn next(call: NextChange, year: u32) -> Vec<Change> {
    let [dawn, sunrise, sunset, dusk] = EVENTS;
    let ask = |day| {
        // SAFETY: as above.
        unsafe {
            call(
                RULES.as_ptr(), RULES.len(), dawn, sunrise, sunset, dusk,
                null(), 0, null(), 0, null(), 0, null(), 0,
                year, 1, day, 0, 1,
            )
        }
    };
    (1..=28).map(ask).collect()
}

fn same<T: PartialEq + std::fmt::Debug, const N: usize>(answers: [T; N]) {
    assert!(answers.iter().all(|answer| *answer == answers[0]), "the builds differ: {answers:?}");
}

fn line(what: &str, before: f64, after: f64, floor: Option<f64>) {
    let floor = floor.map_or(String::new(), |floor| format!("{floor:>9.1}{:>9.2}", after / floor));
    println!("{what:<40}{before:>11.1}{after:>9.1}{:>9.4}{floor}", after / before);
}

fn year_by_year(year: u32) {
    let years = || black_box(year..=year);
    let mut days = 0;
    dates(years(), |_, _, _| days += 1);
    let per_day = |ns: f64| ns / f64::from(days);
    let numbers: [DayNumber; 3] = [before_day_number, after_day_number, floor_day_number];
    same(numbers.map(|call| number(call, years())));
    let [before, after, floor] = fastest([
        &mut || drop(black_box(number(before_day_number, years()))),
        &mut || drop(black_box(number(after_day_number, years()))),
        &mut || drop(black_box(number(floor_day_number, years()))),
    ]);
    line(&format!("day number, {year}"), per_day(before), per_day(after), Some(per_day(floor)));
    // SAFETY: a date of the years 1 to 9999.
    let first = unsafe { floor_day_number(year, 1, 1) };
    let inverses: [DateOf; 3] = [before_date_of, after_date_of, floor_date_of];
    same(inverses.map(|call| date(call, first, days)));
    let [before, after, floor] = fastest([
        &mut || drop(black_box(date(before_date_of, black_box(first), days))),
        &mut || drop(black_box(date(after_date_of, black_box(first), days))),
        &mut || drop(black_box(date(floor_date_of, black_box(first), days))),
    ]);
    line(&format!("date of a number, {year}"), per_day(before), per_day(after), Some(per_day(floor)));
    same([list(before_list_day, years()), list(after_list_day, years())]);
    let [before, after] = fastest([
        &mut || drop(black_box(list(before_list_day, years()))),
        &mut || drop(black_box(list(after_list_day, years()))),
    ]);
    line(&format!("listing of the worked example, {year}"), per_day(before), per_day(after), None);
    same([next(before_next_change, year), next(after_next_change, year)]);
    let [before, after] = fastest([
        &mut || drop(black_box(next(before_next_change, black_box(year)))),
        &mut || drop(black_box(next(after_next_change, black_box(year)))),
    ]);
    line(&format!("next change of one day, {year}"), before / 28.0, after / 28.0, None);
}

fn all_days() {
    let (first, mut days) = (693962, 0);
    dates(ALL, |_, _, _| days += 1);
    let per_day = |ns: f64| ns / f64::from(days);
    let [before, after, floor] = fastest_of(FEW_ROUNDS, [
        &mut || drop(black_box(number(before_day_number, ALL))),
        &mut || drop(black_box(number(after_day_number, ALL))),
        &mut || drop(black_box(number(floor_day_number, ALL))),
    ]);
    line("day number, all days 1900 to 9999", per_day(before), per_day(after), Some(per_day(floor)));
    let [before, after, floor] = fastest_of(FEW_ROUNDS, [
        &mut || drop(black_box(date(before_date_of, first, days))),
        &mut || drop(black_box(date(after_date_of, first, days))),
        &mut || drop(black_box(date(floor_date_of, first, days))),
    ]);
    line("date of a number, all days", per_day(before), per_day(after), Some(per_day(floor)));
    same([list(before_list_day, ALL), list(after_list_day, ALL)]);
    let [before, after] = fastest_of(FEW_ROUNDS, [
        &mut || drop(black_box(list(before_list_day, ALL))),
        &mut || drop(black_box(list(after_list_day, ALL))),
    ]);
    line("listing of the worked example, all days", per_day(before), per_day(after), None);
}

/// Every number to the end of the year 12000 has the floor's date, and that date has the number.
fn agree() {
    for n in 367..=4_383_276 {
        // SAFETY: numbers and dates of the years 1 to 12000.
        let (packed, floor) = unsafe { (after_date_of(n), floor_date_of(n)) };
        assert_eq!(packed, floor, "the date of {n}");
        let back = unsafe { after_day_number(packed >> 9, packed >> 5 & 15, packed & 31) };
        assert_eq!(back, n, "the number of {packed}");
    }
}

fn main() {
    agree();
    println!("{:<40}{:>11}{:>9}{:>9}{:>9}{:>9}", "nanoseconds per call", "before", "after", "ratio", "floor", "to floor");
    YEARS.into_iter().for_each(year_by_year);
    all_days();
}
