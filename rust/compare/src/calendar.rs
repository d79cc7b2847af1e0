//! Day numbers by plain counting of eras of 400 years, for choosing dates and for counting days.

use kumolendi::Date;

/// 10000-01-01, the first day that shows nothing.
pub const END: Date = Date::new(10000, 1, 1);

pub fn is_leap(year: u32) -> bool {
    year.is_multiple_of(4) && (!year.is_multiple_of(100) || year.is_multiple_of(400))
}

pub fn month_length(year: u32, month: u32) -> u32 {
    match month {
        2 => 28 + u32::from(is_leap(year)),
        4 | 6 | 9 | 11 => 30,
        _ => 31,
    }
}

/// Days since 0000-03-01, a start that puts the leap day last.
pub fn number(date: Date) -> i64 {
    let year = i64::from(date.year) - i64::from(date.month <= 2);
    let month = (i64::from(date.month) + 9) % 12;
    let in_year = (153 * month + 2) / 5 + i64::from(date.day) - 1;
    365 * year + year.div_euclid(4) - year.div_euclid(100) + year.div_euclid(400) + in_year
}

/// The date of such a number.
pub fn date_of(number: i64) -> Date {
    let (era, day) = (number.div_euclid(146_097), number.rem_euclid(146_097));
    let year = (day - day / 1460 + day / 36_524 - day / 146_096) / 365;
    let in_year = day - (365 * year + year / 4 - year / 100);
    let month = (5 * in_year + 2) / 153;
    let day = in_year - (153 * month + 2) / 5 + 1;
    let year = 400 * era + year + i64::from(month >= 10);
    Date::new(year as u32, ((month + 2) % 12 + 1) as u32, day as u32)
}

/// The date so many days on, within 0001 to 12000.
pub fn shifted(date: Date, days: i32) -> Date {
    let first = number(Date::new(1, 1, 1));
    let last = number(Date::new(12000, 12, 31));
    date_of((number(date) + i64::from(days)).clamp(first, last))
}

/// 0 for Monday to 6; 0000-03-01 was a Wednesday.
pub fn weekday(date: Date) -> u32 {
    (number(date) + 2).rem_euclid(7) as u32
}

/// The week of the year, up to one off from the ISO week: for choosing weeks near a date.
pub fn rough_week(date: Date) -> i32 {
    ((number(date) - number(Date::new(date.year, 1, 1))) / 7 + 1) as i32
}

/// Easter by the anonymous Gregorian rule, for choosing dates near it.
pub fn easter(year: u32) -> Date {
    let (a, b, c) = (year % 19, year / 100, year % 100);
    let g = (8 * b + 13) / 25;
    let h = (19 * a + b - b / 4 - g + 15) % 30;
    let l = (32 + 2 * (b % 4) + 2 * (c / 4) - h - c % 4) % 7;
    let m = (a + 11 * h + 19 * l) / 433;
    let month = (h + l - 7 * m + 90) / 25;
    let day = (h + l - 7 * m + 33 * month + 19) % 32;
    Date::new(year, month, day)
}

#[test]
fn days_fall_where_they_should() {
    assert_eq!(weekday(Date::new(2024, 1, 1)), 0);
    assert_eq!(weekday(Date::new(1899, 12, 31)), 6);
    for (year, month, day) in [(1900, 4, 15), (2024, 3, 31), (2025, 4, 20), (2038, 4, 25), (2285, 3, 22)] {
        assert_eq!(easter(year), Date::new(year, month, day));
    }
}

#[test]
fn numbers_and_dates_agree() {
    let mut n = number(Date::new(1, 1, 1));
    for year in 1..=12000 {
        for month in 1..=12 {
            for day in 1..=month_length(year, month) {
                assert_eq!(number(Date::new(year, month, day)), n);
                assert_eq!(date_of(n), Date::new(year, month, day));
                n += 1;
            }
        }
    }
}
