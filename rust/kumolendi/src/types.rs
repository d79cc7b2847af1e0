//! The values that go in and come out.

use std::fmt;

/// A date; whether it exists is the library's answer (refusal 7).
#[derive(Clone, Copy, Debug, PartialEq, Eq, PartialOrd, Ord, Hash)]
pub struct Date {
    pub year: u32,
    pub month: u32,
    pub day: u32,
}

impl Date {
    pub const fn new(year: u32, month: u32, day: u32) -> Date {
        Date { year, month, day }
    }
}

impl fmt::Display for Date {
    fn fmt(&self, f: &mut fmt::Formatter) -> fmt::Result {
        write!(f, "{:04}-{:02}-{:02}", self.year, self.month, self.day)
    }
}

/// A minute of a day.
#[derive(Clone, Copy, Debug, PartialEq, Eq, PartialOrd, Ord, Hash)]
pub struct Moment {
    pub date: Date,
    pub minute: u32,
}

impl fmt::Display for Moment {
    fn fmt(&self, f: &mut fmt::Formatter) -> fmt::Result {
        write!(f, "{} {:02}:{:02}", self.date, self.minute / 60, self.minute % 60)
    }
}

/// What a shop is.
#[derive(Clone, Copy, Debug, PartialEq, Eq, Hash)]
pub enum Kind {
    Open,
    Closed,
    Unknown,
}

impl Kind {
    fn of(bits: u32) -> Option<Kind> {
        [Kind::Open, Kind::Closed, Kind::Unknown].get(bits as usize).copied()
    }
}

impl fmt::Display for Kind {
    fn fmt(&self, f: &mut fmt::Formatter) -> fmt::Result {
        f.write_str(match self {
            Kind::Open => "open",
            Kind::Closed => "closed",
            Kind::Unknown => "unknown",
        })
    }
}

/// A stretch of a day with its state: an entry of a listing, or a range of a schedule.
#[derive(Clone, Copy, Debug, PartialEq, Eq, Hash)]
pub struct Entry {
    pub start: u16,
    pub end: u16,
    pub kind: Kind,
    pub comment: u8,
}

impl Entry {
    pub const fn new(start: u16, end: u16, kind: Kind, comment: u8) -> Entry {
        Entry { start, end, kind, comment }
    }

    /// The entry that a word packs; none for kind 3, which the library never writes.
    pub fn of(word: u32) -> Option<Entry> {
        let kind = Kind::of(word >> 8 & 3)?;
        Some(Entry { start: (word >> 21) as u16, end: (word >> 10 & 2047) as u16, kind, comment: word as u8 })
    }

    /// The word of an entry. A minute over 2047 becomes 2047, which lies outside the day and is refused just the same.
    pub fn word(&self) -> u32 {
        let minute = |m: u16| u32::from(m.min(2047));
        minute(self.start) << 21 | minute(self.end) << 10 | (self.kind as u32) << 8 | u32::from(self.comment)
    }
}

/// The line of the program's listing.
impl fmt::Display for Entry {
    fn fmt(&self, f: &mut fmt::Formatter) -> fmt::Result {
        let (a, b) = (self.start, self.end);
        write!(f, "{:02}:{:02} {:02}:{:02} {} {}", a / 60, a % 60, b / 60, b % 60, self.kind, self.comment)
    }
}

/// The times of the four events, as minutes of the day, where they are known.
#[derive(Clone, Copy, Debug, Default, PartialEq, Eq)]
pub struct Events {
    pub dawn: Option<u16>,
    pub sunrise: Option<u16>,
    pub sunset: Option<u16>,
    pub dusk: Option<u16>,
}

impl Events {
    /// The numbers for the library. `Some(65535)` must not turn into none, so it goes as another refused number.
    pub(crate) fn numbers(&self) -> [u16; 4] {
        [self.dawn, self.sunrise, self.sunset, self.dusk].map(|event| match event {
            None => crate::words::NO_EVENT,
            Some(minute) => minute.min(crate::words::NO_EVENT - 1),
        })
    }
}

/// The four holiday images; empty slices are no holidays.
#[derive(Clone, Copy, Debug, Default, PartialEq, Eq)]
pub struct Holidays<'a> {
    pub public: &'a [u8],
    pub public_unknown: &'a [u8],
    pub school: &'a [u8],
    pub school_unknown: &'a [u8],
}

/// The answer of a search for the next change.
#[derive(Clone, Copy, Debug, PartialEq, Eq)]
pub struct NextChange {
    /// The first later minute of another state; none within the days asked for.
    pub change: Option<Moment>,
    /// The days examined, the first included.
    pub examined: u32,
}
