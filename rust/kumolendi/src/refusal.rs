//! What the library refuses, and how it is said.

use std::fmt;

use crate::Date;

/// The ten reasons, by their numbers.
#[derive(Clone, Copy, Debug, PartialEq, Eq, Hash)]
#[repr(u32)]
pub enum Reason {
    Cut = 1,
    NoMeaning = 2,
    OutOfRange = 3,
    NotFill = 4,
    BadHolidays = 5,
    BadEvent = 6,
    BadDate = 7,
    TooMany = 8,
    ShortOutput = 9,
    BadSchedule = 10,
}

impl Reason {
    /// All of them, 1 to 10.
    pub const ALL: [Reason; 10] = [
        Reason::Cut,
        Reason::NoMeaning,
        Reason::OutOfRange,
        Reason::NotFill,
        Reason::BadHolidays,
        Reason::BadEvent,
        Reason::BadDate,
        Reason::TooMany,
        Reason::ShortOutput,
        Reason::BadSchedule,
    ];

    /// The reason of a number, none outside 1 to 10.
    pub fn of(number: u32) -> Option<Reason> {
        Reason::ALL.into_iter().find(|reason| *reason as u32 == number)
    }

    /// What is wrong, in a sentence.
    pub fn sentence(self) -> &'static str {
        match self {
            Reason::Cut => "a field runs past the end of the rule image",
            Reason::NoMeaning => "an edition, reserved bit, operator, kind, tag or weekday has no meaning",
            Reason::OutOfRange => "a number or count is outside its range",
            Reason::NotFill => "the fill of the last byte is not zero, or bytes follow",
            Reason::BadHolidays => "a holiday image breaks its rules or sits in the wrong slot",
            Reason::BadEvent => "an event time is neither a minute from 0 to 1439 nor none",
            Reason::BadDate => "there is no such date, month, minute or number of days",
            Reason::TooMany => "an addition would have more than 64 ranges",
            Reason::ShortOutput => "the output is too short",
            Reason::BadSchedule => "an offered schedule is not sound",
        }
    }

    /// What the place of such a refusal counts.
    pub fn place(self) -> &'static str {
        match self {
            Reason::Cut | Reason::NoMeaning | Reason::OutOfRange | Reason::NotFill => "bit",
            Reason::BadHolidays => "slot",
            Reason::BadEvent => "event",
            Reason::BadDate => "place",
            Reason::TooMany => "rule",
            Reason::ShortOutput => "words needed:",
            Reason::BadSchedule => "schedule",
        }
    }
}

/// A refusal: nothing was written, and asking again gives the same.
#[derive(Clone, Copy, Debug, PartialEq, Eq, Hash)]
pub struct Refusal {
    pub number: u32,
    pub place: u32,
    /// The refused day, where a search for the next change met refusal 8.
    pub date: Option<Date>,
}

impl Refusal {
    /// The named reason; none only for a number that the library never gives.
    pub fn reason(&self) -> Option<Reason> {
        Reason::of(self.number)
    }
}

impl fmt::Display for Refusal {
    fn fmt(&self, f: &mut fmt::Formatter) -> fmt::Result {
        let (sentence, place) = self.reason().map_or(("an unknown refusal", "place"), |r| (r.sentence(), r.place()));
        write!(f, "refused {}: {sentence} ({place} {}", self.number, self.place)?;
        match self.date {
            Some(date) => write!(f, ", on {date})"),
            None => write!(f, ")"),
        }
    }
}

impl std::error::Error for Refusal {}
