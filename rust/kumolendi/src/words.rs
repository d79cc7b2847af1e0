//! One safe function for each C function: numbers and words as they are, room lent by the caller, nothing allocated.
//!
//! An empty Rust slice has a dangling pointer and length 0. It is handed over as it is: the library never follows the
//! pointer of an empty slice, so that null is allowed there but not needed.

use crate::raw::{self, KumolendiChange};
use crate::{Date, Refusal};

/// An event time that is not known.
pub const NO_EVENT: u16 = 65535;

/// What the library reads for a day, as bytes and numbers.
#[derive(Clone, Copy, Debug)]
pub struct Inputs<'a> {
    pub rules: &'a [u8],
    /// dawn, sunrise, sunset, dusk: 0 to 1439, or [`NO_EVENT`]
    pub events: [u16; 4],
    /// public, public unknown, school, school unknown; empty for none
    pub holidays: [&'a [u8]; 4],
}

/// The answer's upper half is the refusal's number, its lower half the place or the value.
fn value(answer: u64) -> Result<u32, Refusal> {
    let (number, low) = ((answer >> 32) as u32, answer as u32);
    if number == 0 { Ok(low) } else { Err(Refusal { number, place: low, date: None }) }
}

/// The words that a success wrote to the front of `out`.
fn written(answer: u64, out: &[u32]) -> Result<&[u32], Refusal> {
    value(answer).map(|count| &out[..count as usize])
}

/// The listing of a day, in the front of `out`; the rest of `out`, or all of it on a refusal, stays as it was.
pub fn list_day<'o>(inputs: &Inputs, date: Date, out: &'o mut [u32]) -> Result<&'o [u32], Refusal> {
    let ([dawn, sunrise, sunset, dusk], [a, b, c, d]) = (inputs.events, inputs.holidays);
    // SAFETY: each pointer goes with its slice's length, `out` is borrowed alone, and the function has no precondition.
    let answer = unsafe {
        raw::kumolendi_list_day(
            inputs.rules.as_ptr(), inputs.rules.len(), dawn, sunrise, sunset, dusk,
            a.as_ptr(), a.len(), b.as_ptr(), b.len(), c.as_ptr(), c.len(), d.as_ptr(), d.len(),
            date.year, date.month, date.day, out.as_mut_ptr(), out.len(),
        )
    };
    written(answer, out)
}

/// The number of rules in an image.
pub fn check_rules(rules: &[u8]) -> Result<u32, Refusal> {
    // SAFETY: pointer and length are of one slice.
    value(unsafe { raw::kumolendi_check_rules(rules.as_ptr(), rules.len()) })
}

/// Whether a lone holiday image is sound; the value is 0.
pub fn check_holidays(image: &[u8]) -> Result<u32, Refusal> {
    // SAFETY: pointer and length are of one slice.
    value(unsafe { raw::kumolendi_check_holidays(image.as_ptr(), image.len()) })
}

/// How many holidays an image has in a month.
pub fn holidays_in_month(image: &[u8], year: u32, month: u32) -> Result<u32, Refusal> {
    // SAFETY: pointer and length are of one slice.
    value(unsafe { raw::kumolendi_holidays_in_month(image.as_ptr(), image.len(), year, month) })
}

/// The first holiday after a date as year * 512 + month * 32 + day, 0 for none.
pub fn first_holiday_after(image: &[u8], date: Date) -> Result<u32, Refusal> {
    // SAFETY: pointer and length are of one slice.
    value(unsafe {
        raw::kumolendi_first_holiday_after(image.as_ptr(), image.len(), date.year, date.month, date.day)
    })
}

/// The next change, as the C function answers it.
pub fn next_change(inputs: &Inputs, date: Date, minute: u32, days: u32) -> KumolendiChange {
    let ([dawn, sunrise, sunset, dusk], [a, b, c, d]) = (inputs.events, inputs.holidays);
    // SAFETY: each pointer goes with its slice's length, and the function has no precondition.
    unsafe {
        raw::kumolendi_next_change(
            inputs.rules.as_ptr(), inputs.rules.len(), dawn, sunrise, sunset, dusk,
            a.as_ptr(), a.len(), b.as_ptr(), b.len(), c.as_ptr(), c.len(), d.as_ptr(), d.len(),
            date.year, date.month, date.day, minute, days,
        )
    }
}

/// The ranges of a schedule of one kind and comment; a given word is a start in its upper half, an end in its lower.
pub fn build<'o>(given: &[u32], kind: u8, comment: u8, out: &'o mut [u32]) -> Result<&'o [u32], Refusal> {
    // SAFETY: each pointer goes with its slice's length, and `out` is borrowed alone.
    let answer =
        unsafe { raw::kumolendi_build(given.as_ptr(), given.len(), kind, comment, out.as_mut_ptr(), out.len()) };
    written(answer, out)
}

/// The ranges of `b` laid over `a`.
pub fn addition<'o>(a: &[u32], b: &[u32], out: &'o mut [u32]) -> Result<&'o [u32], Refusal> {
    // SAFETY: each pointer goes with its slice's length, and `out` is borrowed alone.
    let answer = unsafe {
        raw::kumolendi_addition(a.as_ptr(), a.len(), b.as_ptr(), b.len(), out.as_mut_ptr(), out.len())
    };
    written(answer, out)
}

/// The listing of a schedule.
pub fn listing<'o>(words: &[u32], out: &'o mut [u32]) -> Result<&'o [u32], Refusal> {
    // SAFETY: each pointer goes with its slice's length, and `out` is borrowed alone.
    let answer = unsafe { raw::kumolendi_listing(words.as_ptr(), words.len(), out.as_mut_ptr(), out.len()) };
    written(answer, out)
}
