//! The library's C functions, as in include/kumolendi.h; nothing checks either against the library's source.

/// The C struct of a next change.
#[repr(C)]
#[derive(Clone, Copy, Debug, PartialEq, Eq)]
pub struct KumolendiChange {
    pub refusal: u32,
    pub place: u32,
    pub year: u32,
    pub month: u32,
    pub day: u32,
    pub minute: u32,
    pub examined: u32,
}

unsafe extern "C" {
    pub fn kumolendi_list_day(
        rules: *const u8, rules_len: usize,
        dawn: u16, sunrise: u16, sunset: u16, dusk: u16,
        public: *const u8, public_len: usize,
        public_unknown: *const u8, public_unknown_len: usize,
        school: *const u8, school_len: usize,
        school_unknown: *const u8, school_unknown_len: usize,
        year: u32, month: u32, day: u32,
        out: *mut u32, out_len: usize,
    ) -> u64;

    pub fn kumolendi_check_rules(rules: *const u8, rules_len: usize) -> u64;

    pub fn kumolendi_check_holidays(image: *const u8, image_len: usize) -> u64;

    pub fn kumolendi_holidays_in_month(image: *const u8, image_len: usize, year: u32, month: u32) -> u64;

    pub fn kumolendi_first_holiday_after(image: *const u8, image_len: usize, year: u32, month: u32, day: u32) -> u64;

    pub fn kumolendi_next_change(
        rules: *const u8, rules_len: usize,
        dawn: u16, sunrise: u16, sunset: u16, dusk: u16,
        public: *const u8, public_len: usize,
        public_unknown: *const u8, public_unknown_len: usize,
        school: *const u8, school_len: usize,
        school_unknown: *const u8, school_unknown_len: usize,
        year: u32, month: u32, day: u32, minute: u32, days: u32,
    ) -> KumolendiChange;

    pub fn kumolendi_build(
        given: *const u32, given_len: usize, kind: u8, comment: u8, out: *mut u32, out_len: usize,
    ) -> u64;

    pub fn kumolendi_addition(
        a: *const u32, a_len: usize, b: *const u32, b_len: usize, out: *mut u32, out_len: usize,
    ) -> u64;

    pub fn kumolendi_listing(words: *const u32, words_len: usize, out: *mut u32, out_len: usize) -> u64;
}

#[cfg(test)]
mod tests {
    use std::ptr::{null, null_mut};

    use super::*;

    /// No rules.
    const SHEET: [u8; 2] = [0x10, 0x00];

    /// A refusal's number over its place.
    const fn refused(number: u64, place: u64) -> u64 {
        number << 32 | place
    }

    #[test]
    fn null_is_an_empty_slice() {
        let (none, no_words, nowhere) = (null(), null(), null_mut());
        let mut out = [7; 1];
        // SAFETY: every null has length 0, the others are of one slice each, and no function has a precondition.
        unsafe {
            assert_eq!(kumolendi_check_rules(none, 0), refused(1, 0));
            assert_eq!(kumolendi_check_holidays(none, 0), 0);
            assert_eq!(kumolendi_holidays_in_month(none, 0, 2024, 1), 0);
            assert_eq!(kumolendi_first_holiday_after(none, 0, 2024, 1, 1), 0);
            assert_eq!(kumolendi_build(no_words, 0, 0, 0, nowhere, 0), 0);
            assert_eq!(kumolendi_addition(no_words, 0, no_words, 0, nowhere, 0), 0);
            assert_eq!(kumolendi_listing(no_words, 0, nowhere, 0), refused(9, 1));
            assert_eq!(kumolendi_listing(no_words, 0, out.as_mut_ptr(), 1), 1);
            let (rules, none_known) = (SHEET.as_ptr(), 65535);
            let list = |out, cells| {
                kumolendi_list_day(
                    rules, 2, none_known, none_known, none_known, none_known,
                    none, 0, none, 0, none, 0, none, 0, 2024, 1, 1, out, cells,
                )
            };
            assert_eq!(list(nowhere, 0), refused(9, 1));
            assert_eq!(list(out.as_mut_ptr(), 1), 1);
            let change = kumolendi_next_change(
                none, 0, none_known, none_known, none_known, none_known,
                none, 0, none, 0, none, 0, none, 0, 2024, 1, 1, 0, 0,
            );
            assert_eq!((change.refusal, change.place, change.examined), (1, 0, 0));
        }
    }
}
