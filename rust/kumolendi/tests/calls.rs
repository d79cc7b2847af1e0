//! Every function through the archive: the worked example, each refusal that a call can reach, and empty slices.

use kumolendi::{
    Date, Entry, Events, Holidays, Kind, Moment, NextChange, Reason, Refusal, Schedule, Shop, check_holidays,
    check_rules, first_holiday_after, holidays_in_month, words,
};

/// Monday to Friday 10:00-18:00.
const EXAMPLE: [u8; 13] = [0x10, 0x01, 0x00, 0x00, 0x00, 0x11, 0x09, 0xF0, 0x00, 0x02, 0x58, 0x21, 0xC0];
/// No rules.
const NO_RULES: [u8; 2] = [0x10, 0x00];
const MONDAY: Date = Date::new(2024, 1, 1);

fn shop(rules: &[u8]) -> Shop<'_> {
    Shop { rules, ..Shop::default() }
}

fn refused(number: u32, place: u32) -> Refusal {
    Refusal { number, place, date: None }
}

fn inputs(rules: &[u8]) -> words::Inputs<'_> {
    words::Inputs { rules, events: [words::NO_EVENT; 4], holidays: [&[]; 4] }
}

/// A public image of 2024 with 1 January and 25 December.
fn holidays_2024() -> Vec<u8> {
    let mut image = vec![0; 50];
    image[..3].copy_from_slice(&[0x1F, 0xA0, 0x04]);
    for bit in [24, 24 + 11 * 31 + 24] {
        image[bit / 8] |= 128 >> (bit % 8);
    }
    image
}

#[test]
fn the_example_lists() {
    let lines: Vec<String> = shop(&EXAMPLE).list_day(MONDAY).unwrap().iter().map(Entry::to_string).collect();
    assert_eq!(lines, ["00:00 10:00 closed 0", "10:00 18:00 open 0", "18:00 24:00 closed 0"]);
    let saturday = shop(&EXAMPLE).list_day(Date::new(2024, 1, 6)).unwrap();
    assert_eq!(saturday, [Entry::new(0, 1440, Kind::Closed, 0)]);
}

#[test]
fn days_outside_show_nothing() {
    for date in [Date::new(1899, 12, 31), Date::new(10000, 1, 1)] {
        assert_eq!(shop(&EXAMPLE).list_day(date), Ok(vec![Entry::new(0, 1440, Kind::Closed, 0)]));
    }
}

#[test]
fn rules_are_counted_and_refused() {
    assert_eq!(check_rules(&EXAMPLE), Ok(1));
    assert_eq!(check_rules(&NO_RULES), Ok(0));
    assert_eq!(check_rules(&[]), Err(refused(1, 0)));
    assert_eq!(check_rules(&[0x10, 0x40]), Err(refused(2, 4)));
    assert_eq!(check_rules(&[0x10, 0x01, 0x00, 0x09]), Err(refused(3, 28)));
    assert_eq!(check_rules(&[0x10, 0x00, 0x00]), Err(refused(4, 16)));
}

#[test]
fn a_listing_refuses_in_order() {
    let late = Events { sunrise: Some(1440), ..Events::default() };
    let bad = Holidays { school: &[0x00], ..Holidays::default() };
    let all = Shop { rules: &EXAMPLE[..12], events: late, holidays: bad };
    let nowhere = Date::new(2023, 2, 29);
    assert_eq!(all.list_day(nowhere), Err(refused(1, 89)));
    assert_eq!(Shop { rules: &EXAMPLE, ..all }.list_day(nowhere), Err(refused(5, 2)));
    assert_eq!(Shop { events: late, ..shop(&EXAMPLE) }.list_day(nowhere), Err(refused(6, 1)));
    assert_eq!(shop(&EXAMPLE).list_day(nowhere), Err(refused(7, 0)));
}

#[test]
fn an_event_of_65535_is_not_none() {
    let events = Events { dawn: Some(65535), ..Events::default() };
    assert_eq!(Shop { events, ..shop(&NO_RULES) }.list_day(MONDAY), Err(refused(6, 0)));
    assert!(shop(&NO_RULES).list_day(MONDAY).is_ok());
}

#[test]
fn a_short_output_is_not_touched() {
    let mut out = [7; 4];
    assert_eq!(words::list_day(&inputs(&EXAMPLE), MONDAY, &mut out[..2]), Err(refused(9, 3)));
    assert_eq!(out, [7; 4]);
    assert_eq!(words::list_day(&inputs(&EXAMPLE), MONDAY, &mut out).map(<[u32]>::len), Ok(3));
    assert_eq!(out[3], 7);
    assert_eq!(words::list_day(&inputs(&NO_RULES), MONDAY, &mut []), Err(refused(9, 1)));
}

#[test]
fn empty_slices_are_fine_everywhere() {
    assert_eq!(words::list_day(&inputs(&[]), MONDAY, &mut []), Err(refused(1, 0)));
    assert_eq!(check_holidays(&[]), Ok(()));
    assert_eq!(holidays_in_month(&[], 2024, 1), Ok(0));
    assert_eq!(first_holiday_after(&[], MONDAY), Ok(None));
    assert_eq!(words::build(&[], 0, 0, &mut []), Ok(&[][..]));
    assert_eq!(words::addition(&[], &[], &mut []), Ok(&[][..]));
    assert_eq!(words::listing(&[], &mut []), Err(refused(9, 1)));
    assert_eq!(Schedule::default().list(), Ok(vec![Entry::new(0, 1440, Kind::Closed, 0)]));
}

#[test]
fn holidays_are_counted_and_found() {
    let image = holidays_2024();
    assert_eq!(check_holidays(&image), Ok(()));
    assert_eq!(check_holidays(&image[..49]), Err(refused(5, 0)));
    assert_eq!(holidays_in_month(&image, 2024, 12), Ok(1));
    assert_eq!(holidays_in_month(&image, 2025, 12), Ok(0));
    assert_eq!(holidays_in_month(&image, 2024, 13), Err(refused(7, 0)));
    assert_eq!(first_holiday_after(&image, MONDAY), Ok(Some(Date::new(2024, 12, 25))));
    assert_eq!(first_holiday_after(&image, Date::new(1950, 6, 1)), Ok(Some(MONDAY)));
    assert_eq!(first_holiday_after(&image, Date::new(2024, 12, 25)), Ok(None));
    assert_eq!(first_holiday_after(&image, Date::new(12001, 1, 1)), Err(refused(7, 0)));
    let wrong_slot = Holidays { public_unknown: &image, ..Holidays::default() };
    assert_eq!(Shop { holidays: wrong_slot, ..shop(&EXAMPLE) }.list_day(MONDAY), Err(refused(5, 1)));
}

#[test]
fn the_next_change_is_found() {
    let at = |date, minute| Moment { date, minute };
    let found = |date, minute, examined| Ok(NextChange { change: Some(at(date, minute)), examined });
    assert_eq!(shop(&EXAMPLE).next_change(at(MONDAY, 0), 0), found(MONDAY, 600, 1));
    assert_eq!(shop(&EXAMPLE).next_change(at(MONDAY, 600), 1), found(MONDAY, 1080, 1));
    let friday = Date::new(2024, 1, 5);
    assert_eq!(shop(&EXAMPLE).next_change(at(friday, 1080), 7), found(Date::new(2024, 1, 8), 600, 4));
    assert_eq!(shop(&EXAMPLE).next_change(at(friday, 1080), 3), Ok(NextChange { change: None, examined: 3 }));
    assert_eq!(shop(&NO_RULES).next_change(at(MONDAY, 0), 0), Ok(NextChange { change: None, examined: 366 }));
    let end = at(Date::new(9999, 12, 30), 0);
    assert_eq!(shop(&NO_RULES).next_change(end, 10), Ok(NextChange { change: None, examined: 2 }));
}

#[test]
fn the_next_change_refuses() {
    let at = |minute| Moment { date: MONDAY, minute };
    assert_eq!(shop(&EXAMPLE).next_change(at(1440), 0), Err(refused(7, 0)));
    assert_eq!(shop(&EXAMPLE).next_change(at(0), 3661), Err(refused(7, 0)));
    assert_eq!(shop(&[]).next_change(at(1440), 3661), Err(refused(1, 0)));
}

/// A sheet of rules that each add eight short spans of their own; a rule is 240 bits, so that bytes suffice.
fn crowded(rules: u32) -> Vec<u8> {
    let mut image = vec![0x10, rules as u8];
    for rule in 0..rules {
        image.extend([0x40, 0x00, 0x00, 0x08]);
        let mut bits = String::new();
        for start in (0..8).map(|i| 160 * i + 10 * rule) {
            bits += &format!("0{start:012b}0{:012b}", start + 5);
        }
        image.extend((0..26).map(|i| u8::from_str_radix(&bits[8 * i..8 * i + 8], 2).unwrap()));
    }
    image
}

#[test]
fn a_crowded_day_is_refused_with_its_rule_and_date() {
    assert_eq!(shop(&crowded(8)).list_day(MONDAY).map(|day| day.len()), Ok(128));
    assert_eq!(shop(&crowded(9)).list_day(MONDAY), Err(refused(8, 8)));
    let before = Moment { date: Date::new(1899, 12, 31), minute: 0 };
    let day = Some(Date::new(1900, 1, 1));
    assert_eq!(shop(&crowded(9)).next_change(before, 0), Err(Refusal { number: 8, place: 8, date: day }));
}

#[test]
fn schedules_are_built_and_added() {
    let day = Schedule::build(&[(600, 960), (960, 1080), (700, 600)], Kind::Open, 0).unwrap();
    assert_eq!(day.ranges(), [Entry::new(600, 1080, Kind::Open, 0)]);
    let lunch = Schedule::build(&[(720, 780)], Kind::Unknown, 0).unwrap();
    let sum = day.add(&lunch).unwrap();
    let parts = [(600, 720, Kind::Open), (720, 780, Kind::Unknown), (780, 1080, Kind::Open)];
    assert_eq!(sum.ranges(), parts.map(|(start, end, kind)| Entry::new(start, end, kind, 0)));
    assert_eq!(sum.list().unwrap().len(), 5);
    let evening = Schedule::build(&[(1080, 1200)], Kind::Open, 0).unwrap();
    assert_eq!(day.add(&evening).unwrap().ranges(), [Entry::new(600, 1200, Kind::Open, 0)]);
}

#[test]
fn schedules_are_refused() {
    assert_eq!(words::build(&[], 3, 0, &mut []), Err(refused(2, 0)));
    assert_eq!(Schedule::build(&[(0, 1441)], Kind::Open, 0), Err(refused(3, 0)));
    assert_eq!(Schedule::build(&[(5, 5); 65], Kind::Open, 0), Err(refused(3, 0)));
    let sound = Schedule::build(&[(0, 10)], Kind::Open, 0).unwrap();
    for entry in
        [Entry::new(5, 5, Kind::Open, 0), Entry::new(0, 1441, Kind::Open, 0), Entry::new(9, 65535, Kind::Open, 0)]
    {
        let bad = Schedule::offered(&[entry]);
        assert_eq!(bad.list(), Err(refused(10, 0)));
        assert_eq!(bad.add(&sound), Err(refused(10, 0)));
        assert_eq!(sound.add(&bad), Err(refused(10, 1)));
    }
}

#[test]
fn an_addition_keeps_64_ranges() {
    let ladder =
        |from: u16, count: u16| -> Vec<(u16, u16)> { (0..count).map(|i| (from + 20 * i, from + 20 * i + 5)).collect() };
    let open = Schedule::build(&ladder(0, 63), Kind::Open, 0).unwrap();
    let one = Schedule::build(&ladder(1300, 1), Kind::Unknown, 0).unwrap();
    let two = Schedule::build(&ladder(1300, 2), Kind::Unknown, 0).unwrap();
    assert_eq!(open.add(&one).unwrap().ranges().len(), 64);
    assert_eq!(open.add(&two), Err(refused(8, 0)));
}

#[test]
fn a_refusal_is_a_sentence() {
    assert_eq!(
        check_rules(&[0x10, 0x40]).unwrap_err().to_string(),
        "refused 2: an edition, reserved bit, operator, kind, tag or weekday has no meaning (bit 4)"
    );
    let dated = Refusal { number: 8, place: 3, date: Some(MONDAY) };
    assert_eq!(dated.to_string(), "refused 8: an addition would have more than 64 ranges (rule 3, on 2024-01-01)");
    assert_eq!(Reason::ALL.map(|reason| reason as u32), [1, 2, 3, 4, 5, 6, 7, 8, 9, 10]);
    assert_eq!(dated.reason(), Some(Reason::TooMany));
    assert_eq!(refused(11, 0).reason(), None);
}
