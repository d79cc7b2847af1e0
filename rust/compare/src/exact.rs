//! The library alone, every slice in a heap block of exactly its size, so that valgrind sees what passes an end.

use kumolendi::words::{self, Inputs};
use kumolendi::{Date, MOST_ENTRIES};

use crate::case::Input;
use crate::damage::damaged;
use crate::dice::Dice;
use crate::random;

/// Damaged copies of each input.
const COPIES: u64 = 4;

/// Asks everything about so many random cases; the number of faults, which only valgrind can see otherwise.
pub fn run(cases: u64, seed: u64) -> Result<u64, String> {
    let mut answers = [0_u64; 11];
    for number in 0..cases {
        let (_, case) = random::case(seed, number);
        let mut dice = Dice::of_case(!seed, number);
        let input = case.input();
        ask(&input, case.minute, &mut answers);
        for _ in 0..COPIES {
            ask(&damaged(&input, &mut dice), case.minute, &mut answers);
        }
        schedules(&mut dice);
    }
    println!("listings by refusal number, 0 for none: {answers:?}");
    Ok(0)
}

/// A boxed slice has no room behind its last element.
fn block(bytes: &[u8]) -> Box<[u8]> {
    Box::from(bytes)
}

fn ask(input: &Input, minute: u32, answers: &mut [u64; 11]) {
    let rules = block(&input.rules);
    let holidays = [0, 1, 2, 3].map(|slot| block(&input.holidays[slot]));
    let [a, b, c, d] = &holidays;
    let inputs = Inputs { rules: &rules, events: input.events, holidays: [a, b, c, d] };
    let _ = words::check_rules(&rules);
    for image in &holidays {
        lone_image(image, input.date);
    }
    let mut out = vec![0; MOST_ENTRIES].into_boxed_slice();
    let listed = words::list_day(&inputs, input.date, &mut out).map(<[u32]>::len);
    answers[listed.map_or_else(|refusal| refusal.number as usize, |_| 0)] += 1;
    if let Ok(entries) = listed {
        for cells in [entries, entries - 1, 0] {
            let mut out = vec![0; cells].into_boxed_slice();
            let _ = words::list_day(&inputs, input.date, &mut out);
        }
    }
    words::next_change(&inputs, input.date, minute, 3);
}

fn lone_image(image: &[u8], date: Date) {
    let _ = words::check_holidays(image);
    let _ = words::holidays_in_month(image, date.year, date.month);
    let _ = words::first_holiday_after(image, date);
}

fn schedules(dice: &mut Dice) {
    let built = |dice: &mut Dice| -> Box<[u32]> {
        let given: Box<[u32]> = (0..dice.below(67)).map(|_| range(dice)).collect();
        let mut out = vec![0; 64].into_boxed_slice();
        words::build(&given, dice.below(3) as u8, dice.next() as u8, &mut out).map_or(Box::default(), Box::from)
    };
    let (a, b) = (built(dice), built(dice));
    let mut out = vec![0; dice.below(65)].into_boxed_slice();
    let _ = words::addition(&a, &b, &mut out);
    let mut out = vec![0; dice.below(130)].into_boxed_slice();
    let _ = words::listing(&a, &mut out);
    let noise: Box<[u32]> = (0..dice.below(70)).map(|_| dice.next() as u32).collect();
    let _ = words::addition(&a, &noise, &mut out);
    let _ = words::listing(&noise, &mut out);
}

/// A short range of the day.
fn range(dice: &mut Dice) -> u32 {
    let start = dice.number(0, 1420);
    start << 16 | (start + dice.number(0, 20))
}
