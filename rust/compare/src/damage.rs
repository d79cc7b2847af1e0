//! Damaged copies of inputs.

use crate::case::Input;
use crate::dice::Dice;

/// A copy with one part damaged; it may still be sound.
pub fn damaged(input: &Input, dice: &mut Dice) -> Input {
    let mut copy = input.clone();
    match dice.below(10) {
        0 => copy.events[dice.below(4)] = dice.pick(&[0, 1439, 1440, 1441, 65534, 65535]),
        1 => {
            copy.date.year = dice.pick(&[0, 1, 1899, 10000, 12000, 12001, copy.date.year]);
            copy.date.month = dice.pick(&[0, 2, 13, copy.date.month]);
            copy.date.day = dice.pick(&[0, 29, 30, 31, 32]);
        }
        2 | 3 => {
            let slot = dice.below(4);
            hurt(&mut copy.holidays[slot], dice);
        }
        4 => {
            let slots = [dice.below(4), dice.below(4)];
            copy.holidays.swap(slots[0], slots[1]);
        }
        _ => hurt(&mut copy.rules, dice),
    }
    copy
}

/// Turns bits, cuts, appends, or puts other bytes.
fn hurt(image: &mut Vec<u8>, dice: &mut Dice) {
    match dice.below(8) {
        0 => image.truncate(dice.below(image.len() + 1)),
        1 => (0..dice.from(1, 3)).for_each(|_| {
            let byte = dice.pick(&[0, 0, 1, 128]);
            image.push(byte);
        }),
        2 => *image = (0..dice.below(60)).map(|_| dice.next() as u8).collect(),
        3 => {
            // A sound head in front of anything.
            image.truncate(dice.pick(&[2, 3, 6]).min(image.len()));
            image.extend((0..dice.below(40)).map(|_| dice.next() as u8));
        }
        4 => flip(image, dice.from(2, 6), dice),
        5 => flip_fill(image, dice),
        _ => flip(image, 1, dice),
    }
}

fn flip(image: &mut [u8], times: i32, dice: &mut Dice) {
    for _ in 0..times {
        if !image.is_empty() {
            let bit = dice.below(8 * image.len());
            image[bit / 8] ^= 128 >> (bit % 8);
        }
    }
}

/// One of the last byte's bits, where the fill is.
fn flip_fill(image: &mut [u8], dice: &mut Dice) {
    if let Some(last) = image.last_mut() {
        *last ^= 1 << dice.below(8);
    }
}
