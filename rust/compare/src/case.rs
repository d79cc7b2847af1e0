//! One question: as values, and as the bytes and numbers that both sides take.

use kumolendi::Date;
use kumolendi::words::Inputs;

use crate::sheet::{HolidayFile, Rule, holiday_image, sheet_image};

#[derive(Clone, Debug, PartialEq)]
pub struct Case {
    pub rules: Vec<Rule>,
    pub events: [u16; 4],
    pub holidays: [Option<HolidayFile>; 4],
    pub date: Date,
    /// Only asked for the next change.
    pub minute: u32,
}

impl Case {
    pub fn input(&self) -> Input {
        let mut holidays: [Vec<u8>; 4] = Default::default();
        for (slot, file) in self.holidays.iter().enumerate() {
            holidays[slot] = file.as_ref().map_or(Vec::new(), |file| holiday_image(file, slot));
        }
        Input { rules: sheet_image(&self.rules), events: self.events, holidays, date: self.date }
    }
}

#[derive(Clone, Debug)]
pub struct Input {
    pub rules: Vec<u8>,
    pub events: [u16; 4],
    pub holidays: [Vec<u8>; 4],
    pub date: Date,
}

impl Input {
    pub fn inputs(&self) -> Inputs<'_> {
        let [a, b, c, d] = &self.holidays;
        Inputs { rules: &self.rules, events: self.events, holidays: [a, b, c, d] }
    }

    /// The program's input: rules, events, holidays, date, all numbers as u16, big-endian.
    pub fn frame(&self) -> Vec<u8> {
        let mut frame = Vec::new();
        let put = |frame: &mut Vec<u8>, number: usize| frame.extend((number as u16).to_be_bytes());
        put(&mut frame, self.rules.len());
        frame.extend(&self.rules);
        self.events.iter().for_each(|event| put(&mut frame, (*event).into()));
        for image in &self.holidays {
            put(&mut frame, image.len());
            frame.extend(image);
        }
        for number in [self.date.year, self.date.month, self.date.day] {
            put(&mut frame, number as usize);
        }
        frame
    }

    /// The same, followed by the minute.
    pub fn frame_at(&self, minute: u32) -> Vec<u8> {
        let mut frame = self.frame();
        frame.extend((minute as u16).to_be_bytes());
        frame
    }
}

pub fn hex(bytes: &[u8]) -> String {
    bytes.iter().map(|byte| format!("{byte:02x}")).collect()
}
