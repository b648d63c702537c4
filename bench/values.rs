//! Values in reads: recordings in which both kinds of reads stand and single values are wrong, and how often the comparison reached each
//! case of number 19.

use crate::cases::Counts;
use crate::inputs::{fields_in, half_at, halves_of};
use crate::peer::{number, reader};
use crate::random::Random;

/// The body of each task; none for bytes that do not read.
pub fn bodies_in(bytes: &[u8]) -> Vec<(usize, usize)> {
    reader::scan(bytes).map_or(vec![], |layout| {
        let sections = &layout.sections[..layout.tasks];
        sections.iter().map(|s| (s.start, s.end)).collect()
    })
}

/// The places of the records of a kind.
fn places_of(bytes: &[u8], kind: usize) -> Vec<usize> {
    let mut found = Vec::new();
    for (mut at, end) in bodies_in(bytes) {
        while at < end {
            if half_at(bytes, at + 2) == kind {
                found.push(at);
            }
            at += half_at(bytes, at);
        }
    }
    found
}

impl Random {
    /// The recording with some of its reads without their values.
    pub fn without_values(&mut self, bytes: &[u8]) -> Vec<u8> {
        let bodies = bodies_in(bytes);
        let Some(&(first, _)) = bodies.first() else {
            return bytes.to_vec();
        };
        let part = self.pick(&[1, 2, 2, 10]);
        let mut made = bytes[..first - 12].to_vec();
        for (start, end) in bodies {
            let section = made.len();
            made.extend(&bytes[start - 12..start]);
            let mut at = start;
            while at < end {
                let next = at + half_at(bytes, at);
                if half_at(bytes, at + 2) == 6 && self.once_in(part) {
                    made.extend(halves_of(&[6, 4, half_at(bytes, at + 4)]));
                } else {
                    made.extend(&bytes[at..next]);
                }
                at = next;
            }
            let size = (made.len() - section - 12) as u32;
            made[section + 8..section + 12].copy_from_slice(&size.to_le_bytes());
        }
        made
    }

    /// The value of one read or write changed: by a little, to that of another record, or to any.
    pub fn bend_value(&mut self, bytes: &mut [u8]) {
        let (read, write, value) = match fields_in(bytes) {
            0 => (6, 5, 6),
            _ => (8, 9, 8),
        };
        let kind = self.pick(&[read, read, read, write]);
        let places = places_of(bytes, kind);
        if places.is_empty() {
            return;
        }
        let at = self.pick(&places) + value;
        let other = self.pick(&places) + value;
        match self.below(3) {
            0 => bytes[at + self.below(4)] ^= 1 << self.below(8),
            1 => bytes.copy_within(other..other + 4, at),
            _ => bytes[at..at + 4].copy_from_slice(&self.word().to_le_bytes()),
        }
    }
}

/// Each case by its name.
#[derive(Default)]
pub struct Values(Counts);

impl Values {
    /// A step's fields: number, offset, kind and so on.
    pub fn stepped(&mut self, bytes: &[u8], fields: [usize; 7]) {
        let differs = fields[0] == number::READ_DIFFERS as usize;
        let after = differs && half_at(bytes, fields[1] - 6) == 3 && half_at(bytes, fields[1] - 8) == 8;
        self.0.count("step, 19", differs);
        self.0.count("step, 19 after an ordering", after);
        self.0.count("step, a read of kind 4", fields[2] == 4);
        self.0.count("step, a read of kind 6", fields[2] == 6);
        self.0.count("step, a read of kind 8", fields[2] == 8);
        self.0.count("step, a write of kind 9", fields[2] == 9);
        self.0.count("step, 19 at kind 8", differs && half_at(bytes, fields[1] + 2) == 8);
    }

    /// A play to the end: number, offset, steps, finished, what stopped it and where.
    pub fn ended(&mut self, bytes: &[u8], answer: [usize; 6]) {
        let [number, _, steps, finished, stopped, _] = answer;
        let played = number == 0;
        let [bare, valued, fielded] =
            [4, 6, 8].map(|kind| played && !places_of(bytes, kind).is_empty());
        self.0.count("end, finished with both kinds", finished == 1 && bare && valued);
        self.0.count("end, finished with kind 4 alone", finished == 1 && bare && !valued);
        self.0.count("end, finished with kind 6 alone", finished == 1 && valued && !bare);
        self.0.count("end, finished with kind 8", finished == 1 && fielded);
        self.0.count("end, stopped at kind 8", stopped != 0 && fielded);
        self.0.count("end, stuck", played && finished == 0 && stopped == 0);
        self.0.count("end, stopped", stopped != 0);
        self.0.count("end, stopped before any step", stopped != 0 && steps == 0);
        self.0.count("end, stopped with both kinds", stopped != 0 && bare && valued);
    }

    /// A comparison: which of the two a 19 stops, and whether they are alike.
    pub fn compared(&mut self, stopped: [bool; 2], alike: bool) {
        self.0.count("compared, alike", alike);
        self.0.count("compared, the first stopped", stopped == [true, false]);
        self.0.count("compared, the second stopped", stopped == [false, true]);
        self.0.count("compared, both stopped", stopped == [true, true]);
    }

    pub fn print(&self) {
        self.0.print("values");
    }
}
