//! Random scripts for the clock, and random states, runs and recordings: sound, bent, damaged.

use crate::heads::{reshaped, under_other_head, with_field_more};
use crate::peer::recorder::{self, CellRecord, Hold};
use crate::peer::{reader, replayer};
use crate::random::Random;

/// Numbers of two bytes, least byte first.
pub fn halves_of(numbers: &[usize]) -> Vec<u8> {
    let bytes = numbers.iter().map(|&x| (x as u16).to_le_bytes());
    bytes.flatten().collect()
}

/// The number of fields that the head tells: 0 unless it is of kind 7.
pub fn fields_in(bytes: &[u8]) -> usize {
    if bytes.len() >= 10 && half_at(bytes, 2) == 7 {
        half_at(bytes, 8)
    } else {
        0
    }
}

/// N times F by the head's own words, as the length of a memory.
pub fn cells_in(bytes: &[u8]) -> usize {
    if bytes.len() < 8 {
        return 0;
    }
    half_at(bytes, 6).min(300) * fields_in(bytes).clamp(1, 10)
}

/// The bytes of a head.
pub fn head_length(objects: usize, fields: Option<usize>) -> usize {
    match fields {
        None => 8 + 5 * objects,
        Some(fields) => 10 + objects * (1 + 4 * fields),
    }
}

/// The number of two bytes at this place.
pub fn half_at(bytes: &[u8], at: usize) -> usize {
    u16::from_le_bytes([bytes[at], bytes[at + 1]]).into()
}

/// The number of four bytes at this place.
pub fn word_at(bytes: &[u8], at: usize) -> u32 {
    (half_at(bytes, at) + (half_at(bytes, at + 2) << 16)) as u32
}

/// A head without its objects.
pub fn head_start(tasks: usize, objects: usize, fields: usize) -> Vec<u8> {
    match fields {
        0 => halves_of(&[head_length(objects, None), 1, tasks, objects]),
        _ => {
            let length = head_length(objects, Some(fields));
            halves_of(&[length, 7, tasks, objects, fields])
        }
    }
}

/// How many accesses a recording has; 0 for bytes that do not read.
pub fn accesses_in(bytes: &[u8]) -> usize {
    reader::scan(bytes).map_or(0, |layout| {
        layout.sections.iter().map(|s| s.accesses as usize).sum()
    })
}

/// What an opening is given, and accesses, five numbers each: task, object, field, sort, value. Fields 0 is the opening of head 1.
pub struct Script {
    pub tasks: usize,
    pub fields: usize,
    pub owners: Vec<u8>,
    pub starts: Vec<u32>,
    pub accesses: Vec<u32>,
}

/// Scripts.
impl Random {
    /// Three accesses of four are to an object of the task's own, the rest to any; one in three writes.
    pub fn script(&mut self, tasks: usize, objects: usize, fields: usize, count: usize) -> Script {
        let owners = (0..objects).map(|i| (i % tasks) as u8).collect();
        let width = fields.max(1);
        let starts = self.words(objects * width);
        let mut accesses = Vec::new();
        for _ in 0..count {
            let task = self.below(tasks);
            let any = self.below(objects);
            let own = (any / tasks * tasks + task) % objects;
            let object = self.mostly(4, own, any);
            let write = self.once_in(3);
            // With one field no number is drawn, so that scripts of head 1 stay what they were.
            let field = if width == 1 { 0 } else { self.below(width) };
            let place = [task, object, field].map(|n| n as u32);
            accesses.extend(place);
            accesses.extend([write.into(), self.word()]);
        }
        Script {
            tasks,
            fields,
            owners,
            starts,
            accesses,
        }
    }
}

/// States and runs.
impl Random {
    fn hold(&mut self, task: u32, share: u32) -> Hold {
        let read = Hold::ReadExclusive(task);
        self.pick(&[Hold::WriteExclusive(task), read, Hold::Shared(share)])
    }

    /// A state that calls may never reach. Most are sound.
    pub fn far_state(&mut self) -> recorder::State {
        let mut state = recorder::State::BLANK;
        state.tasks = 1 + self.below(16);
        state.objects = 1 + self.below(256);
        state.fields = self.pick(&[0, 0, 1, 2, 5, 8]);
        let most = self.pick(&[3, 300, 65_535]);
        for t in 0..16 {
            let done = self.below(most + 1);
            state.done[t] = self.mostly(4, done, most) as u32;
            state.took[t] = self.below(state.done[t] as usize + 1) as u32;
        }
        let total: u32 = state.done[..state.tasks].iter().sum();
        state.share = self.below(total as usize + 1) as u32;
        for t in 0..16 {
            state.seen[t] = self.below(state.share as usize + 1) as u32;
        }
        state.last.task = self.below(state.tasks) as u32;
        let done = state.done[state.last.task as usize];
        state.last.number = self.below(done as usize + 1) as u32;
        for record in &mut state.cells {
            let task = self.below(state.tasks) as u32;
            record.hold = match state.share {
                0 => Hold::ReadExclusive(task),
                share => {
                    let share = 1 + self.below(share as usize) as u32;
                    self.hold(task, share)
                }
            };
        }
        state
    }

    /// One field set to any number.
    pub fn bend_state(&mut self, state: &mut recorder::State) {
        let t = self.below(16);
        let half = self.half();
        let word = self.word();
        let total = state.done.iter().take(state.tasks).sum();
        let near = self.pick(&[state.share, total]);
        let share = self.pick(&[0, near, near.wrapping_add(1), half, word]);
        let done = state.done[state.last.task as usize % 16];
        let number = self.pick(&[half, done, done + 1]) & 0xffff;
        let took = self.pick(&[half, state.done[t], state.done[t] + 1]) & 0xffff;
        match self.below(10) {
            0 => state.tasks = half as usize,
            1 => state.objects = half as usize,
            2 => state.share = share,
            3 => state.last.task = half,
            4 => state.last.number = number,
            5 => state.done[t] = half,
            6 => state.seen[t] = share,
            7 => state.took[t] = took,
            8 => {
                let near = self.below(10);
                state.fields = self.mostly(4, near, half as usize);
            }
            _ => {
                let cells = state.objects.clamp(1, 256) * state.fields.clamp(1, 8);
                let below = self.below(cells);
                // The first one that is not looked at, and any.
                let any = self.below(2048);
                let other = self.pick(&[cells.min(2047), any]);
                let task = self.mostly(8, t as u32, half);
                let hold = self.hold(task, share);
                state.cells[self.mostly(4, below, other)] = CellRecord { hold };
            }
        }
    }

    /// One field set to any number; `bytes` is the recording's length.
    pub fn bend_run(&mut self, run: &mut replayer::Run, bytes: usize) {
        let t = self.below(16);
        let half = self.half();
        let word = self.word();
        let any = self.next() as usize;
        let near = self.pick(&[run.place[t], run.end[t], bytes]);
        let near = near.wrapping_add(self.below(20)).wrapping_sub(10);
        let place = self.pick(&[0, near, bytes, bytes + 1, usize::MAX, any]);
        let near = self.pick(&[run.done[t], run.count[t]]);
        let count = self.pick(&[near, near.wrapping_add(1), half, word]);
        match self.below(8) {
            0 => run.tasks = self.mostly(4, half as usize, any),
            1 => run.objects = self.mostly(4, half as usize, any),
            2 => run.done[t] = count,
            3 => run.count[t] = count,
            4 => run.place[t] = place,
            5 => run.end[t] = place,
            6 => {
                let (near, other) = (self.below(10), self.pick(&[half as usize, any]));
                run.fields = self.mostly(4, near, other);
            }
            // Between the orderings of one access.
            _ => run.end[t] = run.place[t].wrapping_add(8 * self.below(3)),
        }
    }
}

/// Recordings.
impl Random {
    /// A record of a body under the head that `fields` tells; rarely one that may not stand there.
    fn record(&mut self, tasks: usize, objects: usize, fields: usize) -> Vec<u8> {
        let any = self.half() as usize;
        let [task, object, number] = [tasks, objects, 4].map(|n| self.below(n));
        let task = self.mostly(100, task, any);
        let object = self.mostly(100, object, any);
        let number = self.mostly(100, 1 + number, any);
        let other = self.pick(&[8, 12, any]);
        // Values that a read often finds.
        let few = self.below(2);
        // Out of range is mostly F itself or one more.
        let field = self.below(fields.max(1));
        let outside = self.pick(&[fields, fields + 1, any]);
        let field = self.mostly(60, field, outside);
        let kinds_of_other = self.once_in(300);
        match (self.below(300), (fields == 0) != kinds_of_other) {
            (0, _) => self.misplaced(other, number, task),
            (1..=75, _) => halves_of(&[8, 3, task, number]),
            (76..=110, true) => halves_of(&[6, 4, object]),
            (111..=150, true) => halves_of(&[10, 6, object, few, 0]),
            (151..=225, true) => halves_of(&[10, 5, object, few, 0]),
            (_, true) => halves_of(&[10, 5, object, any, number]),
            (76..=150, false) => halves_of(&[12, 8, object, field, few, 0]),
            (151..=225, false) => halves_of(&[12, 9, object, field, few, 0]),
            (_, false) => halves_of(&[12, 9, object, field, any, number]),
        }
    }

    /// A record that no body has: of any kind and length, a section, or a head that is whole or too long for its N and F, or for the body.
    fn misplaced(&mut self, length: usize, kind: usize, number: usize) -> Vec<u8> {
        let fields = self.below(3);
        let mut head = head_start(1, 1, fields);
        head.resize(half_at(&head, 0), 0);
        match self.below(6) {
            0 => halves_of(&[12, 2, number, 0, 0, 0]),
            1 => head,
            2 => {
                head[0] += 1;
                head.push(0);
                head
            }
            3 => {
                head[1] = 255;
                head
            }
            _ => halves_of(&[length, kind, number, 0, 0, 0]),
        }
    }

    /// A section record and its body; rarely its task, count or size is wrong.
    fn section(&mut self, task: usize, tasks: usize, objects: usize, fields: usize) -> Vec<u8> {
        let mut body = Vec::new();
        let mut accesses = 0;
        for _ in 0..self.below(12) {
            let record = self.record(tasks, objects, fields);
            let own = record[2] == 3 && usize::from(record[4]) == task;
            // An ordering on the task itself is refused.
            if !own || self.once_in(30) {
                accesses += usize::from(record[2] > 3);
                body.extend(record);
            }
        }
        // And so is one at the end.
        if !self.once_in(30) {
            accesses += 1;
            let object = self.below(objects);
            body.extend(match fields {
                0 => halves_of(&[6, 4, object]),
                _ => halves_of(&[12, 9, object, self.below(fields), 1, 0]),
            });
        }
        let right = [12, 2, task, accesses, body.len(), 0];
        let section = right.map(|x| {
            let near = (x + self.below(5)).saturating_sub(2);
            self.mostly(100, x, near)
        });
        [halves_of(&section), body].concat()
    }

    /// A recording made of records and not by the recorder: its orderings may never be met.
    pub fn loose_recording(&mut self) -> Vec<u8> {
        let most = self.pick(&[2, 4, 16]);
        let tasks = 1 + self.below(most);
        let most = self.pick(&[2, 8, 256]);
        let objects = 1 + self.below(most);
        let fields = self.pick(&[0, 0, 1, 2, 3, 8]);
        let mut bytes = head_start(tasks, objects, fields);
        for _ in 0..objects {
            bytes.push(self.below(tasks) as u8);
            for _ in 0..fields.max(1) {
                let (few, any) = (self.below(2) as u32, self.word());
                bytes.extend(self.mostly(4, few, any).to_le_bytes());
            }
        }
        for task in 0..tasks {
            bytes.extend(self.section(task, tasks, objects, fields));
        }
        bytes
    }

    /// A recording that comes to nearly the same.
    pub fn twin(&mut self, bytes: &[u8]) -> Vec<u8> {
        let mut twin = bytes.to_vec();
        let Ok(layout) = reader::scan(bytes) else {
            return twin;
        };
        let section = layout.sections[layout.tasks - 1].start - 12;
        let start = if layout.fields == 0 { 9 } else { 11 };
        let (low, high) = (half_at(bytes, start), half_at(bytes, start + 2));
        // Under head 7 a read has a value: the starting one.
        let read = match layout.fields {
            0 => vec![6, 4, 0],
            _ => vec![12, 8, 0, 0, low, high],
        };
        let stuck = [&[8, 3, 0, 65_535], &read[..]].concat();
        match self.below(8) {
            // Another starting value; one read more, which may never be ready; one task more; the other head; another F, with the same N
            // and with the same cells.
            0 => twin[start] ^= 1,
            1 => lengthen(&mut twin, section, &read),
            2 if layout.tasks > 1 => lengthen(&mut twin, section, &stuck),
            3 if layout.tasks < 16 => {
                twin[4] += 1;
                twin.extend(halves_of(&[12, 2, layout.tasks, 0, 0, 0]));
            }
            4 => return under_other_head(bytes),
            5 => return with_field_more(bytes),
            6 => return reshaped(bytes, self.pick(&[1, 2, 3, 4, 8])),
            _ => {}
        }
        twin
    }

    /// Another count or size in a section record of bytes that read: most are then refused inside a body or at its end.
    pub fn bend_section(&mut self, bytes: &mut [u8]) {
        let Ok(layout) = reader::scan(bytes) else {
            return;
        };
        let section = layout.sections[self.below(layout.tasks)];
        let at = section.start - self.pick(&[6, 4, 4]);
        let near = (half_at(bytes, at) + self.below(21)).saturating_sub(10);
        bytes[at..at + 2].copy_from_slice(&halves_of(&[near]));
    }

    /// A change that readers meet: a cut, more, a part not at all or twice, a record put in, a field.
    pub fn damage(&mut self, bytes: &mut Vec<u8>) {
        let at = self.below(bytes.len() + 1);
        let end = (at + self.below(24)).min(bytes.len());
        match self.below(8) {
            0 => bytes.truncate(at),
            1 => {
                let more = self.below(16);
                bytes.extend(self.bytes(more));
            }
            2 => drop(bytes.drain(at..end)),
            3 => drop(bytes.splice(at..at, bytes[at..end].to_vec())),
            4 => {
                let fields = self.pick(&[0, 1, 4]);
                drop(bytes.splice(at..at, self.record(3, 5, fields)));
            }
            _ => {
                let (small, any) = (self.below(14), self.half() as usize);
                let field = halves_of(&[self.mostly(3, small, any)]);
                // Where N is even, every record starts at an even place.
                let at = self.mostly(2, at, at & !1);
                bytes
                    .iter_mut()
                    .skip(at)
                    .zip(field)
                    .for_each(|(byte, x)| *byte = x);
            }
        }
    }
}

/// One more access after the last body, whose section record is at `section`.
fn lengthen(bytes: &mut Vec<u8>, section: usize, records: &[usize]) {
    bytes.extend(halves_of(records));
    let count = u16::from_le_bytes([bytes[section + 6], bytes[section + 7]]).wrapping_add(1);
    let size = (bytes.len() - section - 12) as u32;
    bytes[section + 6..section + 8].copy_from_slice(&count.to_le_bytes());
    bytes[section + 8..section + 12].copy_from_slice(&size.to_le_bytes());
}
