//! Both heads: recordings put under another one, and how often the comparison reached each case of fields.

use crate::cases::Counts;
use crate::inputs::{cells_in, fields_in, half_at, halves_of, head_length, head_start};
use crate::peer::reader::{self, Checked};
use crate::peer::recorder::Accessed;
use crate::random::Random;
use crate::values::bodies_in;

/// The owner of each object and its starting values, of bytes that read.
fn entries_in(bytes: &[u8]) -> Vec<&[u8]> {
    let (fixed, width) = match fields_in(bytes) {
        0 => (8, 1),
        fields => (10, fields),
    };
    bytes[fixed..half_at(bytes, 0)].chunks_exact(1 + 4 * width).collect()
}

/// An access record with the kind that it has under the other head, field 0. A read without a value gets the starting one.
fn translated(record: &[u8], entries: &[&[u8]]) -> Vec<u8> {
    let object = half_at(record, 4);
    let with_value = |kind, at| [halves_of(&[12, kind, object, 0]), record[at..].to_vec()].concat();
    match half_at(record, 2) {
        4 => [halves_of(&[12, 8, object, 0]), entries[object][1..5].to_vec()].concat(),
        5 => with_value(9, 6),
        6 => with_value(8, 6),
        8 => [halves_of(&[10, 6, object]), record[8..].to_vec()].concat(),
        9 => [halves_of(&[10, 5, object]), record[8..].to_vec()].concat(),
        _ => record.to_vec(),
    }
}

/// The bodies behind another head, each record made anew.
fn remade(bytes: &[u8], head: Vec<u8>, record: impl Fn(&[u8]) -> Vec<u8>) -> Vec<u8> {
    let mut made = head;
    for (start, end) in bodies_in(bytes) {
        let section = made.len();
        made.extend(&bytes[start - 12..start]);
        let mut at = start;
        while at < end {
            let next = at + half_at(bytes, at);
            made.extend(record(&bytes[at..next]));
            at = next;
        }
        let size = (made.len() - section - 12) as u32;
        made[section + 8..section + 12].copy_from_slice(&size.to_le_bytes());
    }
    made
}

/// The recording under head 7 with one field instead of head 1, or the other way round; as it is with more fields.
pub fn under_other_head(bytes: &[u8]) -> Vec<u8> {
    let fields = fields_in(bytes);
    if reader::check(bytes).number != 0 || fields > 1 {
        return bytes.to_vec();
    }
    let entries = entries_in(bytes);
    let mut head = head_start(half_at(bytes, 4), entries.len(), 1 - fields);
    head.extend(entries.concat());
    remade(bytes, head, |record| translated(record, &entries))
}

/// A recording of head 7 with the same cells in objects of this number of fields; others, and where that cannot be, as they are.
pub fn reshaped(bytes: &[u8], width: usize) -> Vec<u8> {
    let fields = fields_in(bytes);
    let cells = cells_in(bytes);
    if reader::check(bytes).number != 0 || fields == 0 || cells % width != 0 || cells / width > 256 {
        return bytes.to_vec();
    }
    let values: Vec<u8> = entries_in(bytes).iter().flat_map(|entry| entry[1..].to_vec()).collect();
    let mut head = head_start(half_at(bytes, 4), cells / width, width);
    for of_object in values.chunks_exact(4 * width) {
        head.push(0);
        head.extend(of_object);
    }
    remade(bytes, head, |record| {
        let mut made = record.to_vec();
        if half_at(record, 2) != 3 {
            let cell = half_at(record, 4) * fields + half_at(record, 6);
            made[4..8].copy_from_slice(&halves_of(&[cell / width, cell % width]));
        }
        made
    })
}

/// A recording of head 7 with one field more, which no access is of; others as they are.
pub fn with_field_more(bytes: &[u8]) -> Vec<u8> {
    let fields = fields_in(bytes);
    if reader::check(bytes).number != 0 || !(1..8).contains(&fields) {
        return bytes.to_vec();
    }
    let entries = entries_in(bytes);
    let mut made = head_start(half_at(bytes, 4), entries.len(), fields + 1);
    for entry in entries {
        made.extend(entry);
        made.extend([0; 4]);
    }
    made.extend(&bytes[half_at(bytes, 0)..]);
    made
}

impl Random {
    /// The bodies of a recording under a head that most of them cannot stand under, or one with numbers out of range; its length
    /// mostly agrees with its N and F.
    pub fn odd_head(&mut self, bytes: &[u8]) -> Vec<u8> {
        if reader::check(bytes).number != 0 {
            return bytes.to_vec();
        }
        let (tasks, objects) = (half_at(bytes, 4), half_at(bytes, 6));
        let any = self.half() as usize;
        let fields = self.pick(&[0, 1, 2, 7, 8, 9, 10]);
        let tasks = self.mostly(8, tasks, any);
        let objects = self.mostly(8, objects, any.min(300));
        let agreeing = head_length(objects, Some(fields)).min(65_535);
        let [length, kind, objects, fields] = match self.below(8) {
            0 => [head_length(objects, None), 1, objects, 0],
            // The length that N and F would agree with if it wrapped at 65,536.
            1 => [266, 7, 256, 64],
            2 => [agreeing + self.below(3) - 1, 7, objects, fields],
            3 => [agreeing, 7, objects, self.mostly(2, fields + 1, any)],
            4 => [self.pick(&[4, 8, 9, 10]), 7, objects, fields],
            _ => [agreeing, 7, objects, fields],
        };
        let mut made = halves_of(&[length, kind, tasks, objects]);
        if kind == 7 {
            made.extend(halves_of(&[fields]));
        }
        // Owners are 0, and so are the values.
        made.resize(length.max(made.len()), 0);
        made.extend(&bytes[half_at(bytes, 0)..]);
        if self.once_in(4) {
            made.truncate(4 + self.below(8));
        }
        made
    }
}

/// Each case by its name.
#[derive(Default)]
pub struct Heads {
    counts: Counts,
    /// How often an access was accepted with each number of fields, from 1 on.
    accepted: [u64; 8],
}

impl Heads {
    /// An opening with this number of fields, or of head 1.
    pub fn opened(&mut self, fields: Option<usize>, number: u32) {
        let Some(fields) = fields else {
            return;
        };
        self.counts.count("opening accepted", number == 0);
        self.counts.count("opening, 20 for F = 0", number == 20 && fields == 0);
        self.counts.count("opening, 20 for F above 8", number == 20 && fields > 8);
        self.counts.count("opening, 3", number == 3);
        self.counts.count("opening, 4", number == 4);
        self.counts.count("opening, 9", number == 9);
    }

    /// An access on a state with this number of fields, objects, and a memory of this length.
    pub fn accessed(&mut self, (fields, memory): (usize, usize), objects: usize, a: &Accessed) {
        let head_7 = fields > 0;
        self.counts.count("access, 20 under head 1", a.number == 20 && !head_7);
        self.counts.count("access, 20 under head 7", a.number == 20 && head_7);
        self.counts.count("access, 17 for F above 8", a.number == 17 && fields > 8);
        let by_object = a.number == 3 && fields > 1 && memory == objects;
        self.counts.count("access, 3 under head 7", a.number == 3 && head_7);
        self.counts.count("access, 3 for a memory of N values", by_object);
        self.counts.count("access, 9 under head 7", a.number == 9 && head_7);
        if a.number == 0 && head_7 {
            self.accepted[fields - 1] += 1;
        }
    }

    pub fn sectioned(&mut self, fields: usize, number: u32) {
        let head_7 = fields > 0;
        self.counts.count("section accepted", number == 0 && head_7);
        self.counts.count("section, 12", number == 12 && head_7);
        self.counts.count("section, 13", number == 13 && head_7);
        self.counts.count("section, 17 for F above 8", number == 17 && fields > 8);
    }

    /// A check of these bytes: what is wrong, by the record that it is wrong at.
    pub fn checked(&mut self, bytes: &[u8], checked: Checked) {
        let Checked { number, offset } = checked;
        let (fields, kind) = (fields_in(bytes), kind_at(bytes, offset));
        let head_7 = kind_at(bytes, 0) == 7;
        let refused = number != 0;
        self.counts.count("check, accepted", number == 0 && head_7);
        for (name, wanted) in [
            ("check, 10", 10),
            ("check, 11", 11),
            ("check, 12", 12),
            ("check, 13", 13),
            ("check, 14", 14),
        ] {
            self.counts.count(name, number == wanted && head_7);
        }
        let at_head = refused && offset == 0 && head_7;
        let no_field = !(1..=8).contains(&fields);
        let cut = bytes.len() < 10;
        let agrees = !cut
            && half_at(bytes, 0) == head_length(half_at(bytes, 6), Some(fields));
        let other = if head_7 { 4..=6 } else { 8..=9 };
        let field = bytes.len() >= offset + 12
            && (8..=9).contains(&kind)
            && half_at(bytes, offset + 4) < half_at(bytes, 6)
            && half_at(bytes, offset + 6) >= fields;
        let inner_head = refused && offset > 0 && kind == 7;
        self.counts.count("check, 13 for F alone", at_head && number == 13 && no_field && agrees);
        let short = at_head && half_at(bytes, 0) < 10 && number == 11;
        self.counts.count("check, 11 for a length below 10", short);
        self.counts.count("check, 11 for that before 10", short && cut);
        let wraps = at_head && number == 11 && fields == 64 && half_at(bytes, 0) == 266;
        self.counts.count("check, 11 for a length that wraps", wraps);
        self.counts.count("check, 13 for a field", number == 13 && head_7 && field);
        self.counts.count("check, 12 for 4 to 6 under head 7", number == 12 && head_7 && other.contains(&kind));
        self.counts.count("check, 12 for 8, 9 under head 1", number == 12 && !head_7 && offset > 0 && other.contains(&kind));
        self.counts.count("check, 11 for a head 7 inside", inner_head && number == 11);
        self.counts.count("check, 12 for a head 7 inside", inner_head && number == 12);
        self.counts.count("check, 14 for a head 7 inside", inner_head && number == 14);
    }

    pub fn stepped(&mut self, fields: usize, number: u32) {
        self.counts.count("step taken", number == 0 && fields > 0);
        self.counts.count("step, 3", number == 3 && fields > 0);
        self.counts.count("step, 12", number == 12 && fields > 0);
        self.counts.count("step, 13", number == 13 && fields > 0);
        self.counts.count("step, 17 for F above 8", number == 17 && fields > 8);
    }

    pub fn compared(&mut self, both: [&[u8]; 2], alike: bool) {
        let [one, two] = both.map(fields_in);
        let read = both.iter().all(|bytes| reader::check(bytes).number == 0);
        let same = read && both[0][4..8] == both[1][4..8];
        let (one_head, other_head) = (one.min(two) > 0, one.min(two) == 0 && one != two);
        self.counts.count("compared, alike under head 7", alike && one_head);
        self.counts.count("compared, alike under both heads", alike && other_head);
        self.counts.count("compared, equal T and N, another F", same && one_head && one != two && !alike);
        let cells = read && cells_in(both[0]) == cells_in(both[1]);
        self.counts.count("compared, equal T and cells, another N", cells && !same && both[0][4] == both[1][4]);
    }

    pub fn print(&self) {
        self.counts.print("heads");
        let rarest = self.accepted.into_iter().min().unwrap_or(0);
        println!("heads {:<36} {rarest:>9}", "accesses, the rarest F of 1 to 8");
    }
}

/// The kind of the record here, or 0.
fn kind_at(bytes: &[u8], at: usize) -> usize {
    if bytes.len() < at + 4 {
        return 0;
    }
    half_at(bytes, at + 2)
}
