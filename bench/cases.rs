//! How often the comparison reached each case of `playable` and of the replay opening: random bytes alone would leave most of them out.

use crate::inputs::{accesses_in, half_at};
use crate::orderings::orderings_in;
use crate::peer::replayer::Opened;

/// How often each case was reached, by its name.
#[derive(Default)]
pub struct Counts(Vec<(&'static str, u64)>);

impl Counts {
    pub fn count(&mut self, name: &'static str, reached: bool) {
        match self.0.iter_mut().find(|(counted, _)| *counted == name) {
            Some((_, count)) => *count += u64::from(reached),
            None => self.0.push((name, reached.into())),
        }
    }

    pub fn print(&self, of: &str) {
        for (name, count) in &self.0 {
            println!("{of} {name:<36} {count:>9}");
        }
    }
}

/// Each case by its name.
#[derive(Default)]
pub struct Cases([(&'static str, u64); 17]);

/// Which cases an answer into an output of `room` bytes is of.
fn cases_of(bytes: &[u8], room: usize, answer: [usize; 4]) -> [(&'static str, bool); 17] {
    let [number, offset, task, steps] = answer;
    let (whole, held) = (number == 0, number == 18);
    let short = number == 9 && room + 1 == accesses_in(bytes);
    let orderings = if held { orderings_in(bytes) } else { vec![] };
    let after_another = orderings.iter().any(|(at, _)| at + 8 == offset);
    let beyond: Vec<usize> = orderings
        .iter()
        .filter(|(at, most)| half_at(bytes, at + 6) > *most)
        .map(|(at, _)| *at)
        .collect();
    [
        ("0, no access and no output", whole && steps + room == 0),
        ("0, up to 99 steps", whole && steps < 100),
        ("0, 100 steps or more", whole && steps >= 100),
        ("0, room for more", whole && steps < room),
        ("9", number == 9),
        ("9, one byte short", short),
        ("10", number == 10),
        ("11", number == 11),
        ("12", number == 12),
        ("13", number == 13),
        ("14", number == 14),
        ("18", held),
        ("18, no output", held && room == 0),
        ("18, lowest held task above 0", held && task > 0),
        ("18, ordering after one that is met", held && after_another),
        ("18, beyond its source's accesses", beyond.contains(&offset)),
        ("18, none beyond: a circle", held && beyond.is_empty()),
    ]
}

impl Cases {
    pub fn count(&mut self, bytes: &[u8], room: usize, answer: [usize; 4]) {
        let cases = cases_of(bytes, room, answer);
        for (counted, (name, reached)) in self.0.iter_mut().zip(cases) {
            *counted = (name, counted.1 + u64::from(reached));
        }
    }

    pub fn print(&self) {
        for (name, count) in &self.0 {
            println!("playable {name:<36} {count:>9}");
        }
    }
}

/// Each case of an opening by its name.
#[derive(Default)]
pub struct Openings {
    cases: [(&'static str, u64); 10],
    /// How often a recording of each number of tasks was accepted, from 1 on.
    tasks: [u64; 16],
    /// The most records in one that was accepted.
    most: usize,
}

impl Openings {
    pub fn count(&mut self, opened: &Opened) {
        let (number, run) = (opened.number, &opened.run);
        let accepted = number == 0;
        let accesses = run.count.iter().sum::<u32>() as usize;
        let orderings = accepted && opened.records > 1 + run.tasks + accesses;
        let empty = (0..run.tasks).any(|t| run.place[t] == run.end[t]);
        let cases = [
            ("accepted", accepted),
            ("accepted, with orderings", orderings),
            ("accepted, with an empty body", accepted && empty),
            ("refused by bytes", (10..=14).contains(&number)),
            ("refused by bytes, 10", number == 10),
            ("refused by bytes, 11", number == 11),
            ("refused by bytes, 12", number == 12),
            ("refused by bytes, 13", number == 13),
            ("refused by bytes, 14", number == 14),
            ("refused with 3", number == 3),
        ];
        for (counted, (name, reached)) in self.cases.iter_mut().zip(cases) {
            *counted = (name, counted.1 + u64::from(reached));
        }
        if accepted {
            self.tasks[run.tasks - 1] += 1;
            self.most = self.most.max(opened.records);
        }
    }

    pub fn print(&self) {
        let rarest = self.tasks.into_iter().min().unwrap_or(0);
        let others = [
            ("accepted, the rarest T of 1 to 16", rarest),
            ("accepted, most records", self.most as u64),
        ];
        for (name, count) in self.cases.iter().chain(&others) {
            println!("opening {name:<36} {count:>9}");
        }
    }
}
