//! Recordings for their orderings: playable or stuck, at random, and slow to play for the clock.

use crate::inputs::{half_at, halves_of, head_start};
use crate::peer::reader;
use crate::random::Random;

/// The place of each ordering and how many accesses its source has; none for bytes that do not read.
pub fn orderings_in(bytes: &[u8]) -> Vec<(usize, usize)> {
    let mut found = Vec::new();
    let Ok(layout) = reader::scan(bytes) else {
        return found;
    };
    for section in &layout.sections[..layout.tasks] {
        let mut at = section.start;
        while at < section.end {
            if half_at(bytes, at + 2) == 3 {
                let source = half_at(bytes, at + 4);
                found.push((at, layout.sections[source].accesses as usize));
            }
            at += half_at(bytes, at);
        }
    }
    found
}

/// For each task its accesses, and for each access the orderings before it: source and number.
type Plan = Vec<Vec<Vec<[usize; 2]>>>;

/// A recording of one object, read and written in turn, with a value or without; under head 7 its fields in turn.
fn recording_of(plan: &Plan, fields: usize) -> Vec<u8> {
    let mut bytes = head_start(plan.len(), 1, fields);
    bytes.resize(bytes.len() + 1 + 4 * fields.max(1), 0);
    for (task, accesses) in plan.iter().enumerate() {
        let mut body = Vec::new();
        for (k, orderings) in accesses.iter().enumerate() {
            for &[source, number] in orderings {
                body.extend(halves_of(&[8, 3, source, number]));
            }
            body.extend(match (k % 3, fields) {
                (0, 0) => halves_of(&[6, 4, 0]),
                (1, 0) => halves_of(&[10, 5, 0, k % 2, 0]),
                (_, 0) => halves_of(&[10, 6, 0, task % 2, 0]),
                (2, _) => halves_of(&[12, 8, 0, k % fields, task % 2, 0]),
                _ => halves_of(&[12, 9, 0, k % fields, k % 2, 0]),
            });
        }
        let size = body.len();
        bytes.extend(halves_of(&[12, 2, task, accesses.len(), size, size >> 16]));
        bytes.extend(body);
    }
    bytes
}

impl Random {
    /// Any orderings that a run in some order meets.
    fn plan(&mut self) -> Plan {
        let mut plan = vec![Vec::new(); 1 + self.below(16)];
        let most = self.pick(&[1, 8, 60, 60, 400]);
        for _ in 0..self.below(most) {
            let task = self.below(plan.len());
            let mut orderings = Vec::new();
            for _ in 0..self.pick(&[0, 0, 1, 1, 2, 5, 30]) {
                let source = self.below(plan.len());
                let done = plan[source].len();
                if source != task && done > 0 {
                    let any = 1 + self.below(done);
                    orderings.push([source, self.mostly(3, done, any)]);
                }
            }
            plan[task].push(orderings);
        }
        plan
    }

    /// Puts in orderings by which some tasks wait for each other in a circle: each, at one of its accesses, for the access at which
    /// the next one waits, or for a later one.
    fn close_circle(&mut self, plan: &mut Plan) {
        let mut left: Vec<usize> = (0..plan.len()).filter(|&t| !plan[t].is_empty()).collect();
        if left.len() < 2 {
            return;
        }
        let mut circle = Vec::new();
        for _ in 0..2 + self.below(left.len() - 1) {
            let task = left.swap_remove(self.below(left.len()));
            circle.push((task, self.below(plan[task].len())));
        }
        for (i, &(task, access)) in circle.iter().enumerate() {
            let (next, held) = circle[(i + 1) % circle.len()];
            let number = held + 1 + self.below(plan[next].len() - held);
            let orderings = &mut plan[task][access];
            orderings.insert(self.below(orderings.len() + 1), [next, number]);
        }
    }

    /// Playable, or with a circle.
    pub fn planned_recording(&mut self) -> Vec<u8> {
        let mut plan = self.plan();
        if self.once_in(3) {
            self.close_circle(&mut plan);
        }
        let fields = self.pick(&[0, 0, 1, 3]);
        recording_of(&plan, fields)
    }

    /// Other numbers in some orderings; bytes that read still do.
    pub fn bend_orderings(&mut self, bytes: &mut [u8]) {
        let orderings = orderings_in(bytes);
        if orderings.is_empty() {
            return;
        }
        for _ in 0..1 + self.below(3) {
            let ((at, most), (other, _)) = (self.pick(&orderings), self.pick(&orderings));
            let within = 1 + self.below(most.max(1));
            let beyond = (most + 1 + self.below(3)).min(65_535);
            match self.below(4) {
                0 => bytes[at + 6..at + 8].copy_from_slice(&halves_of(&[beyond])),
                1 => bytes[at + 6..at + 8].copy_from_slice(&halves_of(&[within])),
                _ => (6..8).for_each(|i| bytes.swap(at + i, other + i)),
            }
        }
    }
}

/// Recordings of 16 tasks, under head 1, on which a careless `playable` would be slow.
pub mod slow {
    use super::{recording_of, Plan};

    /// Each task below `held` has one access, after every single access of all tasks from `held` on, which have `each`.
    pub fn held(held: usize, each: usize) -> Vec<u8> {
        let all = (held..16).flat_map(|source| (1..=each).map(move |number| [source, number]));
        let mut plan = vec![vec![all.collect()]; held];
        plan.resize(16, vec![Vec::new(); each]);
        recording_of(&plan, 0)
    }

    /// Each task below 15 has one access, after the last of `each` accesses of task 15: all of them wait at every step.
    pub fn waiting(each: usize) -> Vec<u8> {
        let mut plan = vec![vec![vec![[15, each]]]; 15];
        plan.push(vec![Vec::new(); each]);
        recording_of(&plan, 0)
    }

    /// The k-th access of each task is after the k-th of the task before it, and task 0's next is after that of task 15.
    fn turns(each: usize) -> Plan {
        let after = |task, number| match (task, number) {
            (0, 1) => vec![],
            (0, _) => vec![[15, number - 1]],
            _ => vec![[task - 1, number]],
        };
        let accesses = |task| (1..=each).map(|number| after(task, number)).collect();
        (0..16).map(accesses).collect()
    }

    pub fn in_turn(each: usize) -> Vec<u8> {
        recording_of(&turns(each), 0)
    }

    /// In turn, but the last accesses of tasks 14 and 15 wait for each other.
    pub fn stuck(each: usize) -> Vec<u8> {
        let mut plan = turns(each);
        plan[14][each - 1].push([15, each]);
        recording_of(&plan, 0)
    }
}
