//! Random scripts on both sides. A script is one recording from its opening to its replay, with refused calls, unsound states and
//! damaged bytes in between.

use crate::both::{Both, Same};
use crate::inputs::{accesses_in, cells_in, head_length};
use crate::peer::{recorder, replayer};
use crate::random::Random;

struct Script {
    random: Random,
    both: Both,
}

/// Making a recording.
impl Script {
    /// Under head 7 with this number of fields, or under head 1.
    fn open(
        &mut self,
        [tasks, objects]: [usize; 2],
        fields: Option<usize>,
    ) -> Same<Option<(recorder::State, Vec<u32>, Vec<u8>)>> {
        let r = &mut self.random;
        // Lists that are right but for F, where that is out of range.
        let near = fields.map(|fields| fields.min(9));
        let cells = objects * near.unwrap_or(1);
        let [owners, starts, memory] = [objects, cells, cells].map(|n| {
            let length = r.length(n);
            r.mostly(80, length, objects)
        });
        let mut owners = r.bytes(owners);
        if !r.once_in(40) {
            let tasks = tasks.clamp(1, 16) as u8;
            owners.iter_mut().for_each(|owner| *owner %= tasks);
        }
        let starts = r.words(starts);
        let mut memory = r.words(memory);
        let head = head_length(objects, near);
        let less = r.below(head);
        let room = r.mostly(20, head, less);
        let mut out = r.bytes(room);
        let counts = [tasks, objects];
        let state = self
            .both
            .open(counts, fields, &owners, &starts, &mut memory, &mut out)?;
        Ok(state.map(|state| (state, memory, out)))
    }

    /// The task and its piece of the log, empty where the access is refused.
    fn access(
        &mut self,
        state: &mut recorder::State,
        memory: &mut [u32],
    ) -> Same<(usize, Vec<u8>)> {
        let r = &mut self.random;
        let place = [
            r.index(state.tasks.min(16)),
            r.index(state.objects.min(256)),
            r.index(state.fields.clamp(1, 8)),
        ];
        let (sort, other) = (r.word() & 1, r.half());
        let act = [r.mostly(60, sort, other), r.word()];
        // 140 bytes are enough for any access.
        let less = r.below(142);
        let room = r.mostly(12, 142, less);
        let mut out = r.bytes(room);
        let written = self.both.access(state, place, act, memory, &mut out)?;
        out.truncate(written);
        Ok((place[0], out))
    }

    /// Accesses on a state bent, or far from all others: a few, since the first may be accepted.
    fn odd_accesses(&mut self, state: &recorder::State) -> Same {
        let r = &mut self.random;
        let far = r.far_state();
        let mut state = r.mostly(3, state.clone(), far);
        for _ in 0..r.below(3) {
            r.bend_state(&mut state);
        }
        let length = r.length(state.objects.min(300) * state.fields.clamp(1, 9));
        let length = r.mostly(20, length, state.objects.min(300));
        let mut memory = r.words(length);
        for _ in 0..3 {
            self.access(&mut state, &mut memory)?;
        }
        Ok(())
    }

    /// A section that is mostly refused: a damaged log, little room, another task, a state bent.
    fn odd_section(&mut self, state: &recorder::State, task: usize, log: &[u8]) -> Same {
        let r = &mut self.random;
        let (mut state, mut log) = (state.clone(), log.to_vec());
        if r.once_in(2) {
            r.damage(&mut log);
        }
        if r.once_in(4) {
            r.bend_state(&mut state);
        }
        let other = r.index(16);
        let task = r.mostly(4, task, other);
        let less = r.below(12 + log.len());
        let room = r.mostly(4, 12 + log.len(), less);
        let mut out = r.bytes(room);
        self.both.section(&state, task, &log, &mut out)?;
        Ok(())
    }

    /// All sections in one call: as they are, and mostly refused, for a damaged log, wrong ends, little room, a state bent.
    fn packs(&mut self, state: &recorder::State, pieces: &[Vec<u8>]) -> Same {
        let logs = pieces.concat();
        let mut ends = Vec::new();
        for log in pieces {
            ends.push(ends.last().unwrap_or(&0) + log.len());
        }
        let room = 12 * ends.len() + logs.len();
        let mut out = self.random.bytes(room);
        self.both.pack(state, &logs, &ends, &mut out)?;
        for _ in 0..4 {
            let r = &mut self.random;
            let (mut state, mut logs, mut ends) = (state.clone(), logs.clone(), ends.clone());
            if r.once_in(2) {
                r.damage(&mut logs);
            }
            if r.once_in(3) {
                let t = r.below(ends.len());
                ends[t] = r.below(logs.len() + 2);
            }
            if r.once_in(8) {
                ends.pop();
            }
            if r.once_in(8) {
                ends.push(logs.len());
            }
            if r.once_in(4) {
                r.bend_state(&mut state);
            }
            let less = r.below(room + 1);
            let room = r.mostly(2, room + 20, less);
            let mut out = r.bytes(room);
            self.both.pack(&state, &logs, &ends, &mut out)?;
        }
        Ok(())
    }

    /// None where the opening is refused.
    fn recording(&mut self) -> Same<Option<Vec<u8>>> {
        let r = &mut self.random;
        let most = r.pick(&[1, 2, 4, 16, 16, 18]);
        let tasks = r.below(most + 1);
        let most = r.pick(&[1, 3, 12, 140, 256, 260]);
        let objects = r.below(most + 1);
        // None at all is rare.
        let least = [r.mostly(20, 1, 0), r.mostly(20, 1, 0)];
        let few = 1 + r.below(8);
        let any = r.next() as usize;
        let outside = r.pick(&[0, 9, 9, 10, 257, any]);
        let fields = Some(r.mostly(12, few, outside));
        let fields = r.pick(&[None, fields, fields]);
        let opened = self.open([tasks.max(least[0]), objects.max(least[1])], fields)?;
        let Some((mut state, mut memory, mut bytes)) = opened else {
            return Ok(None);
        };
        let mut logs = vec![Vec::new(); state.tasks];
        let most = self.random.pick(&[10, 40, 40, 300, 300, 2000]);
        // Rarely more than a task can make.
        let most = self.random.mostly(4000, most, 150_000);
        for _ in 0..self.random.below(most) {
            if self.random.once_in(25) {
                self.odd_accesses(&state)?;
            }
            let (task, piece) = self.access(&mut state, &mut memory)?;
            if !piece.is_empty() {
                logs[task].extend(piece);
            }
        }
        for (task, log) in logs.iter().enumerate() {
            self.odd_section(&state, task, log)?;
            let mut out = self.random.bytes(12 + log.len());
            self.both.section(&state, task, log, &mut out)?;
            bytes.extend(out);
        }
        self.packs(&state, &logs)?;
        Ok(Some(bytes))
    }
}

/// Reading a recording.
impl Script {
    /// The ready word and steps of a run bent, or over damaged bytes.
    fn odd_steps(&mut self, run: &replayer::Run, bytes: &[u8]) -> Same {
        let r = &mut self.random;
        let (mut run, mut bytes) = (run.clone(), bytes.to_vec());
        if r.once_in(2) {
            r.damage(&mut bytes);
        }
        for _ in 0..r.below(3) {
            r.bend_run(&mut run, bytes.len());
        }
        let length = r.length(run.objects.min(300) * run.fields.clamp(1, 9));
        let mut memory = r.words(length);
        self.both.ready(&run, &bytes)?;
        let room = self.random.below(40);
        let out = self.random.bytes(room);
        self.both.schedule(&run, &bytes, out)?;
        for _ in 0..3 {
            let task = self.random.index(run.tasks.min(16));
            self.both.step(&mut run, &bytes, &mut memory, task)?;
        }
        Ok(())
    }

    fn steps(&mut self, mut run: replayer::Run, bytes: &[u8], memory: &mut [u32]) -> Same {
        let any_order = self.random.once_in(2);
        // A read that differs from its record stays ready, and only others may go on.
        let mut idle = 0;
        while idle < 40 {
            if self.random.once_in(12) {
                self.odd_steps(&run, bytes)?;
            }
            let word = self.both.ready(&run, bytes)?;
            if word == 0 {
                break;
            }
            let lowest = word.trailing_zeros() as usize;
            let highest = 15 - word.leading_zeros() as usize;
            // Any task at all is often refused, and another is tried.
            let any = self.random.index(run.tasks);
            let task = self.random.pick(&[lowest, highest, any]);
            let task = if any_order { task } else { lowest };
            let number = self.both.step(&mut run, bytes, memory, task)?;
            idle = if number == 0 { 0 } else { idle + 1 };
        }
        for task in 0..17 {
            self.both.step(&mut run, bytes, memory, task)?;
        }
        Ok(())
    }

    fn read(&mut self, bytes: &[u8]) -> Same {
        self.both.check(bytes)?;
        let tasks = bytes.get(4).map_or(1, |&tasks| tasks.into());
        let task = self.random.index(tasks);
        let room = self.random.below(2 * bytes.len() + 1);
        let mut out = self.random.bytes(room);
        self.both.body(bytes, task, &mut out)?;
        self.both.body_check(bytes, task)?;
        let length = self.random.length(cells_in(bytes));
        let mut memory = self.random.words(length);
        self.both.replay(bytes, &mut memory)?;
        let length = self.random.length(cells_in(bytes));
        let mut memory = self.random.words(length);
        match self.both.replay_open(bytes, &mut memory)? {
            Some(run) => self.steps(run, bytes, &mut memory),
            None => Ok(()),
        }
    }

    fn compare(&mut self, first: &[u8], second: &[u8]) -> Same {
        let r = &mut self.random;
        let [one, two] = [first, second].map(|bytes| r.length(cells_in(bytes)));
        let (mut one, mut two) = (r.words(one), r.words(two));
        self.both
            .same_outcome([first, second], [&mut one, &mut two])
    }

    /// A recording, a loose one, one of the two damaged, each with a value changed and some reads without theirs, and under a head that
    /// is wrong.
    fn play(&mut self) -> Same {
        let loose = self.random.loose_recording();
        let recording = self.recording()?.unwrap_or_else(|| loose.clone());
        let mut damaged = self.random.mostly(2, recording.clone(), loose.clone());
        for _ in 0..1 + self.random.below(2) {
            self.random.damage(&mut damaged);
        }
        let mixed = self.random.mostly(2, recording.clone(), loose.clone());
        let mixed = self.random.without_values(&mixed);
        let mut bent = self.random.mostly(3, recording.clone(), mixed.clone());
        self.random.bend_value(&mut bent);
        let headed = self.random.mostly(2, recording.clone(), loose.clone());
        let headed = self.random.odd_head(&headed);
        let all = [recording, loose, damaged, mixed, bent, headed];
        for bytes in &all {
            self.read(bytes)?;
        }
        let (first, second) = (&all[self.random.below(6)], &all[self.random.below(6)]);
        self.compare(first, second)?;
        let twin = self.random.twin(first);
        self.compare(first, &twin)?;
        self.compare(&twin, first)?;
        self.playables(&all)?;
        self.openings(&all[0])
    }
}

/// Whether a recording can be played to the end.
impl Script {
    /// Into an output that is just long enough, one byte short, empty, longer, and any.
    fn playable(&mut self, bytes: &[u8]) -> Same {
        let steps = accesses_in(bytes);
        let more = steps + 1 + self.random.below(20);
        let any = self.random.below(2 * steps + 20);
        for room in [steps, steps.saturating_sub(1), 0, more, any] {
            let mut out = self.random.bytes(room);
            self.both.playable(bytes, &mut out)?;
        }
        Ok(())
    }

    /// These, and others that are made to be playable or to stick; all with changed orderings too, and one damaged.
    fn playables(&mut self, all: &[Vec<u8>]) -> Same {
        let made = [(); 4].map(|()| self.random.planned_recording());
        for bytes in all.iter().chain(&made) {
            self.playable(bytes)?;
            let mut bent = bytes.clone();
            self.random.bend_orderings(&mut bent);
            self.playable(&bent)?;
        }
        let [mut damaged, ..] = made;
        self.random.damage(&mut damaged);
        self.playable(&damaged)
    }
}

/// Replay openings alone.
impl Script {
    /// This recording and a planned one, which often has many orderings or an empty body; each as it is, with a section record
    /// changed, and damaged; into a memory that is right and into one of any length.
    fn openings(&mut self, recording: &[u8]) -> Same {
        let planned = self.random.planned_recording();
        for whole in [recording, &planned] {
            let (mut bent, mut damaged) = (whole.to_vec(), whole.to_vec());
            self.random.bend_section(&mut bent);
            self.random.damage(&mut damaged);
            for bytes in [whole, &bent, &damaged] {
                for length in [cells_in(bytes), self.random.below(300)] {
                    let mut memory = self.random.words(length);
                    self.both.replay_open(bytes, &mut memory)?;
                }
            }
        }
        Ok(())
    }
}

/// Scripts of the seeds from `seed` on; says how many calls were compared and what differs first, and if asked how often each case of
/// `playable`, of openings, of values and of heads was reached. False where any differ.
pub fn run(seed: u64, count: u64, cases: bool) -> bool {
    let mut both = Both::default();
    let mut differ = 0;
    for seed in seed..seed + count {
        let random = Random(seed);
        let mut script = Script { random, both };
        let played = script.play();
        both = script.both;
        if let Err(what) = played {
            if differ == 0 {
                println!("seed {seed}: {what}");
            }
            differ += 1;
        }
    }
    if cases {
        both.cases.print();
        both.openings.print();
        both.values.print();
        both.heads.print();
    }
    println!("{count} scripts, {} answers, {differ} differ", both.answers);
    differ == 0
}
