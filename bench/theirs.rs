//! The other side of the calls that do many at once: what `crates/timed/src/lib.rt` and `crates/linked/src/pack.rt` do, by `peer.rs`.

use crate::inputs::{half_at, word_at, Script};
use crate::peer::{number, recorder, replayer};

// The digest as `crates/timed/specs/Digest.antt` has it.
fn mixed(digest: u64, x: u64) -> u64 {
    31 * (digest % (1 << 58)) + x
}

fn access_word(a: &recorder::Accessed) -> u64 {
    let above = u64::from(a.row)
        + 16 * (a.class as u64)
        + 8192 * u64::from(a.number % 32)
        + 262_144 * (a.written as u64 % 256);
    u64::from(a.value) + (above << 32)
}

fn step_word(task: usize, s: &replayer::Step) -> u64 {
    let above = (task as u64 % 16)
        + 16 * u64::from(s.kind % 16)
        + 256 * (s.object as u64 % 256)
        + 65_536 * (s.field as u64 % 8)
        + 524_288 * (u64::from(s.access) % 128);
    u64::from(s.value) + (above << 32)
}

/// With `CHECK` each access checks the whole state first, as document 01 asks.
#[inline(never)]
pub fn script<const CHECK: bool>(script: &Script, memory: &mut [u32], out: &mut [u8]) -> u64 {
    let (owners, starts) = (&script.owners, &script.starts);
    let (tasks, objects) = (script.tasks, owners.len());
    let opened = match script.fields {
        0 => recorder::open(tasks, objects, owners, starts, memory, out),
        fields => recorder::open_fields(tasks, objects, fields, owners, starts, memory, out),
    };
    let mut state = opened.state;
    script.accesses.chunks_exact(5).fold(0, |digest, x| {
        let [task, object, field] = [x[0], x[1], x[2]].map(|n| n as usize);
        let a = recorder::access::<CHECK>(&mut state, task, object, field, x[3], x[4], memory, out);
        mixed(digest, access_word(&a))
    })
}

/// The bytes written, section by section: for ends that are right, and room.
#[inline(never)]
pub fn sections(state: &recorder::State, logs: &[u8], ends: &[usize], out: &mut [u8]) -> usize {
    let (mut from, mut at) = (0, 0);
    for (task, &to) in ends.iter().enumerate() {
        at += recorder::section(state, task, &logs[from..to], &mut out[at..]).written;
        from = to;
    }
    at
}

/// Number, task, offset and bytes written: 17, 21, the logs, 9, and nothing is written before all are checked.
pub fn pack(state: &recorder::State, logs: &[u8], ends: &[usize], out: &mut [u8]) -> [usize; 4] {
    if !state.is_sound() {
        return [number::UNSOUND as usize, 0, 0, 0];
    }
    let places: Vec<usize> = std::iter::once(0).chain(ends.iter().copied()).collect();
    let risen = places.windows(2).all(|two| two[0] <= two[1]);
    if ends.len() != state.tasks || !risen || places[ends.len()] > logs.len() {
        return [21, 0, 0, 0];
    }
    let parts = || places.windows(2).map(|two| &logs[two[0]..two[1]]).enumerate();
    for (task, log) in parts() {
        // Without any output a log that is right gives 9.
        let s = recorder::section(state, task, log, &mut []);
        if s.number != number::OUTPUT_TOO_SHORT {
            return [s.number as usize, task, s.offset, 0];
        }
    }
    let mut room = out.len();
    for (task, log) in parts() {
        match room.checked_sub(12 + log.len()) {
            Some(left) => room = left,
            None => return [number::OUTPUT_TOO_SHORT as usize, task, 0, 0],
        }
    }
    [0, 0, 0, sections(state, logs, ends, out)]
}

/// Not inlined, so that the whole run is made even where only the count is looked at.
#[inline(never)]
pub fn replay_open(bytes: &[u8], memory: &mut [u32]) -> replayer::Opened {
    replayer::open(bytes, memory)
}

/// Number, offset, steps, whether it finished, and what stopped it with its offset. A scheduler of its own finds the lowest ready task.
#[inline(never)]
pub fn replay_to_end(bytes: &[u8], memory: &mut [u32]) -> [usize; 6] {
    let mut opened = replayer::open(bytes, memory);
    if opened.number != 0 {
        return [opened.number as usize, opened.offset, 0, 0, 0, 0];
    }
    let played = replayer::replay_to_end(&mut opened.run, bytes, memory, |_, _| {});
    let (finished, stopped) = (played.finished as usize, played.stopped as usize);
    let number = played.number as usize;
    [number, 0, played.steps, finished, stopped, played.stopped_at]
}

/// Number, offset, task and steps.
#[inline(never)]
pub fn playable(bytes: &[u8], out: &mut [u8]) -> [usize; 4] {
    let found = replayer::playable(bytes, out);
    [found.number as usize, found.offset, found.task, found.steps]
}

/// The ready word before each step, as in the library.
#[inline(never)]
pub fn replay_by_word(bytes: &[u8], memory: &mut [u32]) -> u64 {
    let mut opened = replayer::open(bytes, memory);
    let mut digest = opened.number.into();
    loop {
        let task = replayer::lowest_ready(replayer::ready(&opened.run, bytes).word) as usize;
        let s = replayer::step(&mut opened.run, bytes, memory, task);
        if s.number != 0 {
            return digest;
        }
        digest = mixed(digest, step_word(task, &s));
    }
}

/// 17 and no for an unsound run, else whether no task has accesses left.
pub fn finished(run: &replayer::Run, bytes: &[u8]) -> [usize; 2] {
    let number = replayer::ready(run, bytes).number as usize;
    let done = number == 0 && (0..run.tasks).all(|task| run.count[task] <= run.done[task]);
    [number, done.into()]
}

/// The cell and the value of a read that has its value.
fn read_at(bytes: &[u8], at: usize, fields: usize) -> (usize, u32) {
    let object = half_at(bytes, at + 4);
    match fields {
        0 => (object, word_at(bytes, at + 6)),
        _ => (object * fields + half_at(bytes, at + 6), word_at(bytes, at + 8)),
    }
}

/// The lowest ready task, stepped again and again, as often as there is room. The order does not look at values: a read that is not done
/// is tried again with its record's value in the memory.
pub fn schedule(run: &replayer::Run, bytes: &[u8], room: usize) -> Vec<u8> {
    let (mut run, mut tasks) = (run.clone(), Vec::new());
    let mut memory = vec![0; run.objects.min(256) * run.fields.clamp(1, 8)];
    while tasks.len() < room {
        let word = replayer::ready(&run, bytes).word;
        if word == 0 {
            break;
        }
        let task = replayer::lowest_ready(word) as usize;
        let mut s = replayer::step(&mut run, bytes, &mut memory, task);
        if s.number == number::READ_DIFFERS {
            let (cell, value) = read_at(bytes, s.offset, run.fields);
            memory[cell] = value;
            s = replayer::step(&mut run, bytes, &mut memory, task);
        }
        assert_eq!(s.number, 0, "the step of a ready task");
        tasks.push(task as u8);
    }
    tasks
}
