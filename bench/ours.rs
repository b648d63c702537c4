//! The proved library as it is linked in: the functions of `crates/linked` and `crates/timed`, and a state or a run as the arrays that they take.

use crate::inputs::Script;
use crate::peer::{recorder, replayer};

/// T, N, the number of fields, Last's task and number, Done and Took of each task, each cell's case and task
/// (`crates/arrays/specs/Halves.antt`).
type Halves = [u16; 4133];
/// G, Seen of each task, each cell's share number.
type Words = [u32; 2065];
/// T, N, the number of fields, then place, end, done and count of each task.
pub type Places = [usize; 67];
/// The fields of an answer in their order; what is left is 0.
pub type Answer = [usize; 7];

/// Where in the halves the cases and the tasks of the cells start, and in the words their share numbers.
const CASES: usize = 37;
const HOLDERS: usize = 2085;
const SHARES: usize = 17;

pub struct State {
    pub halves: Halves,
    pub words: Words,
}

// A slice goes over as its pointer and its length.
#[rustfmt::skip]
extern "C" {
    fn wk_open(tasks: usize, objects: usize, owners: *const u8, owners_len: usize, starts: *const u32, starts_len: usize,
        memory: *mut u32, memory_len: usize, out: *mut u8, out_len: usize, halves: &mut Halves, words: &mut Words, answer: &mut Answer);
    fn wk_open_fields(tasks: usize, objects: usize, fields: usize, owners: *const u8, owners_len: usize, starts: *const u32, starts_len: usize,
        memory: *mut u32, memory_len: usize, out: *mut u8, out_len: usize, halves: &mut Halves, words: &mut Words, answer: &mut Answer);
    fn wk_access(halves: &mut Halves, words: &mut Words, task: usize, object: usize, field: usize, sort: u32, value: u32,
        memory: *mut u32, memory_len: usize, out: *mut u8, out_len: usize, answer: &mut Answer);
    fn wk_section(halves: &Halves, words: &Words, task: usize, log: *const u8, log_len: usize,
        out: *mut u8, out_len: usize, answer: &mut Answer);
    fn wk_check(bytes: *const u8, bytes_len: usize, answer: &mut Answer);
    fn wk_body(bytes: *const u8, bytes_len: usize, task: usize, out: *mut u8, out_len: usize, answer: &mut Answer);
    fn wk_body_check(bytes: *const u8, bytes_len: usize, task: usize, answer: &mut Answer);
    fn wk_replay_open(bytes: *const u8, bytes_len: usize, memory: *mut u32, memory_len: usize, places: &mut Places, answer: &mut Answer);
    fn wk_ready(places: &Places, bytes: *const u8, bytes_len: usize, answer: &mut Answer);
    fn wk_finished(places: &Places, bytes: *const u8, bytes_len: usize, answer: &mut Answer);
    fn wk_schedule(
        places: &Places,
        bytes: *const u8,
        bytes_len: usize,
        out: *mut u8,
        out_len: usize,
    ) -> usize;
    fn wk_step(places: &mut Places, bytes: *const u8, bytes_len: usize, memory: *mut u32, memory_len: usize, task: usize, answer: &mut Answer);
    fn wk_same_outcome(first: *const u8, first_len: usize, second: *const u8, second_len: usize,
        first_memory: *mut u32, first_memory_len: usize, second_memory: *mut u32, second_memory_len: usize, answer: &mut Answer);
    fn wk_playable(bytes: *const u8, bytes_len: usize, out: *mut u8, out_len: usize, answer: &mut Answer);
    fn wk_script(tasks: usize, objects: usize, fields: usize, owners: *const u8, owners_len: usize, starts: *const u32, starts_len: usize,
        script: *const u32, script_len: usize, memory: *mut u32, memory_len: usize, out: *mut u8, out_len: usize) -> u64;
    fn wk_pack(halves: &Halves, words: &Words, logs: *const u8, logs_len: usize, ends: *const usize, ends_len: usize,
        out: *mut u8, out_len: usize, answer: &mut Answer);
    fn wk_replay_to_end(bytes: *const u8, bytes_len: usize, memory: *mut u32, memory_len: usize, answer: &mut Answer);
    fn wk_replay(bytes: *const u8, bytes_len: usize, memory: *mut u32, memory_len: usize) -> u64;
}

impl State {
    fn blank() -> State {
        State {
            halves: [0; 4133],
            words: [0; 2065],
        }
    }

    pub fn of(state: &recorder::State) -> State {
        let mut made = State::blank();
        let (halves, words) = (&mut made.halves, &mut made.words);
        halves[0] = state.tasks as u16;
        halves[1] = state.objects as u16;
        halves[2] = state.fields as u16;
        halves[3] = state.last.task as u16;
        halves[4] = state.last.number as u16;
        words[0] = state.share;
        for t in 0..16 {
            halves[5 + t] = state.done[t] as u16;
            halves[21 + t] = state.took[t] as u16;
            words[1 + t] = state.seen[t];
        }
        for (i, record) in state.cells.iter().enumerate() {
            let (case, task, share) = match record.hold {
                recorder::Hold::WriteExclusive(task) => (0, task, 0),
                recorder::Hold::ReadExclusive(task) => (1, task, 0),
                recorder::Hold::Shared(share) => (2, 0, share),
            };
            halves[CASES + i] = case;
            halves[HOLDERS + i] = task as u16;
            words[SHARES + i] = share;
        }
        made
    }
}

pub fn places_of(run: &replayer::Run) -> Places {
    let mut places = [0; 67];
    places[0] = run.tasks;
    places[1] = run.objects;
    places[2] = run.fields;
    for t in 0..16 {
        places[3 + 4 * t] = run.place[t];
        places[4 + 4 * t] = run.end[t];
        places[5 + 4 * t] = run.done[t] as usize;
        places[6 + 4 * t] = run.count[t] as usize;
    }
    places
}

pub fn open(
    tasks: usize,
    objects: usize,
    owners: &[u8],
    starts: &[u32],
    memory: &mut [u32],
    out: &mut [u8],
) -> (Answer, State) {
    let (mut answer, mut state) = ([0; 7], State::blank());
    unsafe {
        wk_open(
            tasks,
            objects,
            owners.as_ptr(),
            owners.len(),
            starts.as_ptr(),
            starts.len(),
            memory.as_mut_ptr(),
            memory.len(),
            out.as_mut_ptr(),
            out.len(),
            &mut state.halves,
            &mut state.words,
            &mut answer,
        )
    }
    (answer, state)
}

pub fn open_fields(
    tasks: usize,
    objects: usize,
    fields: usize,
    owners: &[u8],
    starts: &[u32],
    memory: &mut [u32],
    out: &mut [u8],
) -> (Answer, State) {
    let (mut answer, mut state) = ([0; 7], State::blank());
    unsafe {
        wk_open_fields(
            tasks,
            objects,
            fields,
            owners.as_ptr(),
            owners.len(),
            starts.as_ptr(),
            starts.len(),
            memory.as_mut_ptr(),
            memory.len(),
            out.as_mut_ptr(),
            out.len(),
            &mut state.halves,
            &mut state.words,
            &mut answer,
        )
    }
    (answer, state)
}

pub fn access(
    state: &mut State,
    [task, object, field]: [usize; 3],
    [sort, value]: [u32; 2],
    memory: &mut [u32],
    out: &mut [u8],
) -> Answer {
    let mut answer = [0; 7];
    unsafe {
        wk_access(
            &mut state.halves,
            &mut state.words,
            task,
            object,
            field,
            sort,
            value,
            memory.as_mut_ptr(),
            memory.len(),
            out.as_mut_ptr(),
            out.len(),
            &mut answer,
        )
    }
    answer
}

pub fn section(state: &State, task: usize, log: &[u8], out: &mut [u8]) -> Answer {
    let mut answer = [0; 7];
    unsafe {
        wk_section(
            &state.halves,
            &state.words,
            task,
            log.as_ptr(),
            log.len(),
            out.as_mut_ptr(),
            out.len(),
            &mut answer,
        )
    }
    answer
}

pub fn check(bytes: &[u8]) -> Answer {
    let mut answer = [0; 7];
    unsafe { wk_check(bytes.as_ptr(), bytes.len(), &mut answer) }
    answer
}

/// Number, offset and bytes written; the body itself goes to `out`.
pub fn body(bytes: &[u8], task: usize, out: &mut [u8]) -> Answer {
    let mut answer = [0; 7];
    unsafe {
        wk_body(
            bytes.as_ptr(),
            bytes.len(),
            task,
            out.as_mut_ptr(),
            out.len(),
            &mut answer,
        )
    }
    answer
}

pub fn body_check(bytes: &[u8], task: usize) -> Answer {
    let mut answer = [0; 7];
    unsafe { wk_body_check(bytes.as_ptr(), bytes.len(), task, &mut answer) }
    answer
}

/// Number, offset and how many records there are, and the run: a refusal too must write all of these, so none is 0 before.
pub fn replay_open(bytes: &[u8], memory: &mut [u32]) -> (Answer, Places) {
    let unset = usize::MAX;
    let (mut answer, mut places) = ([unset, unset, unset, 0, 0, 0, 0], [unset; 67]);
    unsafe {
        wk_replay_open(
            bytes.as_ptr(),
            bytes.len(),
            memory.as_mut_ptr(),
            memory.len(),
            &mut places,
            &mut answer,
        )
    }
    (answer, places)
}

/// Number, word, how many tasks the word names and the lowest of them.
pub fn ready(places: &Places, bytes: &[u8]) -> Answer {
    let mut answer = [0; 7];
    unsafe { wk_ready(places, bytes.as_ptr(), bytes.len(), &mut answer) }
    answer
}

/// Number, and whether no task has accesses left.
pub fn finished(places: &Places, bytes: &[u8]) -> Answer {
    let mut answer = [0; 7];
    unsafe { wk_finished(places, bytes.as_ptr(), bytes.len(), &mut answer) }
    answer
}

/// The tasks in the order in which the lowest ready one is stepped, as many as there is room for.
pub fn schedule(places: &Places, bytes: &[u8], out: &mut [u8]) -> usize {
    unsafe {
        wk_schedule(
            places,
            bytes.as_ptr(),
            bytes.len(),
            out.as_mut_ptr(),
            out.len(),
        )
    }
}

pub fn step(places: &mut Places, bytes: &[u8], memory: &mut [u32], task: usize) -> Answer {
    let mut answer = [0; 7];
    unsafe {
        wk_step(
            places,
            bytes.as_ptr(),
            bytes.len(),
            memory.as_mut_ptr(),
            memory.len(),
            task,
            &mut answer,
        )
    }
    answer
}

pub fn same_outcome(
    first: &[u8],
    second: &[u8],
    first_memory: &mut [u32],
    second_memory: &mut [u32],
) -> Answer {
    let mut answer = [0; 7];
    unsafe {
        wk_same_outcome(
            first.as_ptr(),
            first.len(),
            second.as_ptr(),
            second.len(),
            first_memory.as_mut_ptr(),
            first_memory.len(),
            second_memory.as_mut_ptr(),
            second_memory.len(),
            &mut answer,
        )
    }
    answer
}

/// Number, offset, task and steps; the order goes to `out`.
pub fn playable(bytes: &[u8], out: &mut [u8]) -> Answer {
    let mut answer = [0; 7];
    unsafe {
        wk_playable(
            bytes.as_ptr(),
            bytes.len(),
            out.as_mut_ptr(),
            out.len(),
            &mut answer,
        )
    }
    answer
}

/// An opening and accesses: a digest of what they answered.
pub fn script(script: &Script, memory: &mut [u32], out: &mut [u8]) -> u64 {
    unsafe {
        wk_script(
            script.tasks,
            script.owners.len(),
            script.fields,
            script.owners.as_ptr(),
            script.owners.len(),
            script.starts.as_ptr(),
            script.starts.len(),
            script.accesses.as_ptr(),
            script.accesses.len(),
            memory.as_mut_ptr(),
            memory.len(),
            out.as_mut_ptr(),
            out.len(),
        )
    }
}

/// All sections, one after the other: number, task, offset and bytes written. Task t's log ends in `logs` at `ends[t]`.
pub fn pack(state: &State, logs: &[u8], ends: &[usize], out: &mut [u8]) -> Answer {
    let mut answer = [0; 7];
    unsafe {
        wk_pack(
            &state.halves,
            &state.words,
            logs.as_ptr(),
            logs.len(),
            ends.as_ptr(),
            ends.len(),
            out.as_mut_ptr(),
            out.len(),
            &mut answer,
        )
    }
    answer
}

/// Number, offset, steps and whether it finished.
pub fn replay_to_end(bytes: &[u8], memory: &mut [u32]) -> Answer {
    let mut answer = [0; 7];
    unsafe {
        wk_replay_to_end(
            bytes.as_ptr(),
            bytes.len(),
            memory.as_mut_ptr(),
            memory.len(),
            &mut answer,
        );
    }
    answer
}

/// An opening and steps of the lowest ready task until none is ready: a digest of them, or the number of a refused opening.
pub fn replay(bytes: &[u8], memory: &mut [u32]) -> u64 {
    unsafe {
        wk_replay(
            bytes.as_ptr(),
            bytes.len(),
            memory.as_mut_ptr(),
            memory.len(),
        )
    }
}
