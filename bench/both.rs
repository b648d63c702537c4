//! One call each on both sides, with the same arguments and the same lent bytes: every field of the answer, and every buffer, state
//! and run after the call, are compared. What was lent is left as the call leaves it.

use crate::cases::{Cases, Openings};
use crate::heads::Heads;
use crate::ours::{self, Answer, State};
use crate::peer::{number, reader, recorder, replayer};
use crate::theirs;
use crate::values::Values;
use std::fmt::Debug;

/// The error says what differs.
pub type Same<T = ()> = Result<T, String>;

fn same<T: PartialEq + Debug>(what: &str, ours: T, theirs: T) -> Same {
    if ours == theirs {
        return Ok(());
    }
    Err(format!("{what}: ours {ours:?}, theirs {theirs:?}"))
}

/// Of two lists only the first place where they differ is reported.
fn same_list<T: PartialEq + Debug>(what: &str, ours: &[T], theirs: &[T]) -> Same {
    same(&format!("{what}, length"), ours.len(), theirs.len())?;
    match ours.iter().zip(theirs).position(|(a, b)| a != b) {
        Some(i) => same(&format!("{what}, at {i}"), &ours[i], &theirs[i]),
        None => Ok(()),
    }
}

fn same_state(what: &str, ours: &State, theirs: &recorder::State) -> Same {
    let theirs = State::of(theirs);
    same_list(&format!("{what}, halves"), &ours.halves, &theirs.halves)?;
    same_list(&format!("{what}, words"), &ours.words, &theirs.words)
}

/// An answer's fields, in the order in which the library has them.
fn same_answer(what: &str, ours: Answer, theirs: &[usize]) -> Same {
    let mut fields = [0; 7];
    fields[..theirs.len()].copy_from_slice(theirs);
    same(what, ours, fields)
}

/// Counts the calls, and the cases of `playable`, of openings, of values and of heads.
#[derive(Default)]
pub struct Both {
    pub answers: u64,
    pub cases: Cases,
    pub openings: Openings,
    pub values: Values,
    pub heads: Heads,
}

impl Both {
    /// The state where it is accepted; the head is then at the start of `out`. Without fields it is the opening of head 1.
    pub fn open(
        &mut self,
        [tasks, objects]: [usize; 2],
        fields: Option<usize>,
        owners: &[u8],
        starts: &[u32],
        memory: &mut [u32],
        out: &mut [u8],
    ) -> Same<Option<recorder::State>> {
        self.answers += 1;
        let (mut memory_2, mut out_2) = (memory.to_vec(), out.to_vec());
        let (ours, state) = match fields {
            None => ours::open(tasks, objects, owners, starts, memory, out),
            Some(f) => ours::open_fields(tasks, objects, f, owners, starts, memory, out),
        };
        let theirs = match fields {
            None => recorder::open(tasks, objects, owners, starts, &mut memory_2, &mut out_2),
            Some(f) => {
                recorder::open_fields(tasks, objects, f, owners, starts, &mut memory_2, &mut out_2)
            }
        };
        same_answer("open", ours, &[theirs.number as usize, theirs.written])?;
        self.heads.opened(fields, theirs.number);
        same_state("open's state", &state, &theirs.state)?;
        same_list("open's memory", memory, &memory_2)?;
        same_list("open's output", out, &out_2)?;
        Ok((theirs.number == 0).then_some(theirs.state))
    }

    /// How many bytes were written, 0 where it is refused.
    pub fn access(
        &mut self,
        state: &mut recorder::State,
        [task, object, field]: [usize; 3],
        [sort, value]: [u32; 2],
        memory: &mut [u32],
        out: &mut [u8],
    ) -> Same<usize> {
        self.answers += 1;
        let (mut memory_2, mut out_2) = (memory.to_vec(), out.to_vec());
        let mut linked = State::of(state);
        let place = [task, object, field];
        let ours = ours::access(&mut linked, place, [sort, value], memory, out);
        let before = (state.fields, memory_2.len());
        let theirs = recorder::access::<true>(
            state,
            task,
            object,
            field,
            sort,
            value,
            &mut memory_2,
            &mut out_2,
        );
        self.heads.accessed(before, state.objects, &theirs);
        let fields = [
            theirs.number as usize,
            theirs.value as usize,
            theirs.row.into(),
            theirs.class as usize,
            theirs.written,
        ];
        same_answer("access", ours, &fields)?;
        same_state("access's state", &linked, state)?;
        same_list("access's memory", memory, &memory_2)?;
        same_list("access's output", out, &out_2)?;
        Ok(theirs.written)
    }

    /// How many bytes were written, 0 where it is refused.
    pub fn section(
        &mut self,
        state: &recorder::State,
        task: usize,
        log: &[u8],
        out: &mut [u8],
    ) -> Same<usize> {
        self.answers += 1;
        let mut out_2 = out.to_vec();
        let ours = ours::section(&State::of(state), task, log, out);
        let theirs = recorder::section(state, task, log, &mut out_2);
        let fields = [theirs.number as usize, theirs.offset, theirs.written];
        same_answer("section", ours, &fields)?;
        self.heads.sectioned(state.fields, theirs.number);
        same_list("section's output", out, &out_2)?;
        Ok(theirs.written)
    }

    pub fn pack(
        &mut self,
        state: &recorder::State,
        logs: &[u8],
        ends: &[usize],
        out: &mut [u8],
    ) -> Same {
        self.answers += 1;
        let mut out_2 = out.to_vec();
        let ours = ours::pack(&State::of(state), logs, ends, out);
        let theirs = theirs::pack(state, logs, ends, &mut out_2);
        same_answer("pack", ours, &theirs)?;
        same_list("pack's output", out, &out_2)
    }

    pub fn check(&mut self, bytes: &[u8]) -> Same {
        self.answers += 1;
        let theirs = reader::check(bytes);
        let fields = [theirs.number as usize, theirs.offset];
        self.heads.checked(bytes, theirs);
        same_answer("check", ours::check(bytes), &fields)
    }

    /// The body copied out: the bytes first, then 5, then 9.
    pub fn body(&mut self, bytes: &[u8], task: usize, out: &mut [u8]) -> Same {
        self.answers += 1;
        let mut out_2 = out.to_vec();
        let ours = ours::body(bytes, task, out);
        let checked = reader::body_check(bytes, task);
        let part = reader::body(bytes, task);
        let theirs = if checked.number != 0 {
            [checked.number as usize, checked.offset, 0]
        } else if out_2.len() < part.len() {
            [number::OUTPUT_TOO_SHORT as usize, 0, 0]
        } else {
            out_2[..part.len()].copy_from_slice(part);
            [0, 0, part.len()]
        };
        same_answer("body", ours, &theirs)?;
        same_list("body's output", out, &out_2)
    }

    pub fn body_check(&mut self, bytes: &[u8], task: usize) -> Same {
        self.answers += 1;
        let theirs = reader::body_check(bytes, task);
        let fields = [theirs.number as usize, theirs.offset];
        same_answer("body_check", ours::body_check(bytes, task), &fields)
    }

    /// The run where it is accepted.
    pub fn replay_open(&mut self, bytes: &[u8], memory: &mut [u32]) -> Same<Option<replayer::Run>> {
        self.answers += 1;
        let mut memory_2 = memory.to_vec();
        let (ours, places) = ours::replay_open(bytes, memory);
        let theirs = replayer::open(bytes, &mut memory_2);
        let fields = [theirs.number as usize, theirs.offset, theirs.records];
        same_answer("replay opening", ours, &fields)?;
        self.openings.count(&theirs);
        let run = ours::places_of(&theirs.run);
        same_list("replay opening's run", &places, &run)?;
        same_list("replay opening's memory", memory, &memory_2)?;
        Ok((theirs.number == 0).then_some(theirs.run))
    }

    /// The ready word.
    pub fn ready(&mut self, run: &replayer::Run, bytes: &[u8]) -> Same<u16> {
        self.answers += 1;
        let ours = ours::ready(&ours::places_of(run), bytes);
        let theirs = replayer::ready(run, bytes);
        let fields = [
            theirs.number as usize,
            theirs.word.into(),
            replayer::ready_count(theirs.word) as usize,
            replayer::lowest_ready(theirs.word) as usize,
        ];
        same_answer("ready", ours, &fields)?;
        Ok(theirs.word)
    }

    /// Whether a run has finished, and the order in which it would be played, into an output of this length.
    pub fn schedule(&mut self, run: &replayer::Run, bytes: &[u8], mut out: Vec<u8>) -> Same {
        self.answers += 2;
        let places = ours::places_of(run);
        let ours = ours::finished(&places, bytes);
        same_answer("finished", ours, &theirs::finished(run, bytes))?;
        let theirs = theirs::schedule(run, bytes, out.len());
        let mut whole = out.clone();
        whole[..theirs.len()].copy_from_slice(&theirs);
        let steps = ours::schedule(&places, bytes, &mut out);
        same("schedule's steps", steps, theirs.len())?;
        same_list("schedule", &out, &whole)
    }

    /// The step's number.
    pub fn step(
        &mut self,
        run: &mut replayer::Run,
        bytes: &[u8],
        memory: &mut [u32],
        task: usize,
    ) -> Same<u32> {
        self.answers += 1;
        let mut memory_2 = memory.to_vec();
        let mut places = ours::places_of(run);
        let ours = ours::step(&mut places, bytes, memory, task);
        let theirs = replayer::step(run, bytes, &mut memory_2, task);
        let fields = [
            theirs.number as usize,
            theirs.offset,
            theirs.kind as usize,
            theirs.object,
            theirs.field,
            theirs.value as usize,
            theirs.access as usize,
        ];
        same_answer("step", ours, &fields)?;
        self.heads.stepped(run.fields, theirs.number);
        self.values.stepped(bytes, fields);
        same_list("step's run", &places, &ours::places_of(run))?;
        same_list("step's memory", memory, &memory_2)?;
        Ok(theirs.number)
    }

    pub fn same_outcome(
        &mut self,
        [first, second]: [&[u8]; 2],
        [one, two]: [&mut [u32]; 2],
    ) -> Same {
        self.answers += 1;
        let (mut one_2, mut two_2) = (one.to_vec(), two.to_vec());
        let ours = ours::same_outcome(first, second, one, two);
        let theirs = replayer::same_outcome(first, second, &mut one_2, &mut two_2);
        let fields = [theirs.number as usize, theirs.offset, theirs.alike.into()];
        same_answer("same_outcome", ours, &fields)?;
        let stopped = [(first, &one_2), (second, &two_2)].map(|(bytes, memory)| {
            theirs.number == 0 && theirs::replay_to_end(bytes, &mut memory.clone())[4] != 0
        });
        self.values.compared(stopped, theirs.alike);
        self.heads.compared([first, second], theirs.alike);
        same_list("same_outcome's first memory", one, &one_2)?;
        same_list("same_outcome's second memory", two, &two_2)
    }

    pub fn playable(&mut self, bytes: &[u8], out: &mut [u8]) -> Same {
        self.answers += 1;
        let mut out_2 = out.to_vec();
        let ours = ours::playable(bytes, out);
        let theirs = theirs::playable(bytes, &mut out_2);
        same_answer("playable", ours, &theirs)?;
        same_list("playable's output", out, &out_2)?;
        self.cases.count(bytes, out.len(), theirs);
        Ok(())
    }

    /// From the opening to where it ends or sticks, in one call and step by step.
    pub fn replay(&mut self, bytes: &[u8], memory: &mut [u32]) -> Same {
        self.answers += 2;
        let (mut again, mut memory_2, mut again_2) =
            (memory.to_vec(), memory.to_vec(), memory.to_vec());
        let ours = ours::replay_to_end(bytes, memory);
        let theirs = theirs::replay_to_end(bytes, &mut memory_2);
        same_answer("replay_to_end", ours, &theirs)?;
        same_list("replay_to_end's memory", memory, &memory_2)?;
        self.values.ended(bytes, theirs);
        let ours = ours::replay(bytes, &mut again);
        let theirs = theirs::replay_by_word(bytes, &mut again_2);
        same("digest of a replay", ours, theirs)?;
        same_list("replay's memory", &again, &again_2)
    }
}
