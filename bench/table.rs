//! The table of times. Both sides run in turn, and the best of all rounds counts. All buffers are made once and never cleared in
//! between: an opening sets the memory, and what is written over is the same each time.

use crate::both::Both;
use crate::inputs::{accesses_in, head_length, Script};
use crate::orderings::slow;
use crate::peer::{reader, recorder};
use crate::random::Random;
use crate::{ours, theirs};
use std::hint::black_box;
use std::time::Instant;

/// For each row: others may hold the machine for a part of it.
const SECONDS: f64 = 1.5;

/// Room for any access: an ordering for each of 16 tasks, and a write with its field.
const ACCESS_BYTES: usize = 140;

/// A recording, and what its sections are packed from: task t's log ends in `logs` at `ends[t]`.
struct Recording {
    state: recorder::State,
    logs: Vec<u8>,
    ends: Vec<usize>,
    bytes: Vec<u8>,
}

/// As much of a script as goes into `limit` bytes, recorded by both sides.
fn record(script: &Script, limit: usize) -> Recording {
    let same = "both sides answer the same";
    let mut both = Both::default();
    let (tasks, objects) = (script.tasks, script.owners.len());
    let (owners, starts) = (&script.owners, &script.starts);
    let mut memory = starts.clone();
    let mut out = vec![0; limit];
    let fields = (script.fields != 0).then_some(script.fields);
    let opened = both.open([tasks, objects], fields, owners, starts, &mut memory, &mut out);
    let mut state = opened.expect(same).expect("it is accepted");
    let mut bytes = out[..head_length(objects, fields)].to_vec();
    let mut room = limit - bytes.len() - 12 * tasks;
    let mut pieces = vec![Vec::new(); tasks];
    // The longest piece: 15 orderings and a write.
    let longest = 15 * 8 + if fields.is_some() { 12 } else { 10 };
    for x in script.accesses.chunks_exact(5) {
        if room < longest {
            break;
        }
        let [task, object, field] = [x[0], x[1], x[2]].map(|n| n as usize);
        let act = [x[3], x[4]];
        let piece = &mut out[..ACCESS_BYTES];
        let written = both.access(&mut state, [task, object, field], act, &mut memory, piece);
        let written = written.expect(same);
        pieces[task].extend_from_slice(&out[..written]);
        room -= written;
    }
    let mut ends = Vec::new();
    for (task, log) in pieces.iter().enumerate() {
        let written = both.section(&state, task, log, &mut out).expect(same);
        bytes.extend_from_slice(&out[..written]);
        ends.push(ends.last().unwrap_or(&0) + log.len());
    }
    Recording {
        state,
        logs: pieces.concat(),
        ends,
        bytes,
    }
}

/// The best time of each side in seconds; every answer must be the first side's.
fn best<const SIDES: usize>(mut sides: [&mut dyn FnMut() -> u64; SIDES]) -> [f64; SIDES] {
    let mut best = [f64::MAX; SIDES];
    let began = Instant::now();
    let digest = sides[0]();
    let repeats = (0.002 / began.elapsed().as_secs_f64()).clamp(1.0, 1000.0) as usize;
    while began.elapsed().as_secs_f64() < SECONDS {
        for (side, best) in sides.iter_mut().zip(&mut best) {
            let start = Instant::now();
            for _ in 0..repeats {
                assert_eq!(black_box(side()), digest, "the sides answer differently");
            }
            *best = best.min(start.elapsed().as_secs_f64() / repeats as f64);
        }
    }
    best
}

/// A row: the work, ours, theirs and the ratio; then what else there is.
fn row(work: &str, unit: &str, scale: f64, times: &[f64], other: &str) {
    let [ours, theirs] = [times[0] * scale, times[1] * scale];
    println!(
        "{work:<52} {ours:>9.1} {theirs:>9.1} {unit:<3} {:>6.2}{other}",
        ours / theirs
    );
}

/// Accesses that are all accepted. With one object the tasks take it from each other, and seven accesses of eight write orderings
/// (rows 5 to 10); with 140 or 256 cells it is three of eight, with 2,048 one of three. Fields 0 is the opening of head 1.
fn access_row(random: &mut Random, tasks: usize, objects: usize, fields: usize) {
    let count = 4000;
    let script = random.script(tasks, objects, fields, count);
    let mut memory = vec![0; script.starts.len()];
    let head = head_length(objects, (fields != 0).then_some(fields));
    // The head of one object is shorter than an access with its orderings, and a refused access would be timed.
    let mut out = vec![0; head.max(ACCESS_BYTES)];
    let (mut memory_2, mut out_2) = (memory.clone(), out.clone());
    let (mut memory_3, mut out_3) = (memory.clone(), out.clone());
    let times = best([
        &mut || ours::script(black_box(&script), &mut memory, &mut out),
        &mut || theirs::script::<true>(black_box(&script), &mut memory_2, &mut out_2),
        &mut || theirs::script::<false>(black_box(&script), &mut memory_3, &mut out_3),
    ]);
    let work = match fields {
        0 => format!("access, N = {objects}, T = {tasks}"),
        _ => format!("access, N = {objects}, F = {fields}, T = {tasks}"),
    };
    let scale = 1e9 / count as f64;
    // The other way of theirs and the ratio to it.
    let other = format!(
        "   {:>9.1} {:>6.2}  without the whole-state check",
        times[2] * scale,
        times[0] / times[2]
    );
    row(&work, "ns", scale, &times, &other);
}

/// What recordings are made of: as many of the accesses as go into `limit` bytes.
struct Shape {
    tasks: usize,
    objects: usize,
    /// 0 for head 1.
    fields: usize,
    accesses: usize,
    limit: usize,
}

/// The unit for a recording of this size, and how many of them a second has.
fn unit_for(size: usize) -> (&'static str, f64) {
    if size < 2_048 {
        ("ns", 1e9)
    } else {
        ("us", 1e6)
    }
}

/// Many recordings, so that no branch predictor learns them: a call does all of them, and a figure is for one.
fn recording_rows(random: &mut Random, shape: &Shape, count: usize) {
    let (tasks, objects, fields) = (shape.tasks, shape.objects, shape.fields);
    let cells = objects * fields.max(1);
    let recordings: Vec<Recording> = (0..count)
        .map(|_| record(&random.script(tasks, objects, fields, shape.accesses), shape.limit))
        .collect();
    let size = recordings.iter().map(|r| r.bytes.len()).sum::<usize>() / count;
    let states: Vec<ours::State> = recordings.iter().map(|r| ours::State::of(&r.state)).collect();
    let (unit, second) = unit_for(size);
    let scale = second / count as f64;
    let all = black_box(&recordings);

    let mut out = vec![0; shape.limit];
    let mut out_2 = out.clone();
    let times = best([
        &mut || {
            all.iter()
                .zip(&states)
                .map(|(r, state)| ours::pack(state, &r.logs, &r.ends, &mut out)[3] as u64)
                .sum()
        },
        &mut || {
            all.iter()
                .map(|r| theirs::sections(&r.state, &r.logs, &r.ends, &mut out_2) as u64)
                .sum()
        },
    ]);
    assert!(out == out_2);
    let head = match fields {
        0 => String::new(),
        _ => format!(", F = {fields}"),
    };
    row(&format!("{tasks} sections{head}, {size} bytes"), unit, scale, &times, "");

    let whole: Vec<&[u8]> = recordings.iter().map(|r| &r.bytes[..]).collect();
    opening_rows(&head, &whole, cells);
    // Branches learn this one.
    opening_rows(&format!("{head} of one again and again"), &whole[..1], cells);

    let mut memory = vec![0; cells];
    let mut memory_2 = memory.clone();
    let times = best([
        &mut || {
            all.iter()
                .map(|r| ours::replay_to_end(&r.bytes, &mut memory)[2] as u64)
                .sum()
        },
        &mut || {
            all.iter()
                .map(|r| theirs::replay_to_end(&r.bytes, &mut memory_2)[2] as u64)
                .sum()
        },
    ]);
    assert!(memory == memory_2);
    row(&format!("replay to the end{head}, {size} bytes"), unit, scale, &times, "");

    let times = best([
        &mut || {
            all.iter()
                .map(|r| ours::replay(&r.bytes, &mut memory))
                .fold(0, |a, b| a ^ b)
        },
        &mut || {
            all.iter()
                .map(|r| theirs::replay_by_word(&r.bytes, &mut memory_2))
                .fold(0, |a, b| a ^ b)
        },
    ]);
    assert!(memory == memory_2);
    row(&format!("replay by word{head}, {size} bytes"), unit, scale, &times, "");

    playable_row(&format!("playable{head}"), &whole);
}

/// The check and the replay opening; a figure is for one recording. An opening reads every byte once, so the time to copy them stands
/// beside it, with the ratio of ours to that.
fn opening_rows(which: &str, recordings: &[&[u8]], cells: usize) {
    let count = recordings.len();
    let size = recordings.iter().map(|bytes| bytes.len()).sum::<usize>() / count;
    let (unit, second) = unit_for(size);
    let scale = second / count as f64;
    let all = black_box(recordings);
    let times = best([
        &mut || all.iter().map(|bytes| ours::check(bytes)[0] as u64).sum(),
        &mut || all.iter().map(|bytes| u64::from(reader::check(bytes).number)).sum(),
    ]);
    row(&format!("check{which}, {size} bytes"), unit, scale, &times, "");

    let mut memory = vec![0; cells];
    let mut memory_2 = memory.clone();
    let longest = all.iter().map(|bytes| bytes.len()).max();
    let mut copy = vec![0; longest.unwrap_or(0)];
    // Of what an opening answers, the count of records, which nobody can then leave out.
    let mut open = || all.iter().map(|bytes| theirs::replay_open(bytes, &mut memory_2).records as u64).sum();
    let records = open();
    let times = best([
        &mut || all.iter().map(|bytes| ours::replay_open(bytes, &mut memory).0[2] as u64).sum(),
        &mut open,
        &mut || {
            for bytes in all {
                copy[..bytes.len()].copy_from_slice(bytes);
                black_box(&mut copy);
            }
            records
        },
    ]);
    assert!(memory == memory_2);
    let other = format!(
        "   {:>9.2} {:>6.2}  to copy the bytes",
        times[2] * scale,
        times[0] / times[2]
    );
    row(&format!("replay opening{which}, {size} bytes"), unit, scale, &times, &other);
}

/// A figure is for one recording. The time for a byte shows whether it grows with the bytes alone.
fn playable_row(work: &str, recordings: &[&[u8]]) {
    let count = recordings.len();
    let size = recordings.iter().map(|bytes| bytes.len()).sum::<usize>() / count;
    let room = recordings.iter().map(|bytes| accesses_in(bytes)).max();
    let mut out = vec![0; room.unwrap_or(0)];
    let mut out_2 = out.clone();
    let all = black_box(recordings);
    let times = best([
        &mut || {
            all.iter()
                .map(|bytes| ours::playable(bytes, &mut out).iter().sum::<usize>() as u64)
                .sum()
        },
        &mut || {
            all.iter()
                .map(|bytes| theirs::playable(bytes, &mut out_2).iter().sum::<usize>() as u64)
                .sum()
        },
    ]);
    assert!(out == out_2);
    let [ours, theirs] = times.map(|time| time * 1e9 / (count * size) as f64);
    let other = format!("   {ours:>9.2} {theirs:>6.2}  ns for a byte, ours and theirs");
    let work = format!("{work}, {size} bytes");
    let (unit, second) = unit_for(size);
    row(&work, unit, second / count as f64, &times, &other);
}

/// With `small` accesses of each task that has many, which is about 64 KiB, and with as many as a task can make.
fn slow_rows(work: &str, small: usize, recording: impl Fn(usize) -> Vec<u8>) {
    for each in [small, 65_535] {
        let bytes = recording(each);
        opening_rows(&format!(", {work}"), &[&bytes], 1);
        playable_row(&format!("playable, {work}"), &[&bytes]);
    }
}

pub fn print() {
    println!("The best of the rounds of {SECONDS} seconds, both sides in turn; buffers are not cleared in between.");
    println!(
        "{:<52} {:>9} {:>9} {:<3} {:>6}   {:>9} {:>6}",
        "", "ours", "theirs", "", "ratio", "theirs", "ratio"
    );
    let mut random = Random(1);
    for (tasks, objects, fields) in [(9, 1, 0), (9, 140, 0), (16, 256, 0)] {
        access_row(&mut random, tasks, objects, fields);
    }
    for (limit, count) in [(65_535, 16), (4_096, 256)] {
        let shape = Shape { tasks: 9, objects: 140, fields: 0, accesses: limit / 3, limit };
        recording_rows(&mut random, &shape, count);
    }
    // Short bodies: none, one, four and sixteen accesses for each task, on average.
    for each in [0, 1, 4, 16] {
        let shape = Shape { tasks: 16, objects: 16, fields: 0, accesses: 16 * each, limit: 65_535 };
        recording_rows(&mut random, &shape, 256);
    }
    let (objects, limit) = (140, 16 << 20);
    let large = record(&random.script(16, objects, 0, limit / 10), limit);
    opening_rows("", &[&large.bytes], objects);
    slow_rows("1 held", 271, |each| slow::held(1, each));
    slow_rows("14 held", 271, |each| slow::held(14, each));
    slow_rows("15 waiting", 8_100, slow::waiting);
    slow_rows("in turn", 255, slow::in_turn);
    slow_rows("stuck", 255, slow::stuck);
    // Under head 7; after the rows of head 1, so that their scripts stay what they were.
    for (objects, fields) in [(140, 1), (256, 1), (256, 8)] {
        access_row(&mut random, 16, objects, fields);
    }
    for (objects, fields) in [(140, 1), (140, 4)] {
        let limit = 65_535;
        let shape = Shape { tasks: 9, objects, fields, accesses: limit / 3, limit };
        recording_rows(&mut random, &shape, 16);
    }
}
