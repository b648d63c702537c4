//! Recordings with what the programs have to write for them, by `peer.rs`, for the built programs: NAME.rec, NAME.out by the replay
//! program, NAME.show by the show program, and NAME.one by it for the task that NAME.task names.

use crate::inputs::half_at;
use crate::peer::{replay_text, show_text};
use crate::random::Random;
use std::path::Path;

/// A recording whose orderings, values or head may be wrong, now and then damaged, rarely too long.
fn recording(random: &mut Random) -> Vec<u8> {
    let mut bytes = match random.below(3) {
        0 => random.planned_recording(),
        _ => random.loose_recording(),
    };
    if random.once_in(3) {
        bytes = random.without_values(&bytes);
    }
    if random.once_in(3) {
        random.bend_value(&mut bytes);
    }
    if random.once_in(8) {
        bytes = random.odd_head(&bytes);
    }
    if random.once_in(3) {
        random.damage(&mut bytes);
    }
    if random.once_in(200) {
        let length = 65_530 + random.below(10);
        bytes.resize(length, 0);
    }
    bytes
}

/// The recordings of the seeds from `seed` on.
pub fn write(folder: &Path, seed: u64, count: u64) -> std::io::Result<()> {
    std::fs::create_dir_all(folder)?;
    for seed in seed..seed + count {
        let mut random = Random(seed);
        let bytes = recording(&mut random);
        let tasks = if bytes.len() < 6 { 1 } else { half_at(&bytes, 4) };
        let task = random.below(tasks.min(16) + 2);
        let parts = [
            ("out", replay_text(&bytes)),
            ("show", show_text(&bytes, None)),
            ("one", show_text(&bytes, Some(task))),
            ("task", task.to_string().into_bytes()),
            ("rec", bytes),
        ];
        for (kind, text) in parts {
            std::fs::write(folder.join(format!("{seed}.{kind}")), text)?;
        }
    }
    Ok(())
}
