//! The proved library beside `peer.rs`, an implementation of the same calls from the papers. Both do the same work on the same bytes in
//! this process: first a table of times, then random calls whose answers are compared.
//!
//! Arguments: the first script's seed and the number of scripts; then `cases`, to see how often each case of `playable`, of openings, of
//! values and of heads was reached, and `untimed`, to leave out the table; or `texts FOLDER`, which only writes that many recordings with
//! what the programs must write for them.

mod both;
mod cases;
mod differ;
mod heads;
mod inputs;
mod orderings;
mod ours;
// The bench calls a part of it.
#[allow(dead_code)]
mod peer;
mod random;
mod table;
mod texts;
mod theirs;
mod values;

fn main() {
    let numbers: Vec<u64> = std::env::args()
        .skip(1)
        .map_while(|word| word.parse().ok())
        .collect();
    let seed = numbers.first().copied().unwrap_or(1);
    let count = numbers.get(1).copied().unwrap_or(12_000);
    let words: Vec<String> = std::env::args().skip(3).collect();
    if let [word, folder] = &words[..] {
        if word == "texts" {
            texts::write(folder.as_ref(), seed, count).expect("the folder can be written");
            return;
        }
    }
    let [cases, untimed] = ["cases", "untimed"].map(|known| words.iter().any(|word| word == known));
    if !untimed {
        table::print();
    }
    if !differ::run(seed, count, cases) {
        std::process::exit(1);
    }
}
