//! livetest [CYCLES [CALLS [SEED]]]: runs all three tests and says in a line each what they went through.

use livetest::{arbitrary, batches, compare};

fn main() {
    let words: Vec<u64> = std::env::args()
        .skip(1)
        .map(|word| word.parse().expect("a number"))
        .collect();
    let cycles = words.first().copied().unwrap_or(10_000_000);
    let calls = words.get(1).copied().unwrap_or(1_000_000);
    let seed = words.get(2).copied().unwrap_or(6846);

    let live = compare::run(seed, cycles);
    println!(
        "live: {} cycles in {} calls on {} boards as the second emulator; numbers 0 to 9 came {:?} times",
        live.cycles, live.calls, live.boards, live.numbers
    );
    // A small run need not meet every number.
    if cycles >= 1_000_000 {
        assert!(
            live.numbers.iter().all(|&times| times > 0),
            "a number never came"
        );
    }

    let tally = arbitrary::run(seed, calls);
    println!(
        "arbitrary: {} calls twice, numbers 0 to 9 came {:?} times; {} as the second emulator, {} not compared: they went on from a record that no cycle leaves",
        tally.calls, tally.numbers, tally.compared, tally.skipped
    );
    if calls >= 1_000_000 {
        tally.check();
    }

    let done = batches::run(seed, cycles / 5);
    println!("batches: {done} cycles as single cycles");
}
