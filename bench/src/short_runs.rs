//! Runs of few steps, in which judging and decoding ahead count most, against the first engine.

use crate::measure::{in_turn, Job, Times, FIRST_ENGINE, PROVED};
use spokeshaver_reference::bench_kernels::mixed_loop;

const INSTRUCTIONS: [usize; 4] = [1, 16, 200, 1_024];
const BUDGETS: [u64; 3] = [0, 10, 100];

/// How many calls are timed as one, a call being too short for the clock.
const CALLS: usize = 200;

/// Prints a line for each length and budget and tells whether both sides agree.
pub fn table(runs: usize) -> bool {
    println!();
    println!("Short runs, in µs a run; each run timed is the mean of {CALLS}");
    println!("instructions  budget   proved    first  ratio of medians  ratio of least");
    let mut agree = true;
    for instructions in INSTRUCTIONS {
        for budget in BUDGETS {
            let job = Job { kernel: mixed_loop(instructions), budget, calls: CALLS };
            print!("{instructions:12} {budget:7} ");
            match in_turn(&job, [PROVED, FIRST_ENGINE], runs) {
                Some(times) => report(&times),
                None => {
                    println!("the sides differ");
                    agree = false;
                }
            }
        }
    }
    agree
}

/// The rest of a line.
fn report([proved, first]: &[Times; 2]) {
    let medians = proved.median() / first.median();
    let least = proved.least() / first.least();
    let (proved, first) = (proved.median() / 1_000.0, first.median() / 1_000.0);
    println!("{proved:8.2} {first:8.2} {medians:17.2} {least:15.2}");
}
