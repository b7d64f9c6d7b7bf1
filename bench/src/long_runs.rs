//! Runs of 1,000,000 steps, against both engines.

use crate::measure::{
    in_turn, Job, Run, Times, FIRST_ENGINE, FIRST_WITH_FLOATS, PROVED, SECOND_ENGINE,
    SECOND_WITH_FLOATS,
};
use spokeshaver_reference::bench_kernels::{all, floats, BenchKernel};
use spokeshaver_reference::calls::BUDGET_LIMIT;

/// The steps of a run.
const STEPS: u64 = BUDGET_LIMIT;

/// Prints a line for each kernel and tells whether all sides agree.
pub fn table(runs: usize) -> bool {
    println!();
    println!("Runs of {STEPS} steps, in ns a step (or ms a run)");
    println!("                                       ratio to first   ratio to second");
    println!("kernel         proved   first  second  medians   least   medians   least");
    let mut agree = true;
    for kernel in all() {
        agree &= line(kernel.name, kernel, [PROVED, FIRST_ENGINE, SECOND_ENGINE], runs);
    }
    // The reference works floats out in whole numbers: beside it, both engines with the machine's.
    let sides = [PROVED, FIRST_WITH_FLOATS, SECOND_WITH_FLOATS];
    agree & line("by machine's", floats(), sides, runs)
}

/// Prints a kernel's line and tells whether the sides agree.
fn line(name: &str, kernel: BenchKernel, sides: [Run; 3], runs: usize) -> bool {
    let job = Job { kernel, budget: STEPS, calls: 1 };
    let times = in_turn(&job, sides, runs);
    match &times {
        Some(times) => report(name, times),
        None => println!("{name:13} the sides differ"),
    }
    times.is_some()
}

/// One line of the table.
fn report(name: &str, [proved, first, second]: &[Times; 3]) {
    let step = |times: &Times| times.median() / STEPS as f64;
    let medians = |side: &Times| proved.median() / side.median();
    let least = |side: &Times| proved.least() / side.least();
    println!(
        "{name:13} {:7.1} {:7.1} {:7.1} {:8.2} {:7.2} {:9.2} {:7.2}",
        step(proved),
        step(first),
        step(second),
        medians(first),
        least(first),
        medians(second),
        least(second)
    );
}
