//! Checking and packing 1,024 long words, against the reference.

use crate::archive;
use crate::measure::Times;
use spokeshaver_reference::calls;
use spokeshaver_reference::pack_kernels::{all, all_short, PackKernel};
use std::time::Instant;

/// A check or a pack of either side: dictionary, kernel, output. A check leaves the output.
type Call = fn(&[u8], &[u8], &mut [u8]) -> u64;

const CHECKS: [Call; 2] = [
    |dictionary, kernel, _| archive::check(dictionary, kernel),
    |dictionary, kernel, _| calls::check(dictionary, kernel),
];
const PACKS: [Call; 2] = [archive::pack, calls::pack_by_look_up];
const SHORTENS: [Call; 2] = [archive::shorten, calls::shorten];

/// How many calls are timed as one, a call being too short for the clock.
const CALLS: usize = 200;

/// How many words the short kernels have.
const FEW_WORDS: [usize; 3] = [1, 4, 16];

/// Prints a line for each kernel and call and tells whether both sides agree.
pub fn table(runs: usize) -> bool {
    println!();
    println!("Checks and packs, in µs a call; each call timed is the mean of {CALLS}");
    println!(
        "call     words  kernel              proved  reference  ratio of medians  ratio of least"
    );
    let mut kernels = all();
    kernels.extend(FEW_WORDS.map(all_short));
    let mut agree = true;
    for kernel in kernels {
        agree &= line("check", &kernel, CHECKS, runs);
        agree &= line("pack", &kernel, PACKS, runs);
    }
    agree & line("shorten", &all_short(1), SHORTENS, runs)
}

/// One line of the table.
fn line(call: &str, kernel: &PackKernel, sides: [Call; 2], runs: usize) -> bool {
    print!("{call:7} {:6}  {:16} ", kernel.kernel.len() / 16, kernel.name);
    let Some([proved, reference]) = in_turn(kernel, sides, runs) else {
        println!("the sides differ");
        return false;
    };
    let medians = proved.median() / reference.median();
    let least = proved.least() / reference.least();
    let (proved, reference) = (proved.median() / 1_000.0, reference.median() / 1_000.0);
    println!("{proved:9.2} {reference:10.2} {medians:17.2} {least:15.2}");
    true
}

/// The times of both sides in turn; none if an answer or an output differs. The first round is
/// not counted.
fn in_turn(kernel: &PackKernel, sides: [Call; 2], runs: usize) -> Option<[Times; 2]> {
    let mut times = [const { Vec::new() }; 2];
    let mut agree = true;
    for round in 0..=runs {
        let [proved, reference] = sides.map(|call| timed(call, kernel));
        agree &= (proved.0, &proved.1) == (reference.0, &reference.1);
        if round > 0 {
            times[0].push(proved.2);
            times[1].push(reference.2);
        }
    }
    agree.then(|| times.map(Times::of))
}

/// The last answer and output of so many calls, and the nanoseconds that one took.
fn timed(call: Call, kernel: &PackKernel) -> (u64, Vec<u8>, f64) {
    let mut out = vec![0xA5; kernel.kernel.len()];
    let mut answer = 0;
    let start = Instant::now();
    for _ in 0..CALLS {
        answer = call(&kernel.dictionary, &kernel.kernel, &mut out);
    }
    (answer, out, start.elapsed().as_nanos() as f64 / CALLS as f64)
}
