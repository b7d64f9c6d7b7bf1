//! Timing the sides in turn, and seeing that they leave the same.

use crate::archive;
use spokeshaver_reference::answers::{packed, SPENT};
use spokeshaver_reference::bench_kernels::BenchKernel;
use spokeshaver_reference::calls;
use std::time::Instant;

/// A run of either side: dictionary, kernel, budget, registers, state.
pub type Run = fn(&[u8], &[u8], u64, &mut [u8], &mut [u8]) -> u64;

pub const PROVED: Run = archive::run;
pub const FIRST_ENGINE: Run = calls::run;
pub const SECOND_ENGINE: Run = calls::run_by_second_engine;
/// The engines with the machine's own floats.
pub const FIRST_WITH_FLOATS: Run = host::calls::run;
pub const SECOND_WITH_FLOATS: Run = host::calls::run_by_second_engine;

/// What is timed as one: calls of a run on a kernel, each going on from what the one before
/// left, the first from the kernel's own registers and state.
pub struct Job {
    pub kernel: BenchKernel,
    pub budget: u64,
    pub calls: usize,
}

/// What a job leaves.
#[derive(PartialEq)]
struct Left {
    /// Whether every call spent its budget.
    spent: bool,
    registers: Vec<u8>,
    state: Vec<u8>,
}

/// The times of one side, in nanoseconds a call, from the least up.
pub struct Times(Vec<f64>);

/// The times of each side, which do the job in turn; none if a budget is ever not spent or
/// what is left is ever not what the first engine leaves.
pub fn in_turn<const SIDES: usize>(
    job: &Job,
    sides: [Run; SIDES],
    runs: usize,
) -> Option<[Times; SIDES]> {
    let (expected, _) = timed(FIRST_ENGINE, job);
    let mut times = [const { Vec::new() }; SIDES];
    let mut agree = expected.spent;
    // The first round is not counted.
    for round in 0..=runs {
        for (run, times) in sides.iter().zip(&mut times) {
            let (left, time) = timed(*run, job);
            agree &= left == expected;
            if round > 0 {
                times.push(time);
            }
        }
    }
    agree.then(|| times.map(Times::of))
}

/// One job: what it leaves, and its nanoseconds a call.
fn timed(run: Run, job: &Job) -> (Left, f64) {
    let BenchKernel { dictionary, kernel, registers, state, .. } = &job.kernel;
    let (mut registers, mut state) = (registers.clone(), state.clone());
    let expected = packed(SPENT, 0, job.budget as usize);
    let mut spent = true;
    let start = Instant::now();
    for _ in 0..job.calls {
        spent &= run(dictionary, kernel, job.budget, &mut registers, &mut state) == expected;
    }
    let time = start.elapsed().as_nanos() as f64 / job.calls as f64;
    (Left { spent, registers, state }, time)
}

impl Times {
    pub fn of(mut times: Vec<f64>) -> Times {
        times.sort_by(f64::total_cmp);
        Times(times)
    }

    pub fn least(&self) -> f64 {
        self.0[0]
    }

    pub fn median(&self) -> f64 {
        let middle = self.0.len() / 2;
        if self.0.len() % 2 == 1 {
            self.0[middle]
        } else {
            (self.0[middle - 1] + self.0[middle]) / 2.0
        }
    }
}
