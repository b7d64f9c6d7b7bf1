//! Inputs for comparing benches, each made from a seed alone. `case(seed)` gives one call
//! with all its inputs; `perform` makes the call on any bench and hands back the answer and
//! the final content of everything lent for writing.

mod a0_moves;
mod addresses;
mod cases;
mod damage;
mod dictionaries;
mod floats;
mod instructions;
mod kernels;
mod listings;
mod logs;
mod makers;
mod pairs;
mod placements;
mod states;

use crate::answers::Answer;
use crate::calls;
use crate::log;
use crate::placing;
use std::collections::BTreeSet;

pub use cases::case;
pub use floats::pattern;
pub use listings::every_listing_case;
pub use logs::every_log_case;

/// How many calls there are. So many seeds in a row give each of them once.
pub const CALLS: u64 = 20;

/// One call with all its inputs. Vectors that the call may write are lent as they stand here.
#[derive(Clone, PartialEq, Eq, Debug)]
pub struct Case {
    pub seed: u64,
    /// Empty for start, for logs and for placements, which have none.
    pub dictionary: Vec<u8>,
    pub call: Call,
}

/// The calls.
#[derive(Clone, PartialEq, Eq, Debug)]
pub enum Call {
    Check { kernel: Vec<u8> },
    Pack { kernel: Vec<u8>, out: Vec<u8> },
    Unpack { kernel: Vec<u8>, out: Vec<u8> },
    Shorten { word: Vec<u8>, out: Vec<u8> },
    Expand { word: Vec<u8>, out: Vec<u8> },
    Decode { kernel: Vec<u8>, place: u64 },
    Start { mask: u16, flag0: u16, flag1: u16, state: Vec<u8> },
    Step { kernel: Vec<u8>, registers: Vec<u8>, state: Vec<u8> },
    Run { kernel: Vec<u8>, budget: u64, registers: Vec<u8>, state: Vec<u8> },
    Forward { kernel: Vec<u8> },
    Pair { long: Vec<u8>, sent: Vec<u8> },
    LogAppend { log: Vec<u8>, count: u64, values: log::Values },
    LogRead { log: Vec<u8>, count: u64 },
    LogRuns { log: Vec<u8>, count: u64 },
    LogRun { log: Vec<u8>, count: u64, answer: u64, state: Vec<u8> },
    List { kernel: Vec<u8>, out: Vec<u8> },
    Read { text: Vec<u8>, out: Vec<u8> },
    Place { order: u64, record: Vec<u8>, x: u32, y: u32, out: Vec<u8> },
    PlaceKernel { out: Vec<u8> },
    PlaceLoad { record: Vec<u8>, registers: Vec<u8> },
}

impl Call {
    pub fn name(&self) -> &'static str {
        match self {
            Call::Check { .. } => "check",
            Call::Pack { .. } => "pack",
            Call::Unpack { .. } => "unpack",
            Call::Shorten { .. } => "shorten",
            Call::Expand { .. } => "expand",
            Call::Decode { .. } => "decode",
            Call::Start { .. } => "start",
            Call::Step { .. } => "step",
            Call::Run { .. } => "run",
            Call::Forward { .. } => "forward",
            Call::Pair { .. } => "pair",
            Call::LogAppend { .. } => "log_append",
            Call::LogRead { .. } => "log_read",
            Call::LogRuns { .. } => "log_runs",
            Call::LogRun { .. } => "log_run",
            Call::List { .. } => "list",
            Call::Read { .. } => "read",
            Call::Place { .. } => "place",
            Call::PlaceKernel { .. } => "place_kernel",
            Call::PlaceLoad { .. } => "place_load",
        }
    }
}

/// What a call gave: the packed answer and the buffers it could write, after the call. A
/// buffer that the call doesn't take is empty.
#[derive(Clone, PartialEq, Eq, Debug, Default)]
pub struct Outcome {
    pub answer: u64,
    pub out: Vec<u8>,
    pub registers: Vec<u8>,
    pub state: Vec<u8>,
}

/// A bench to compare.
pub trait Bench {
    /// Makes a case's call on the buffers that it lends for writing, and gives the packed answer.
    fn call(&mut self, case: &Case, lent: &mut Outcome) -> u64;
}

/// This reference as a bench.
#[derive(Clone, Copy, Debug, Default)]
pub struct Reference;

impl Bench for Reference {
    fn call(&mut self, case: &Case, lent: &mut Outcome) -> u64 {
        let dictionary = &case.dictionary[..];
        let Outcome { out, registers, state, .. } = lent;
        match &case.call {
            Call::Check { kernel } => calls::check(dictionary, kernel),
            Call::Pack { kernel, .. } => calls::pack(dictionary, kernel, out),
            Call::Unpack { kernel, .. } => calls::unpack(dictionary, kernel, out),
            Call::Shorten { word, .. } => calls::shorten(dictionary, word, out),
            Call::Expand { word, .. } => calls::expand(dictionary, word, out),
            Call::Decode { kernel, place } => calls::decode(dictionary, kernel, *place),
            Call::Start { mask, flag0, flag1, .. } => calls::start(*mask, *flag0, *flag1, state),
            Call::Step { kernel, .. } => calls::step(dictionary, kernel, registers, state),
            Call::Run { kernel, budget, .. } => {
                calls::run(dictionary, kernel, *budget, registers, state)
            }
            Call::Forward { kernel } => calls::forward(dictionary, kernel),
            Call::Pair { long, .. } => calls::pair(dictionary, long, out),
            Call::LogAppend { count, values, .. } => log::log_append(out, *count, values),
            Call::LogRead { count, .. } => log::log_read(out, *count),
            Call::LogRuns { count, .. } => log::log_runs(out, *count),
            Call::LogRun { count, answer, .. } => log::log_run(out, *count, *answer, state),
            Call::List { kernel, .. } => calls::list(dictionary, kernel, out),
            Call::Read { text, .. } => calls::read(dictionary, text, out),
            Call::Place { order, record, x, y, .. } => placing::place(*order, record, *x, *y, out),
            Call::PlaceKernel { .. } => placing::place_kernel(out),
            Call::PlaceLoad { record, .. } => placing::place_load(record, registers),
        }
    }
}

/// Makes a case's call on a bench.
pub fn perform(case: &Case, bench: &mut impl Bench) -> Outcome {
    let mut after = lent(case);
    after.answer = bench.call(case, &mut after);
    after
}

/// The buffers that a case lends for writing, as they stand before the call, answer 0.
pub fn lent(case: &Case) -> Outcome {
    let mut before = Outcome::default();
    match &case.call {
        Call::Pack { out, .. }
        | Call::Unpack { out, .. }
        | Call::List { out, .. }
        | Call::Read { out, .. }
        | Call::Place { out, .. }
        | Call::PlaceKernel { out }
        | Call::Shorten { out, .. }
        | Call::Expand { out, .. } => before.out = out.clone(),
        // Nothing is written there: it must stay as it is.
        Call::Pair { sent, .. } => before.out = sent.clone(),
        Call::LogRead { log, .. } | Call::LogRuns { log, .. } | Call::LogAppend { log, .. } => {
            before.out = log.clone()
        }
        // Of the state too nothing is written.
        Call::LogRun { log, state, .. } => {
            before.out = log.clone();
            before.state = state.clone();
        }
        Call::Start { state, .. } => before.state = state.clone(),
        Call::PlaceLoad { registers, .. } => before.registers = registers.clone(),
        Call::Step { registers, state, .. } | Call::Run { registers, state, .. } => {
            before.registers = registers.clone();
            before.state = state.clone();
        }
        Call::Check { .. } | Call::Decode { .. } | Call::Forward { .. } => {}
    }
    before
}

/// The name under which an answer is counted: the call's, and `ahead` where forward counts 1.
pub fn counted_as(case: &Case, answer: u64) -> &'static str {
    match case.call {
        Call::Forward { .. } if Answer::of(answer).count == 1 => "ahead",
        _ => case.call.name(),
    }
}

/// How many names answers are counted under.
pub const NAMES: usize = CALLS as usize + 1;

/// The numbers that can come up at all, by the name under which they are counted. Packing never answers 17: as many
/// long words as a kernel may have fill its bytes, so one more is 1 already.
pub fn possible(name: &str) -> BTreeSet<u8> {
    let kernel = [1, 2, 3, 4, 5, 6, 7, 8, 9, 10, 11, 12];
    let with = |more: &[u8]| kernel.iter().chain(more).copied().collect();
    match name {
        "check" | "forward" => with(&[0, 17]),
        "ahead" => [0].into(),
        "pack" => with(&[0, 14]),
        "unpack" | "list" => with(&[0, 14, 17]),
        "read" => [0, 1, 2, 14, 30].into(),
        "shorten" => [0, 1, 2, 4, 5, 13, 14].into(),
        "expand" => [0, 1, 2, 4, 5, 14].into(),
        "decode" => (0..=11).collect(),
        "start" | "place_load" => [0, 1].into(),
        "place" => [0, 1, 7, 14].into(),
        "place_kernel" => [0, 14].into(),
        "step" => with(&[0, 15, 17, 20, 22]),
        "pair" => with(&[0, 17, 31]),
        "log_read" | "log_runs" => [0, 1, 32].into(),
        "log_append" | "log_run" => [0, 1, 14, 32].into(),
        _ => with(&[15, 16, 17, 20, 21, 22]),
    }
}
